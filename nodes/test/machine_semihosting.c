/*
 * An emulated machine without an operating system, or a process of another processor: files by semihosting, Arm's and RISC-V's way for a
 * program to ask the machine that watches it (Arm's "Semihosting for AArch32 and AArch64"; RISC-V's has the same numbers).
 */
#include "machine.h"

enum { SYS_OPEN = 0x01, SYS_WRITE = 0x05, SYS_READ = 0x06, SYS_EXIT_EXTENDED = 0x20 };
enum { MODE_RB = 1, MODE_WB = 5, APPLICATION_EXIT = 0x20026 };

static uintptr_t ask(uintptr_t operation, const void *block)
{
#if defined(__arm__)
    register uintptr_t number __asm__("r0") = operation;
    register const void *words __asm__("r1") = block;
    __asm__ volatile("bkpt 0xab" : "+r"(number) : "r"(words) : "memory");
#elif defined(__aarch64__)
    register uintptr_t number __asm__("x0") = operation;
    register const void *words __asm__("x1") = block;
    __asm__ volatile("hlt 0xf000" : "+r"(number) : "r"(words) : "memory");
#else
    register uintptr_t number __asm__("a0") = operation;
    register const void *words __asm__("a1") = block;
    /* The three are known by standing side by side, in one page and uncompressed. */
    __asm__ volatile(".option push\n.option norvc\n.balign 16\n"
                     "slli x0, x0, 0x1f\nebreak\nsrai x0, x0, 7\n.option pop"
                     : "+r"(number) : "r"(words) : "memory");
#endif
    return number;
}

static uintptr_t handles[FILES];

void machine_open(int file, const char *name, int writing)
{
    uintptr_t block[3], length = 0;
    while (name[length] != 0) {
        length++;
    }
    block[0] = (uintptr_t)name;
    block[1] = writing ? MODE_WB : MODE_RB;
    block[2] = length;
    handles[file] = ask(SYS_OPEN, block);
    if (handles[file] == (uintptr_t)-1) {
        machine_end(2);
    }
}

/* Both operations answer how many bytes were not moved. */
static void move(uintptr_t operation, int file, const void *bytes, uintptr_t count)
{
    uintptr_t block[3];
    block[0] = handles[file];
    block[1] = (uintptr_t)bytes;
    block[2] = count;
    if (count > 0 && ask(operation, block) != 0) {
        machine_end(2);
    }
}

void machine_read(int file, void *bytes, uintptr_t count)
{
    move(SYS_READ, file, bytes, count);
}

void machine_write(int file, const void *bytes, uintptr_t count)
{
    move(SYS_WRITE, file, bytes, count);
}

_Noreturn void machine_end(int status)
{
    uintptr_t block[2];
    block[0] = APPLICATION_EXIT;
    block[1] = (uintptr_t)status;
    ask(SYS_EXIT_EXTENDED, block);
    for (;;) {
    }
}
