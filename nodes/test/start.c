/*
 * Where a machine begins, and its counter. Without an operating system the counters below go up with the instructions where qemu runs with
 * -icount; a process of another processor (PROCESS is defined) has a stack already, and no counter.
 */
#include "machine.h"

int main(void);

void machine_loop(uint32_t rounds)
{
#if defined(__arm__)
    __asm__ volatile(".syntax unified\n1: subs %0, %0, #1\nbne 1b" : "+l"(rounds) : : "cc");
#elif defined(__aarch64__)
    __asm__ volatile("1: subs %w0, %w0, #1\nb.ne 1b" : "+r"(rounds) : : "cc");
#else
    __asm__ volatile("1: addi %0, %0, -1\nbnez %0, 1b" : "+r"(rounds));
#endif
}

/* A fault ends the program. */
__attribute__((used, aligned(4))) static void fault(void)
{
    machine_end(4);
}

#if defined(PROCESS)

uint64_t machine_ticks(void)
{
    return 0;
}

#if defined(__aarch64__)
__attribute__((naked)) void _start(void) { __asm__("b main"); }
#else
__attribute__((naked)) void _start(void) { __asm__("j main"); }
#endif

#elif defined(__arm__)

/* A Cortex-M: the stack and the first instruction by the table at the memory's start; the system timer counts down, 24 bits wide. */
#define TIMER ((volatile uint32_t *)0xE000E010)
enum { CONTROL, RELOAD, CURRENT, ON = 5, PASSED = 1 << 16, GREATEST = 0xFFFFFF };

uint64_t machine_ticks(void)
{
    static uint64_t rounds;
    uint32_t now = TIMER[CURRENT];
    if (TIMER[CONTROL] & PASSED) {
        rounds += GREATEST + 1;
        now = TIMER[CURRENT];
    }
    return rounds + (GREATEST - now);
}

void _start(void)
{
    TIMER[RELOAD] = GREATEST;
    TIMER[CURRENT] = 0;
    TIMER[CONTROL] = ON;
    main();
}

extern uint8_t stack_top[];
__attribute__((section(".vectors"), used)) static const void *const vectors[16] = {
    stack_top, (const void *)_start, (const void *)fault, (const void *)fault, (const void *)fault, (const void *)fault, (const void *)fault,
};

#elif defined(__aarch64__)

/* An Arm Cortex-A without an operating system. */
uint64_t machine_ticks(void)
{
    uint64_t cycles;
    __asm__ volatile("isb\nmrs %0, pmccntr_el0" : "=r"(cycles));
    return cycles;
}

/* All of memory as it stands, in one block, and as normal memory: in any other words may not be read at every address. */
static uint64_t blocks[512] __attribute__((aligned(4096)));

__attribute__((used)) static void map_memory(void)
{
    uint64_t normal = 0xFF, control;
    uint64_t translation = 25 | 1 << 8 | 1 << 10 | 3 << 12 | 1 << 23; /* 39 bits, cached, shared, no other half */
    blocks[1] = 0x40000000 | 1 << 10 | 3 << 8 | 1;                    /* the second gibibyte: accessed, shared, a block */
    __asm__ volatile("msr mair_el1, %1\nmsr tcr_el1, %2\nmsr ttbr0_el1, %3\nisb\n"
                     "mrs %0, sctlr_el1\norr %0, %0, #1\nmsr sctlr_el1, %0\nisb"
                     : "=&r"(control) : "r"(normal), "r"(translation), "r"(blocks) : "memory");
}

/* The stack, the registers of 128 bits, faults, memory, the cycle counter. */
__attribute__((naked, section(".vectors"))) void _start(void)
{
    __asm__("ldr x0, =stack_top\nmov sp, x0\n"
            "mov x0, #(3 << 20)\nmsr cpacr_el1, x0\nisb\n"
            "ldr x0, =faults\nmsr vbar_el1, x0\n"
            "bl map_memory\n"
            "mov x0, #1\nmsr pmcr_el0, x0\n"
            "mov x0, #(1 << 31)\nmsr pmcntenset_el0, x0\n"
            "b main\n"
            ".balign 2048\nfaults:\n.rept 16\nb fault\n.balign 128\n.endr");
}

#else

/* A RISC-V processor without an operating system, in machine mode. */
uint64_t machine_ticks(void)
{
#if __riscv_xlen == 32
    uint32_t low, high, again;
    do {
        __asm__ volatile("csrr %0, minstreth\ncsrr %1, minstret\ncsrr %2, minstreth" : "=r"(high), "=r"(low), "=r"(again));
    } while (high != again);
    return (uint64_t)high << 32 | low;
#else
    uint64_t count;
    __asm__ volatile("csrr %0, minstret" : "=r"(count));
    return count;
#endif
}

__attribute__((naked, section(".vectors"))) void _start(void)
{
    __asm__("la sp, stack_top\nla t0, fault\ncsrw mtvec, t0\nj main");
}

#endif
