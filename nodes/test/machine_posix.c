/* The machine is this one: files by the operating system, no counter. */
#include "machine.h"

#include <stdio.h>
#include <stdlib.h>

static FILE *files[FILES];

void machine_open(int file, const char *name, int writing)
{
    files[file] = fopen(name, writing ? "wb" : "rb");
    if (files[file] == NULL) {
        machine_end(2);
    }
}

void machine_read(int file, void *bytes, uintptr_t count)
{
    if (fread(bytes, 1, count, files[file]) != count) {
        machine_end(2);
    }
}

void machine_write(int file, const void *bytes, uintptr_t count)
{
    if (fwrite(bytes, 1, count, files[file]) != count) {
        machine_end(2);
    }
}

uint64_t machine_ticks(void)
{
    return 0;
}

void machine_loop(uint32_t rounds)
{
    (void)rounds;
}

_Noreturn void machine_end(int status)
{
    exit(status);
}
