/* What the programs that look at a call's stack share: a stack of its own, filled with a pattern, and the key table from a file. */
#ifndef OWN_STACK_H
#define OWN_STACK_H

#include "jws.h"

#include <stdio.h>
#include <string.h>
#include <ucontext.h>

enum { ROOM = 1 << 16, PATTERN = 0x5A, TABLE_MAX = 8192 };

static uint8_t stack[ROOM], table[TABLE_MAX];
static size_t table_length;
static ucontext_t home, away;

/* Runs a call on that stack. */
static void run(void (*call)(void))
{
    memset(stack, PATTERN, sizeof stack);
    getcontext(&away);
    away.uc_stack.ss_sp = stack;
    away.uc_stack.ss_size = sizeof stack;
    away.uc_link = &home;
    makecontext(&away, call, 0);
    swapcontext(&home, &away);
}

/* Whether the table could be read. */
static int read_table(const char *name)
{
    FILE *file = fopen(name, "rb");
    if (file == NULL) {
        return 0;
    }
    table_length = fread(table, 1, sizeof table, file);
    fclose(file);
    return 1;
}

#endif
