/* Start-up of a Cortex-M: the vectors, memory as C expects it, and the calls' own stack. The places come from the board's linker script. */
#include "board.h"

extern uint32_t stack_top[], data_start[], data_end[], data_load[], bss_start[], bss_end[];
int main(void);

static void stop(void)
{
    for (;;) {
    }
}

void reset(void)
{
    uint32_t *to, *from = data_load;
    for (to = data_start; to < data_end; to++) {
        *to = *from++;
    }
    for (to = bss_start; to < bss_end; to++) {
        *to = 0;
    }
    board_start();
    main();
    stop();
}

/* A fault stops the node where it is: the last setpoint stays. */
__attribute__((section(".vectors"), used)) static const void *const vectors[16] = {
    stack_top, (const void *)reset, (const void *)stop, (const void *)stop, (const void *)stop, (const void *)stop, (const void *)stop,
};

static uint8_t call_stack[CALL_STACK] __attribute__((aligned(8)));

/* Runs a call (r0) on a stack that begins at `top` (r1), its highest address. */
void run_on(void (*call)(void), uint8_t *top);
__asm__(".section .text.run_on, \"ax\"\n"
        ".syntax unified\n"
        ".balign 2\n"
        ".global run_on\n"
        ".thumb_func\n"
        "run_on:\n"
        "    push {r4, lr}\n"
        "    mov r4, sp\n"
        "    mov sp, r1\n"
        "    blx r0\n"
        "    mov sp, r4\n"
        "    pop {r4, pc}\n"
        ".text");

void on_call_stack(void (*call)(void))
{
    volatile uint8_t *byte = call_stack; /* volatile: no store may be left out, though nothing reads it again */
    uint32_t i;
    run_on(call, call_stack + CALL_STACK);
    for (i = 0; i < CALL_STACK; i++) {
        byte[i] = 0;
    }
}
