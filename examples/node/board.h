/* What a board gives the firmware: its radio, here a serial line, and the stack that calls of the library run on. */
#ifndef BOARD_H
#define BOARD_H

#include <stdint.h>

void board_start(void);
uint8_t board_receive(void); /* waits for a byte */
void board_send(uint8_t byte);

/*
 * Runs a call on a stack of its own and clears that stack: what a call leaves there may be the MAC of a token and the secret.
 * CALL_STACK has the most that jws_verify takes on a Cortex-M0 for the deepest header, whatever buffers it is lent (`make nodes` says it),
 * and room for its caller, for memset and for an interrupt.
 */
enum { CALL_STACK = 5440 + 256 };
void on_call_stack(void (*call)(void));

#endif
