/* Arm's MPS2 board with a Cortex-M4 (application note 386); its first UART. */
#include "board.h"

#define UART(offset) (*(volatile uint32_t *)(0x40004000 + (offset)))
enum { DATA = 0x00, STATE = 0x04, CONTROL = 0x08, DIVIDER = 0x10, SEND_FULL = 1, RECEIVE_FULL = 2, SEND_AND_RECEIVE = 3 };

void board_start(void)
{
    UART(DIVIDER) = 217; /* 115200 of 25 MHz */
    UART(CONTROL) = SEND_AND_RECEIVE;
}

uint8_t board_receive(void)
{
    while ((UART(STATE) & RECEIVE_FULL) == 0) {
    }
    return (uint8_t)UART(DATA);
}

void board_send(uint8_t byte)
{
    while (UART(STATE) & SEND_FULL) {
    }
    UART(DATA) = byte;
}
