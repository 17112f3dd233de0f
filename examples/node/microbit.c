/* The BBC micro:bit: an nRF51822 with a Cortex-M0, 256 KiB of flash and 16 KiB of memory; its UART. */
#include "board.h"

#define UART(offset) (*(volatile uint32_t *)(0x40002000 + (offset)))
enum { START_RECEIVE = 0x000, START_SEND = 0x008, RECEIVED = 0x108, SENT = 0x11C, ENABLE = 0x500, PIN_SEND = 0x50C, PIN_RECEIVE = 0x514,
       RECEIVE = 0x518, SEND = 0x51C, SPEED = 0x524 };

void board_start(void)
{
    UART(PIN_SEND) = 24;
    UART(PIN_RECEIVE) = 25;
    UART(SPEED) = 0x01D7E000; /* 115200 */
    UART(ENABLE) = 4;
    UART(START_RECEIVE) = 1;
    UART(START_SEND) = 1;
}

uint8_t board_receive(void)
{
    while (UART(RECEIVED) == 0) {
    }
    UART(RECEIVED) = 0;
    return (uint8_t)UART(RECEIVE);
}

void board_send(uint8_t byte)
{
    UART(SENT) = 0;
    UART(SEND) = byte;
    while (UART(SENT) == 0) {
    }
}
