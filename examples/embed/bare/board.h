/* What the programs here use of the board: a UART, a timer, and the way to switch it off. */
#ifndef BOARD_H
#define BOARD_H

#include <stdbool.h>
#include <stddef.h>
#include <stdint.h>

/* Sets the UART to 115,200 baud, 8 bits, no parity, with its FIFOs of 16 octets or more. */
void uart_begin(void);

/* Takes an octet that has come, and gives whether one was there. */
bool uart_take(uint8_t *octet);

/* Sends octets; it waits while the FIFO is full. */
void uart_send(const uint8_t *octets, size_t length);

/* Milliseconds since the board was switched on. */
uint64_t milliseconds(void);

/* Switches the board off. */
_Noreturn void switch_off(void);

#endif
