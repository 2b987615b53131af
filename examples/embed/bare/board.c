/* The board: QEMU's machine `virt`, with a PL011 as UART, the timer of ARMv8-A, and PSCI. */
#include "board.h"

#define REGISTER(offset) (*(volatile uint32_t *)(UINT64_C(0x09000000) + (offset)))

enum {
    DATA = 0x00,
    FLAGS = 0x18,
    BAUD_WHOLE = 0x24,
    BAUD_PART = 0x28, /* in 64ths */
    LINE = 0x2c,
    CONTROL = 0x30,
    INTERRUPTS = 0x38,

    RECEIVER_EMPTY = 1 << 4,
    SENDER_FULL = 1 << 5,
    FIFOS = 1 << 4,
    EIGHT_BITS = 3 << 5,
    ENABLED = 1 << 0 | 1 << 8 | 1 << 9 /* the UART, its sender, its receiver */
};

void uart_begin(void)
{
    REGISTER(CONTROL) = 0;
    REGISTER(INTERRUPTS) = 0;
    REGISTER(BAUD_WHOLE) = 13; /* 24 MHz / 16 / 115,200 = 13 + 1 / 64 */
    REGISTER(BAUD_PART) = 1;
    REGISTER(LINE) = EIGHT_BITS | FIFOS;
    REGISTER(CONTROL) = ENABLED;
}

bool uart_take(uint8_t *octet)
{
    if (REGISTER(FLAGS) & RECEIVER_EMPTY)
        return false;
    *octet = (uint8_t)REGISTER(DATA);
    return true;
}

void uart_send(const uint8_t *octets, size_t length)
{
    for (size_t at = 0; at < length; at++) {
        while (REGISTER(FLAGS) & SENDER_FULL)
            ;
        REGISTER(DATA) = octets[at];
    }
}

uint64_t milliseconds(void)
{
    uint64_t ticks, in_second;
    __asm__ volatile("isb\n\tmrs %0, cntvct_el0\n\tmrs %1, cntfrq_el0" : "=r"(ticks), "=r"(in_second));
    return ticks / (in_second / 1000);
}

_Noreturn void switch_off(void)
{
    register uint64_t function __asm__("x0") = 0x84000008; /* PSCI: SYSTEM_OFF */
    __asm__ volatile("hvc #0" : "+r"(function) : : "x1", "x2", "x3", "memory");
    for (;;)
        __asm__ volatile("wfe");
}
