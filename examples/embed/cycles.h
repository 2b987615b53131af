/* When the cycles of a flight program are due, by the clock. A cycle whose time has gone by is skipped, but counted: so the
 * number of the cycle follows the clock, and after a slow cycle the program reads its input before the next one. */
#ifndef CYCLES_H
#define CYCLES_H

#include <stdint.h>

/* In one unit of time: from a cycle to the next, and when the next one is due. */
struct cycles {
    uint64_t period, due;
};

/* Gives how many cycles are due at a time. The program runs the last of them and skips the others. */
static inline uint64_t cycles_due(struct cycles *cycles, uint64_t now)
{
    if (now < cycles->due)
        return 0;
    uint64_t count = (now - cycles->due) / cycles->period + 1;
    cycles->due += count * cycles->period;
    return count;
}

#endif
