/* A scrub of the work region: writes a pattern, reads it back, and does so again with the pattern inverted. The result
 * is how many words differ from what was written: 0 for a memory without a fault. */
#include "ocp.h"

#define WORDS (WORK_OCTETS / sizeof(word))

static __attribute__((noinline)) word scrub(word pattern)
{
    volatile word *memory = (volatile word *)WORK;
    word faults = 0;
    for (word i = 0; i < WORDS; i++)
        memory[i] = pattern + i;
    for (word i = 0; i < WORDS; i++)
        if (memory[i] != pattern + i)
            faults++;
    return faults;
}

word entry(const octet *arguments, word count)
{
    const word pattern = 0x5555555555555555;
    return scrub(pattern) + scrub(~pattern);
}
