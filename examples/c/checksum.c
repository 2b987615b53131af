/* Fletcher's checksum of 16 bits over the arguments, as examples/procedures/checksum.asm has it. */
#include "ocp.h"

word entry(const octet *arguments, word count)
{
    half low = 0;
    half high = 0;
    for (word i = 0; i < count; i++) {
        low = (low + arguments[i]) % 255;
        high = (high + low) % 255;
    }
    return (word)high << 8 | low;
}
