/* The three functions of the C library that the engine calls, octet by octet. A board has faster ones. */
#include <stddef.h>

void *memcpy(void *to, const void *from, size_t octets)
{
    unsigned char *target = to;
    const unsigned char *source = from;
    while (octets-- > 0)
        *target++ = *source++;
    return to;
}

void *memmove(void *to, const void *from, size_t octets)
{
    unsigned char *target = to;
    const unsigned char *source = from;
    if (target <= source)
        return memcpy(to, from, octets);
    while (octets-- > 0)
        target[octets] = source[octets];
    return to;
}

void *memset(void *to, int octet, size_t octets)
{
    unsigned char *target = to;
    while (octets-- > 0)
        *target++ = (unsigned char)octet;
    return to;
}
