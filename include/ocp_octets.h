/* Octets of packets and journals: big-endian numbers of 1 to 8 octets, the error control of packets, and CRC-32. */
#ifndef OCP_OCTETS_H
#define OCP_OCTETS_H

#include <stddef.h>
#include <stdint.h>

static inline void put_number(uint8_t *octets, uint64_t number, int length)
{
    for (int at = 0; at < length; at++)
        octets[at] = (uint8_t)(number >> 8 * (length - 1 - at));
}

static inline uint64_t number_at(const uint8_t *octets, int length)
{
    uint64_t number = 0;
    for (int at = 0; at < length; at++)
        number = number << 8 | octets[at];
    return number;
}

/* The remainder of octets that follow others with a remainder of their own: x^16 + x^12 + x^5 + 1, four bits at a time. */
static inline uint16_t remainder_after(uint16_t rest, const uint8_t *octets, size_t length)
{
    /* the remainder of each four bits, followed by 16 zeros */
    static const uint16_t remainders[16] = {0x0000, 0x1021, 0x2042, 0x3063, 0x4084, 0x50a5, 0x60c6, 0x70e7,
                                            0x8108, 0x9129, 0xa14a, 0xb16b, 0xc18c, 0xd1ad, 0xe1ce, 0xf1ef};
    for (size_t at = 0; at < length; at++) {
        rest = (uint16_t)(rest << 4 ^ remainders[rest >> 12 ^ octets[at] >> 4]);
        rest = (uint16_t)(rest << 4 ^ remainders[rest >> 12 ^ (octets[at] & 15)]);
    }
    return rest;
}

/* The error control of packets: their remainder, preset all ones. */
static inline uint16_t error_control(const uint8_t *octets, size_t length)
{
    return remainder_after(0xffff, octets, length);
}

/* CRC-32 of ISO-HDLC (Ethernet, zlib) over octets that follow others, four bits at a time: `check` is that of the octets
 * before, and 0 at the beginning. */
static inline uint32_t crc_32(uint32_t check, const uint8_t *octets, size_t length)
{
    static const uint32_t remainders[16] = {0x00000000, 0x1db71064, 0x3b6e20c8, 0x26d930ac, 0x76dc4190, 0x6b6b51f4, 0x4db26158, 0x5005713c,
                                            0xedb88320, 0xf00f9344, 0xd6d6a3e8, 0xcb61b38c, 0x9b64c2b0, 0x86d3d2d4, 0xa00ae278, 0xbdbdf21c};
    check = ~check;
    for (size_t at = 0; at < length; at++) {
        check = check >> 4 ^ remainders[(check ^ octets[at]) & 15];
        check = check >> 4 ^ remainders[(check ^ octets[at] >> 4) & 15];
    }
    return ~check;
}

#endif
