/* Parts the octets of a link into telecommand packets, and finds the next one after octets that are none: the rule of
 * docs/GROUND.md, "A damaged link".
 *
 * A packet is as long as it says. If its error control is wrong, the next plausible header within it whose packet has the right
 * error control begins the next packet, and the octets before it are passed over. If there is none, the packet is given as it is
 * if the engine answers it, and is passed over if not. After a quiet time an unfinished packet holds no whole one back.
 *
 * The time is proportional to the octets. Each one is added to the error control once. What begins the octets that are held is
 * judged once a read, and is then taken or passed over. Each header after it is judged once, in order: `looked` is where that
 * has come to, and begins anew only when what was looked at is gone. A judgement takes the same time whatever the length is.
 * Octets are moved to the front after as many were dropped as are moved at most. Only a quiet time looks once more at what is
 * held. */
#ifndef PARTING_H
#define PARTING_H

#include "ocp_octets.h"

#include <stdbool.h>
#include <stddef.h>
#include <stdint.h>
#include <string.h>

enum {
    PRIMARY_HEADER = 6, /* octets */
    LONGEST_PACKET = PRIMARY_HEADER + 65536,
    SHORTEST_OF_PROFILE = PRIMARY_HEADER + 5 + 2,               /* a telecommand without data */
    LONGEST_OF_PROFILE = PRIMARY_HEADER + 5 + 4 + 2048 * 8 + 2, /* a load of 2,048 slots */
    MOST_HELD = LONGEST_PACKET + LONGEST_OF_PROFILE,            /* then the first packet is judged */
    STRIDE = 16                                                 /* octets from a kept remainder to the next */
};

/* Octets that have come. Begins as zeros, but for the application process identifier. */
struct parting {
    uint16_t apid;
    size_t first, end;                          /* the octets that are held: from the first one to before the end */
    size_t looked;                              /* no packet begins after the first of them and before this many octets later */
    uint64_t passed;                            /* octets that were passed over */
    uint8_t octets[2 * MOST_HELD];              /* room for what is held, and for as many that are gone */
    uint16_t kept[2 * MOST_HELD / STRIDE + 1]; /* the remainder of the octets before each STRIDE-th one */
};

/* ---- error control of any piece in constant time
 *
 * The error control is linear: the remainder after a piece is that of the piece, plus that before it moved over as many zeros.
 * So the remainders before and after a piece tell its own, and each is at most STRIDE octets from one that is kept. */

/* The product of two remainders. */
static inline uint16_t product(uint16_t one, uint16_t other)
{
    uint16_t sum = 0;
    for (int bit = 15; bit >= 0; bit--)
        sum = (uint16_t)(sum << 1 ^ (sum >> 15) * 0x1021 ^ (one >> bit & 1) * other);
    return sum;
}

/* What a remainder becomes after octets of zeros, of which there are less than 1,048,576. */
static inline uint16_t moved(uint16_t rest, size_t zeros)
{
    /* what 1 becomes after 0, 1, 2, .. octets, after as many times 16, 256, .. */
    static const uint16_t moves[5][16] = {
        {0x0001, 0x0100, 0x1021, 0x3331, 0x3730, 0x76b4, 0xaa51, 0x45a0, 0xb861, 0x47d3, 0xeb23, 0x6f45, 0xd849, 0x0375, 0x4563, 0x7b61},
        {0x0001, 0xaefc, 0x8e29, 0xcde2, 0x13fc, 0xda35, 0x106f, 0xcbc5, 0x36c4, 0x400c, 0x30df, 0x0a5d, 0x2764, 0x0224, 0x46cf, 0x6d5a},
        {0x0001, 0xfd50, 0xaa9e, 0x26bd, 0x881c, 0x21ec, 0xdb20, 0x2473, 0x4458, 0x8807, 0x88b5, 0x385c, 0x21ef, 0xccf1, 0xcbf0, 0x2f9f},
        {0x0001, 0x0002, 0x0004, 0x0008, 0x0010, 0x0020, 0x0040, 0x0080, 0x0100, 0x0200, 0x0400, 0x0800, 0x1000, 0x2000, 0x4000, 0x8000},
        {0x0001, 0x1021, 0x3730, 0xaa51, 0xb861, 0xeb23, 0xd849, 0x4563, 0xaefc, 0x10e2, 0xde1f, 0xd5f6, 0x650b, 0x45b4, 0x1566, 0xf0e6}};
    for (int digit = 0; zeros >> 4 * digit != 0; digit++)
        if ((zeros >> 4 * digit & 15) != 0)
            rest = product(rest, moves[digit][zeros >> 4 * digit & 15]);
    return rest;
}

/* The remainder of the octets before a place. */
static inline uint16_t remainder_before(const struct parting *input, size_t at)
{
    size_t number = at / STRIDE;
    return remainder_after(input->kept[number], input->octets + number * STRIDE, at % STRIDE);
}

static inline bool is_right(const struct parting *input, size_t at, size_t length)
{
    uint16_t before = remainder_before(input, at), after = remainder_before(input, at + length);
    return after == moved(before ^ 0xffff, length);
}

/* ---- octets in */

/* Gives how many octets there is room for after the end, at least one if all packets were taken. */
static inline size_t room_for_octets(struct parting *input)
{
    if (input->first >= MOST_HELD) {
        size_t strides = input->first / STRIDE, gone = strides * STRIDE;
        input->first -= gone;
        input->end -= gone;
        input->looked -= gone;
        memmove(input->octets, input->octets + gone, input->end);
        memmove(input->kept, input->kept + strides, (input->end / STRIDE + 1) * sizeof input->kept[0]);
    }
    return sizeof input->octets - input->end;
}

/* Notes that octets were written after the end. */
static inline void add_octets(struct parting *input, size_t count)
{
    size_t number = input->end / STRIDE;
    input->end += count;
    for (; number < input->end / STRIDE; number++)
        input->kept[number + 1] = remainder_after(input->kept[number], input->octets + number * STRIDE, STRIDE);
}

static inline size_t held_octets(const struct parting *input)
{
    return input->end - input->first;
}

static inline void drop_octets(struct parting *input, size_t count)
{
    input->first += count;
    input->looked = input->first + 1;
}

/* ---- packets out */

static inline size_t length_at(const struct parting *input, size_t at)
{
    return PRIMARY_HEADER + 1 + ((size_t)input->octets[at + 4] << 8 | input->octets[at + 5]);
}

static inline bool is_whole(const struct parting *input, size_t at)
{
    return input->end - at >= PRIMARY_HEADER && length_at(input, at) <= input->end - at;
}

/* Whether the octets from a place on, if they are held, are a plausible header of a telecommand. */
static inline bool is_plausible(const struct parting *input, size_t at)
{
    const uint8_t *octets = input->octets + at;
    size_t here = input->end - at;
    bool is_ours = octets[0] == (0x18 | input->apid >> 8) && (here < 2 || octets[1] == (input->apid & 0xff));
    if (!is_ours || (here >= 3 && octets[2] >> 6 != 3))
        return false;
    return here < PRIMARY_HEADER || (length_at(input, at) >= SHORTEST_OF_PROFILE && length_at(input, at) <= LONGEST_OF_PROFILE);
}

/* Whether the engine answers a packet that begins with the first octets, whatever else is wrong with it. */
static inline bool is_answered(const struct parting *input)
{
    const uint8_t *octets = input->octets + input->first;
    return (octets[0] | 0x08) == (0x18 | input->apid >> 8) && octets[1] == (input->apid & 0xff);
}

/* Where the next packet begins after the first octet and before the limit, or the limit. One that is not whole yet may still turn
 * out to be none; after a quiet time it does not count. */
static inline size_t next_start(struct parting *input, size_t limit, bool quiet)
{
    for (size_t at = input->looked > input->first ? input->looked : input->first + 1; at < limit; at++) {
        if (!is_plausible(input, at))
            continue;
        bool here = is_whole(input, at);
        if (here ? is_right(input, at, length_at(input, at)) : !quiet) {
            input->looked = here || quiet ? input->looked : at;
            return at;
        }
    }
    input->looked = quiet ? input->looked : limit;
    return limit;
}

static inline void pass_over(struct parting *input, size_t count)
{
    input->passed += count;
    drop_octets(input, count);
}

/* Passes over octets that begin no packet, and gives how long the packet is that then comes first; 0 if more have to come. */
static inline size_t next_packet(struct parting *input, bool quiet)
{
    while (held_octets(input) >= PRIMARY_HEADER) {
        size_t first = input->first, length = length_at(input, first), end = first + length;
        bool here = is_whole(input, first), is_header = input->octets[first] >> 5 == 0;
        if (here && is_header && is_right(input, first, length))
            return length;
        if (!here && is_header && !quiet)
            return 0;
        size_t limit = here ? end : input->end, start = next_start(input, limit, quiet);
        if (start == limit && here && is_answered(input))
            return length;
        if (start == limit ? !here : !is_whole(input, start))
            return 0;
        pass_over(input, start - first);
    }
    return 0;
}

#endif
