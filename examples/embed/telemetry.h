/* Telemetry packets of flight software: housekeeping and event reports. They are of another application process than the reports of
 * the engine, with the same secondary header (`docs/PROFILE.md`). pool.h has what they carry. */
#ifndef TELEMETRY_H
#define TELEMETRY_H

#include "ocp_octets.h"

#include <stdbool.h>
#include <stddef.h>
#include <stdint.h>

enum { TELEMETRY_HEAD = 17, TELEMETRY_CONTROL = 2 }; /* octets before the data, and after them */

/* Makes a packet of data that are at `packet` + TELEMETRY_HEAD. Gives the length of the packet. */
static inline size_t put_telemetry(uint8_t *packet, uint16_t apid, uint16_t count, uint8_t service, uint8_t subtype, uint32_t time,
                                   size_t length)
{
    size_t end = TELEMETRY_HEAD + length;
    put_number(packet, 0x0800u | apid, 2);
    put_number(packet + 2, 0xc000u | (count & 0x3fffu), 2);
    put_number(packet + 4, end + TELEMETRY_CONTROL - 7, 2);
    packet[6] = 0x20;
    packet[7] = service;
    packet[8] = subtype;
    put_number(packet + 9, 0, 2);  /* the message type counter */
    put_number(packet + 11, 0, 2); /* the destination */
    put_number(packet + 13, time, 4);
    put_number(packet + end, error_control(packet, end), TELEMETRY_CONTROL);
    return end + TELEMETRY_CONTROL;
}

/* How housekeeping has a word: its octets, the least and the greatest number of its type as 64 bits (POOL_FIELDS of pool.h). */
struct pool_field {
    int octets;
    uint64_t least, most;
};

/* Writes a word by its field, or the nearest number that fits. Gives whether the word fits. */
static inline bool put_field(uint8_t *octets, const struct pool_field *field, uint64_t word)
{
    bool is_signed = field->least != 0;
    bool is_below = is_signed && (int64_t)word < (int64_t)field->least;
    bool is_above = is_signed ? (int64_t)word > (int64_t)field->most : word > field->most;
    put_number(octets, is_below ? field->least : is_above ? field->most : word, field->octets);
    return !is_below && !is_above;
}

#endif
