/* Telecommands of service 18, for the programs here that are their own ground. `docs/PROFILE.md` has the layout. */
#ifndef TELECOMMAND_H
#define TELECOMMAND_H

#include "ocp_octets.h"

#include <stddef.h>
#include <stdint.h>

enum { LOAD = 1, UNLOAD, ACTIVATE, STOP, SUSPEND, RESUME, COMMUNICATE, STATUS, ABORT = 12 }; /* the message subtypes */
enum { TELECOMMAND_HEAD = 11, TELECOMMAND_CONTROL = 2 };                         /* octets before the data, and after them */

/* Makes a packet of data that are at `packet` + TELECOMMAND_HEAD. The flags ask for reports: 1 of acceptance, 2 of the start,
 * 8 of completion. Gives the length of the packet. */
static inline size_t put_telecommand(uint8_t *packet, uint16_t apid, uint16_t count, uint8_t flags, uint8_t subtype, size_t length)
{
    size_t end = TELECOMMAND_HEAD + length;
    put_number(packet, 0x1800u | apid, 2);
    put_number(packet + 2, 0xc000u | (count & 0x3fffu), 2);
    put_number(packet + 4, end + TELECOMMAND_CONTROL - 7, 2);
    packet[6] = (uint8_t)(0x20 | flags);
    packet[7] = 18;
    packet[8] = subtype;
    put_number(packet + 9, 9, 2); /* the source, to which the reports go */
    put_number(packet + end, error_control(packet, end), TELECOMMAND_CONTROL);
    return end + TELECOMMAND_CONTROL;
}

#endif
