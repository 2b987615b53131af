/* The words of the pool, for procedures and flight software. Written by tools/words from words.toml. */
#ifndef POOL_H
#define POOL_H

/* The index of each word. */
enum {
    POOL_TEMPERATURE = 0, /* measured in the room; 0.1 degC; written by flight software */
    POOL_HEATER = 1,      /* 1 is on; written by thermostat */
    POOL_CYCLE = 2,       /* the number of the cycle; written by flight software */
    POOL_MISSED = 3,      /* were due while another one ran; cycles; written by flight software */
    POOL_SET_POINT = 4,   /* for the version that takes over; 0.1 degC; written by thermostat */
    POOL_HEATED = 5,      /* with the heater on; rounds; written by thermostat */
    POOL_WORDS = 6
};

/* How housekeeping has each word, by index: its octets, the least and the greatest number of its type as 64 bits. */
#define POOL_FIELDS \
    {2, 0x0u, 0xffffu}, \
    {1, 0x0u, 0x1u}, \
    {4, 0x0u, 0xffffffffu}, \
    {4, 0x0u, 0xffffffffu}, \
    {2, 0x0u, 0xffffu}, \
    {4, 0x0u, 0xffffffffu}

/* The packets of flight software: their application process, service 3 subtype 25 with its structure and the octets
 * of its data, service 5 subtype 3 with its event definition. */
enum {
    FLIGHT_APID = 292,
    HOUSEKEEPING_SERVICE = 3,
    HOUSEKEEPING_SUBTYPE = 25,
    HOUSEKEEPING_STRUCTURE = 1,
    HOUSEKEEPING_OCTETS = 20,
    EVENT_SERVICE = 5,
    EVENT_SUBTYPE = 3,
    EVENT_OF_FAULT = 1
};

#endif
