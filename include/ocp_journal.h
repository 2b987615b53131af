/* The journal as a file: written in flight, read on ground, and given to an engine again.
 *
 * Version 2. The file is a row of blocks. Each block can be found and read by itself, and says which entries it has, so what is
 * lost, damaged, doubled or out of order on the way to ground is noticed. Numbers are big-endian; a block is
 *
 *    0  4  the octets `OCPJ`
 *    4  1  2, the version of this form
 *    5  1  the profile,                           as given to ocp_open
 *    6  2  the application process identifier,    too
 *    8  2  the number of pool words,              too
 *   10  4  the journal's entries,                 too
 *   14  4  the journal's octets,                  too
 *   18  8  the identifier of the flight
 *   26  8  the index of the first entry, counted from 0 since ocp_open
 *   34  4  the number of entries, at least 1
 *   38  4  the length of what these entries are packed into
 *   42  2  the error control of packets over the octets before
 *   44     the packed entries
 *       4  CRC-32 of all octets of the block before
 *
 * Packed entries are codes, one after the other. An entry of seat 0 that puts a pool word, or that is instructions, has a short
 * code. Numbers in codes have 7 bits an octet, the least first; bit 7 is set if more follow. A change is the value less the
 * one that the block put into that word before (at first 0), times 2 if it is not negative, else -2 times it less 1, modulo 2^64.
 *
 *   00 to 3f  pool word 0 to 63 is put: the change
 *   40 to 5f  instructions of the procedure with this number in the block's list, as many as in its entry before
 *   60 to 7f  the same, another number of instructions: the number
 *   80        instructions of a procedure that is not in the list, and becomes its next one, if there is room for 32: its
 *             identifier (2 octets), the number of instructions
 *   81        any entry: its length, its octets
 *   82        pool word 64 to 319 is put: the index less 64 (1 octet), the change
 *
 * Version 1 is still read. It begins with the five parameters (4 octets each); each entry follows with its length before it
 * (4 octets). The parameters, and each entry with its length, end with the error control of packets over them.
 *
 * A journal may be cut into several files at any place. Link embed/journal.c to write one, embed/journal_reader.c to read one. */
#ifndef OCP_JOURNAL_H
#define OCP_JOURNAL_H

#include "ocp_engine.h"
#include "ocp_octets.h"

#include <stdbool.h>
#include <stddef.h>
#include <stdint.h>
#include <stdio.h>

#ifdef __cplusplus
extern "C" {
#endif

/* The arguments of ocp_open. */
struct parameters {
    uint32_t profile, apid, pool_words, entries, octets;
};

static inline uint32_t open_engine(struct ocp_engine *engine, const struct parameters *with)
{
    return ocp_open(engine, with->profile, with->apid, with->pool_words, with->entries, with->octets);
}

enum { JOURNAL_HEAD = 44, JOURNAL_CHECK = 4, LISTED_PROCEDURES = 32, PACKED_WORDS = 320, SHORT_WORDS = 64 };

/* What the codes of a block refer to. Zeros at its beginning. */
struct journal_packing {
    uint64_t words[PACKED_WORDS];        /* the values put before */
    uint16_t ids[LISTED_PROCEDURES];     /* the list of procedures */
    uint32_t counts[LISTED_PROCEDURES];  /* the instructions of the entry before */
    uint32_t listed;
};

/* ---- writing */

/* A journal that is written. The program sets the first three and calls begin_journal; for a journal that is released and not
 * written, it sets `file` to -1. */
struct journal_writer {
    struct parameters with;
    uint64_t flight; /* an identifier that no other flight of the mission has */
    uint32_t cycles; /* how many calls of keep_journal write one block */

    int file;        /* a file descriptor */
    uint32_t kept;   /* calls since the last block */
    uint64_t next;   /* the index after the last entry that was written */
    int64_t end;     /* of the last whole block in the file */
    bool is_torn;    /* whether a part of a block may follow it */
    uint32_t check;  /* of the block that is written, so far */
    size_t used;     /* octets in `output` that are not written yet */
    uint8_t output[1024];
    uint8_t entry[OCP_LONGEST_ENTRY];
    struct journal_packing packing;
};

/* Begins the file of an engine that was just opened, and gives whether it is there. */
bool begin_journal(struct journal_writer *writer, const char *name);

/* Is called once in a cycle. Every `cycles` calls, or if less than a quarter of the store is free, it writes the entries that
 * the engine holds as a block, and releases them when the file has it whole.
 *
 * It gives false if a block could not be written, or its entries not be released. Then the engine holds the entries, the file
 * is cut back to its last whole block, and each further call tries again. So the flight goes on while the store has room. */
bool keep_journal(struct journal_writer *writer, struct ocp_engine *engine);

/* Writes and releases now what the engine holds; else as keep_journal. */
bool keep_journal_now(struct journal_writer *writer, struct ocp_engine *engine);

/* Ends the file before its engine is closed, and gives whether it has all entries. */
bool end_journal(struct journal_writer *writer, struct ocp_engine *engine);

/* ---- reading */

/* What comes next in a journal that is read. */
enum journal_found {
    JOURNAL_ENTRY,        /* the entry of index `from` */
    JOURNAL_END,          /* nothing more */
    JOURNAL_MISSING,      /* entries `from` to `to` are not here; the next one is entry `to` + 1 */
    JOURNAL_AGAIN,        /* entries `from` to `to` come again; they are passed over */
    JOURNAL_SWAPPED,      /* entries `from` to `to`, which were missing, come after later ones; they are passed over */
    JOURNAL_OTHER_FLIGHT, /* entries `from` to `to` are of another flight, or engine; they are passed over */
    JOURNAL_DAMAGED,      /* octets are not those that were written; they are passed over, and `to` says how many */
    JOURNAL_CUT,          /* the journal ends within a block; `to` says how many octets of it there are */
    JOURNAL_UNREADABLE,   /* a file can't be read, and is passed over */
    JOURNAL_NO_MEMORY     /* there is no memory for a block: nothing more is read */
};

enum { MISSING_RANGES = 64 };

/* A journal in one file or several. Begin with zeros and `part`. */
struct journal_reader {
    char **part; /* the name of the file that is read, then those after it, then a null */

    /* what was found: the file and the octet in it where it begins, and a range of indices, or a number of octets */
    const char *name;
    uint64_t octet, from, to;
    int error; /* of a file that can't be read: errno */

    /* what the journal says of itself, after begin_reading */
    uint32_t version; /* 1 or 2 */
    struct parameters with;
    uint64_t flight;
    uint64_t next; /* the index after the last entry */

    /* the reader's own */
    FILE *file;
    char **first_part;
    uint64_t *begins;           /* where each file begins, in all files together */
    size_t opened;              /* files */
    uint8_t *held;              /* octets that were read and not used: from `start` to `filled` */
    size_t start, filled, room;
    uint64_t position;          /* of `start` in all files together */
    uint64_t junk;              /* octets before it that belong to no block */
    uint64_t cut;               /* where a block begins that has no end, and 1 more; 0 if there is none */
    size_t whole, at, after;    /* the block at `start`: its length, its next code, the end of its codes */
    uint32_t left;              /* entries of it that are not read yet */
    uint64_t index;             /* of the next one */
    bool has_block, is_judged, is_unreadable, has_no_memory;
    uint64_t missing[MISSING_RANGES][2];
    size_t missed;
    struct journal_packing packing;
    uint8_t entry[OCP_LONGEST_ENTRY];
};

/* Reads on to the first block, or the parameters of version 1. Gives false if the files have none. What it passed over is told by
 * read_journal. */
bool begin_reading(struct journal_reader *journal);

/* Reads what comes next. An entry is in `entry`, with its length. */
enum journal_found read_journal(struct journal_reader *journal, uint8_t **entry, size_t *length);

/* Gives memory and file back. */
void end_reading(struct journal_reader *journal);

/* ---- entries, given to an engine again */

enum { ENTRY_FIELDS = 3 /* an entry's first octet after its kind and its seat */, SHORTEST_ENTRY = 7 };

/* Executes just that many instructions; those of a round are given as those of a slice. */
static inline bool give_steps(struct ocp_engine *engine, uint16_t id, uint32_t count)
{
    uint32_t done;
    struct ocp_outcome last;
    return ocp_slice(engine, id, count, &done, &last) == OCP_DONE && done == count;
}

/* Gives an entry to an engine, which writes its reports to a buffer of OCP_DRAIN_REPORTS octets. Gives whether the engine did
 * what the entry says, all of its instructions included. */
static inline bool give_entry(struct ocp_engine *engine, const uint8_t *entry, size_t length, uint8_t *reports, size_t *written)
{
    const uint8_t *fields = entry + ENTRY_FIELDS;
    *written = 0;
    if (length < SHORTEST_ENTRY)
        return false;
    uint32_t time = (uint32_t)number_at(fields, 4); /* of a request or a drain */
    uint16_t id = (uint16_t)number_at(fields, 2), number = (uint16_t)number_at(fields + 2, 2);
    switch (entry[0]) {
    case OCP_ENTRY_REQUEST:
        return ocp_request(engine, time, fields + 4, length - SHORTEST_ENTRY, reports, OCP_DRAIN_REPORTS, written) == OCP_DONE;
    case OCP_ENTRY_STEPS:
        return length == 9 && give_steps(engine, id, (uint32_t)number_at(fields + 2, 4));
    case OCP_ENTRY_SET_BREAK:
        return length == 7 && ocp_set_break(engine, id, number) == OCP_DONE;
    case OCP_ENTRY_CLEAR_BREAK:
        return length == 7 && ocp_clear_break(engine, id, number) == OCP_DONE;
    case OCP_ENTRY_TRACE:
        return length == 7 && number <= 1 && ocp_trace(engine, id, number == 1) == OCP_DONE;
    case OCP_ENTRY_DRAIN:
        return length == 7 && ocp_drain(engine, time, reports, OCP_DRAIN_REPORTS, written) == OCP_DONE;
    case OCP_ENTRY_PUT_WORD:
        return length == 13 && ocp_put_word(engine, id, number_at(fields + 2, 8)) == OCP_DONE;
    default:
        return false;
    }
}

#ifdef __cplusplus
}
#endif

#endif
