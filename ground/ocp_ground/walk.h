/* What the ground package adds to libocp_c.a in its shared library; no flight program has it.
 *
 * A block is the memory of one engine, in one piece. A snapshot is the pages of it that are not zero, and is written back to the
 * same block, so each address in it stays right.
 *
 * A walk gives the entries of a journal to an engine: whole, or instruction by instruction with a look at each. */
#ifndef WALK_H
#define WALK_H

#include "ocp_engine.h"
#include "ocp_journal.h"

#include <stddef.h>
#include <stdint.h>

struct walk_block {
    uint8_t *octets;
    size_t size, in_use;
    struct ocp_engine engine;
};

/* As ocp_open and ocp_close. */
uint32_t walk_open(struct walk_block *block, uint32_t profile, uint32_t apid, uint32_t pool_words, uint32_t entries, uint32_t octets);
uint32_t walk_close(struct walk_block *block);

/* Writes a snapshot of the engine, and gives its length: 0 if the room is too small. */
size_t walk_save(const struct walk_block *block, uint8_t *snapshot, size_t room);

/* Makes the engine what it was when the snapshot was made. */
void walk_restore(struct walk_block *block, const uint8_t *snapshot, size_t length);

/* Octets of a journal with whole entries, one after the other: records of version 1, or blocks of version 2. */
struct walk_stretch {
    const uint8_t *octets;
    uint64_t length;
    uint32_t version;
};

/* Where a walk is. Zeros at the beginning of the journal. */
struct walk_place {
    uint64_t at;    /* the octet in the stretch of the next record, block or code */
    uint64_t codes; /* where the codes of the block end; 0 between blocks */
    uint64_t left;  /* entries of the block */
    uint64_t known; /* entries that are passed over first, since the engine has them */
    uint64_t entry; /* entries that were taken */
    uint64_t event; /* events that were done */
    uint32_t steps_id, steps_left; /* the instructions of the last entry that are not done */
    uint32_t time;  /* of the last request or drain */
    struct journal_packing packing;
};

enum { WALK_SLOTS = 2048, WALK_POOL = 256, WALK_OUTSIDE = 65536 /* in place of a procedure: the write came from outside */ };

/* What is looked at of one procedure that is loaded. */
struct walk_table {
    uint32_t id;
    uint32_t status;            /* the one that is known */
    uint8_t call[WALK_SLOTS];   /* the number of the engine call at a slot, else 0 */
    uint64_t ran[WALK_SLOTS];   /* counted: how often an instruction was executed */
    uint64_t taken[WALK_SLOTS]; /* counted: how often it did not go on to the next slot */
};

enum {
    WALK_WRITE = 1,  /* a word was written */
    WALK_READ = 2,   /* an engine call read a word, `before`; `kind` is its number */
    WALK_TAKEN = 3,  /* the mailbox was read: `before` is 1, or 0 if it was empty; `after` is its word */
    WALK_STEP = 4,   /* a step ended */
    WALK_STATUS = 5  /* a status is another: from `before` to `after`; `kind` is the cause, `word` the fault */
};

struct walk_hit {
    uint64_t event, word, before, after;
    uint32_t reason, id, slot, kind;
};

enum { WALK_EACH = 1, WALK_CHANGES = 2 /* of `watch` */, WALK_LOADS = 1, WALK_REPORTS = 2 /* of `stop_after` */ };

struct walk_look {
    struct walk_table *tables;
    uint32_t table_count;
    uint8_t watch[WALK_POOL]; /* of each word: whether each write is a hit, or each by which it changes */
    uint32_t counts;          /* count in `ran` and `taken` */
    uint32_t inputs_of;       /* the procedure whose reads and ends of steps are hits; WALK_OUTSIDE: none */
    uint32_t statuses;        /* changes of statuses are hits */
    uint32_t stop_after;      /* end after a request that loads or unloads, or after each request and drain */
    uint32_t room, count;
    struct walk_hit *hits;

    /* of the last request or drain */
    const uint8_t *packet;
    uint64_t packet_length, written;
    uint8_t reports[OCP_DRAIN_REPORTS];
};

/* How a walk ends: at the event, at the end of the stretch, with no more room for hits, after a request or drain, at octets that
 * are no entry, or at an entry that the engine does not do. */
enum { WALK_REACHED = 0, WALK_END = 1, WALK_FULL = 2, WALK_STOPPED = 3, WALK_DAMAGED = 4, WALK_DIFFERS = 5 };

/* The room for hits that one event may need. */
enum { WALK_MOST_HITS = 20 };

uint32_t walk(struct walk_block *block, const struct walk_stretch *stretch, struct walk_place *place, uint64_t until,
              struct walk_look *look);

#endif
