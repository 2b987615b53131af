/* An engine for on-board control procedures: the library libocp_c.a for C and C++.
 *
 * Link libocp_c.a and one heap: liblibc_c.a of the toolchain takes memory from malloc, heap.c takes it from one block
 * of the program. Only ocp_open asks for memory, and only ocp_open and ocp_close give it back.
 *
 * Rules for all calls:
 * - A call with a handle returns a status: OCP_DONE or a refusal. A refused call changes neither the engine nor what its
 *   pointers point to; only ocp_entry still writes the length. If several refusals apply, the call returns the first one of its
 *   list.
 * - A pointer is not null, also for a buffer of length 0. It points to memory that lasts through the call and overlaps no
 *   other argument.
 * - One thread at a time uses a handle, one call at a time, never from a signal handler. The program does not copy a handle,
 *   and neither reads nor writes its field.
 * - Two threads may each use a handle of their own. To open and close handles they need heap functions that allow two threads:
 *   malloc does, heap.c does not.
 * - Journal entries of this library have seat 0.
 * - Numbers in packets and entries are big-endian.
 */
#ifndef OCP_ENGINE_H
#define OCP_ENGINE_H

#include <stdbool.h>
#include <stddef.h>
#include <stdint.h>

/* The library is code for little-endian processors with pointers of 8 octets. For any other target the header is refused. */
#if defined __cplusplus && __cplusplus < 201103L
#define OCP_TARGET(holds, why) extern char ocp_target_is_refused[(holds) ? 1 : -1]
#elif defined __cplusplus
#define OCP_TARGET(holds, why) static_assert(holds, why)
#else
#define OCP_TARGET(holds, why) _Static_assert(holds, why)
#endif

OCP_TARGET(sizeof(void *) == 8 && sizeof(size_t) == 8, "libocp_c.a needs a target with pointers of 8 octets");
#if defined __BYTE_ORDER__
OCP_TARGET(__BYTE_ORDER__ == __ORDER_LITTLE_ENDIAN__, "libocp_c.a needs a little-endian target");
#endif

#undef OCP_TARGET

#ifdef __cplusplus
extern "C" {
#endif

/* ---- the version of this interface */

/* The major version in the upper 16 bits, the minor version in the lower ones. The major version grows by 1, and the minor one
 * becomes 0, with a change by which a program for the older header may go wrong: a call, a status or a field is gone, has
 * another type, number or place, or means something else. The minor version grows by 1 if something is only added: the
 * program then works with the newer library. */
#define OCP_VERSION ((uint32_t)0x00010001)

/* The version of the library. A program may use it if
 * `ocp_version() >= OCP_VERSION && ocp_version() >> 16 == OCP_VERSION >> 16`. Needs no handle, and is never refused. */
uint32_t ocp_version(void);

/* ---- statuses */

enum {
    OCP_DONE = 0,

    /* the handle */
    OCP_NOT_OPEN = 1,
    OCP_ALREADY_OPEN = 2,

    /* the numbers of ocp_open */
    OCP_BAD_PROFILE = 3,
    OCP_BAD_APID = 4,
    OCP_BAD_POOL_WORDS = 5,
    OCP_BAD_CAPACITY = 6, /* the journal's entries; OCP_BAD_OCTETS follows below */

    /* room */
    OCP_MEMORY = 7,           /* out of memory; only ocp_open returns it */
    OCP_BUFFER_TOO_SMALL = 8, /* the buffer is shorter than the call requires */
    OCP_JOURNAL_FULL = 9,     /* the journal has no room for this entry, by its entries or its octets: release some */

    /* discarded packets: the engine drops them without a report */
    OCP_DISCARDED_SHORT = 10,           /* fewer than 7 octets */
    OCP_DISCARDED_VERSION = 11,         /* the packet version number is not 0 */
    OCP_DISCARDED_LENGTH = 12,          /* the packet is not as long as its header says */
    OCP_DISCARDED_NOT_TELECOMMAND = 13, /* the packet is telemetry */
    OCP_DISCARDED_OTHER_APID = 14,      /* the packet is for another application process */

    /* drains */
    OCP_NOTHING_DUE = 15, /* no completion waits for its report */

    /* procedures */
    OCP_NOT_LOADED = 16,   /* no procedure has this identifier */
    OCP_NOT_RUNNING = 17,  /* the procedure is not running */
    OCP_NONE_RUNNING = 18, /* no procedure is running */
    OCP_NO_BUDGET = 19,    /* the budget of a slice or round is 0 */

    /* the debugger */
    OCP_NOT_AN_INSTRUCTION = 20, /* the place is not the first slot of an instruction */
    OCP_ALREADY_SET = 21,        /* the place has a breakpoint already */
    OCP_BREAKS_FULL = 22,        /* the procedure has eight breakpoints already */
    OCP_NOT_SET = 23,            /* the place has no breakpoint */
    OCP_OUTSIDE_MEMORY = 24,     /* some octets are outside the procedure's memory */

    /* the pool and the journal */
    OCP_NO_WORD = 25,  /* the pool has no word at this index */
    OCP_NO_ENTRY = 26, /* there is no entry at this index yet */

    /* the numbers of ocp_open, again */
    OCP_BAD_OCTETS = 27, /* the journal's octets */

    /* the journal handed down, and trace records */
    OCP_NOT_HELD = 28, /* the journal holds fewer entries */
    OCP_SPENT = 29,    /* there were 2^63 events: see ocp_release */
    OCP_RELEASED = 30, /* the entry at this index was released */
    OCP_NO_RECORD = 31 /* no trace record is kept at this index */
};

/* ---- the handle */

/* A handle of one engine. Initialise it with OCP_CLOSED, or with zeros. */
struct ocp_engine {
    void *at;
};

#define OCP_CLOSED {0}

/* Opens an engine without procedures: profile 1 or 2, application process identifier 0 to 2,046, 1 to 256 pool words (all 0),
 * and a journal that holds 1 to 1,000,000 entries of together 1 to 1,073,741,824 octets. Takes all memory of the engine: room for
 * 16 procedures of 2,048 slots, and for the whole journal.
 * Refusals: OCP_ALREADY_OPEN, OCP_BAD_PROFILE, OCP_BAD_APID, OCP_BAD_POOL_WORDS, OCP_BAD_CAPACITY, OCP_BAD_OCTETS, OCP_MEMORY. */
uint32_t ocp_open(struct ocp_engine *engine, uint32_t profile, uint32_t apid, uint32_t pool_words, uint32_t entries,
                  uint32_t octets);

/* How many octets ocp_open takes with these numbers of a block whose pieces begin at multiples of 16, as those of heap.c
 * do; 0 if ocp_open refuses one of them. Needs no handle. Octets:
 *   714,432 + 8 * pool_words + 4 * entries + octets under profile 1, each of these three rounded up to a multiple of 16;
 *   763,584 in place of 714,432 under profile 2 */
size_t ocp_size(uint32_t profile, uint32_t pool_words, uint32_t entries, uint32_t octets);

/* Gives back all memory of the engine and closes the handle.
 * Refusal: OCP_NOT_OPEN. */
uint32_t ocp_close(struct ocp_engine *engine);

/* ---- requests and reports */

/* The least length of the buffer for the reports of a request (at most four of at most 68 octets), and of a drain (at most 64
 * of at most 25). */
#define OCP_REQUEST_REPORTS ((size_t)272)
#define OCP_DRAIN_REPORTS ((size_t)1600)

/* Executes one telecommand packet, at a time that the caller gives. Writes its reports to the buffer: whole telemetry packets, one
 * after the other, in the order in which they are sent. Writes their length in octets to the last argument (0 if there are
 * none). The rest of the buffer stays as it was.
 * A request that is rejected or that fails returns OCP_DONE: its reports say so.
 * Refusals: OCP_NOT_OPEN, OCP_BUFFER_TOO_SMALL (under OCP_REQUEST_REPORTS), the five OCP_DISCARDED_.. in their order,
 * OCP_JOURNAL_FULL. */
uint32_t ocp_request(struct ocp_engine *engine, uint32_t time, const uint8_t *packet, size_t packet_length,
                     uint8_t *reports, size_t reports_length, size_t *written);

/* Reports all completions that wait, the oldest first, at a time that the caller gives. Writes the reports as ocp_request does.
 * Refusals: OCP_NOT_OPEN, OCP_BUFFER_TOO_SMALL (under OCP_DRAIN_REPORTS), OCP_NOTHING_DUE, OCP_JOURNAL_FULL. */
uint32_t ocp_drain(struct ocp_engine *engine, uint32_t time, uint8_t *reports, size_t reports_length, size_t *written);

/* ---- inputs */

/* Sets the pool word at an index to a value; procedures and ocp_pool_word read it. Nothing else of the engine changes. It is one
 * event and one journal entry.
 * Refusals: OCP_NOT_OPEN, OCP_NO_WORD, OCP_JOURNAL_FULL. */
uint32_t ocp_put_word(struct ocp_engine *engine, uint64_t index, uint64_t value);

/* ---- instructions */

/* What an instruction did. */
enum {
    OCP_BROKE = 0,  /* a breakpoint held the procedure before the instruction, which did not run; this
                       is an event and is counted, but takes nothing from the budget of an activation */
    OCP_RAN = 1,
    OCP_CALLED = 2, /* it was an engine call */
    OCP_ENDED = 3,  /* it was the last exit: the procedure is inactive */
    OCP_FAULTED = 4 /* it faulted: the procedure is inactive */
};

struct ocp_outcome {
    uint32_t kind;
    uint32_t fault; /* the number of the fault if the kind is OCP_FAULTED, else 0 */
};

/* Executes one instruction of a running procedure and writes what it did.
 * Refusals: OCP_NOT_OPEN, OCP_NOT_LOADED, OCP_NOT_RUNNING, OCP_JOURNAL_FULL. */
uint32_t ocp_step(struct ocp_engine *engine, uint16_t id, struct ocp_outcome *outcome);

/* Executes instructions of one procedure, at least one and at most `budget`. Stops early when the procedure no longer
 * runs. Writes how many there were and what the last one did. They are one journal entry.
 * Refusals: OCP_NOT_OPEN, OCP_NO_BUDGET, OCP_NOT_LOADED, OCP_NOT_RUNNING, OCP_JOURNAL_FULL. */
uint32_t ocp_slice(struct ocp_engine *engine, uint16_t id, uint32_t budget, uint32_t *count, struct ocp_outcome *last);

/* For `step`: no step ended. */
#define OCP_NO_STEP ((uint32_t)65536)

/* Executes instructions of one procedure as ocp_slice does, and also stops after the first one that ends a step (engine call
 * 5). Writes how many there were, what the last one did, and the number of the step that ended, or OCP_NO_STEP. They are one
 * journal entry. A stop or suspend that waits for this step takes effect here: the procedure is then inactive or held.
 * Refusals: OCP_NOT_OPEN, OCP_NO_BUDGET, OCP_NOT_LOADED, OCP_NOT_RUNNING, OCP_JOURNAL_FULL. */
uint32_t ocp_round(struct ocp_engine *engine, uint16_t id, uint32_t budget, uint32_t *count, struct ocp_outcome *last,
                   uint32_t *step);

/* For `after`: no procedure had a turn yet. */
#define OCP_NO_PROCEDURE ((uint32_t)65536)

/* Writes the identifier of the procedure whose turn is next: the least running one above `after`, or the least running one if
 * there is none above. If `after` is 65,536 or more, it is the least running one.
 * Refusals: OCP_NOT_OPEN, OCP_NONE_RUNNING. */
uint32_t ocp_next_running(struct ocp_engine *engine, uint32_t after, uint16_t *id);

/* ---- the debugger */

/* Sets a breakpoint at an instruction, given by its slot.
 * Refusals: OCP_NOT_OPEN, OCP_NOT_LOADED, OCP_NOT_AN_INSTRUCTION, OCP_ALREADY_SET, OCP_BREAKS_FULL, OCP_JOURNAL_FULL. */
uint32_t ocp_set_break(struct ocp_engine *engine, uint16_t id, uint16_t place);

/* Clears the breakpoint at a slot.
 * Refusals: OCP_NOT_OPEN, OCP_NOT_LOADED, OCP_NOT_SET, OCP_JOURNAL_FULL. */
uint32_t ocp_clear_break(struct ocp_engine *engine, uint16_t id, uint16_t place);

/* Switches on or off that each instruction of a procedure leaves a trace record. The engine keeps the last 256 records of all
 * procedures. While the trace is on, an instruction takes many times as long (docs/EMBED.md, "What a call costs, at most").
 * Refusals: OCP_NOT_OPEN, OCP_NOT_LOADED, OCP_JOURNAL_FULL. */
uint32_t ocp_trace(struct ocp_engine *engine, uint16_t id, bool on);

struct ocp_trace_record {
    uint32_t id;                /* the procedure */
    uint32_t place;             /* the slot of the instruction */
    struct ocp_outcome outcome; /* what it did */
};

/* Writes a trace record that is kept, the oldest at index 0, and R0 to R10 after its instruction to the buffer's first 11
 * words. The rest of the buffer stays as it was.
 * Refusals: OCP_NOT_OPEN, OCP_BUFFER_TOO_SMALL (under 11 registers), OCP_NO_RECORD. */
uint32_t ocp_trace_record(struct ocp_engine *engine, uint64_t index, struct ocp_trace_record *record, uint64_t *registers,
                          size_t count);

/* Copies a procedure's memory, from an address on, to the whole buffer.
 * Refusals: OCP_NOT_OPEN, OCP_NOT_LOADED, OCP_OUTSIDE_MEMORY. */
uint32_t ocp_memory(struct ocp_engine *engine, uint16_t id, uint64_t address, uint8_t *octets, size_t length);

/* ---- readers */

/* The status of a procedure, with the numbers of a status report. */
enum { OCP_INACTIVE = 0, OCP_RUNNING = 1, OCP_HELD = 2 };

/* Why a procedure is inactive; OCP_NO_CAUSE if it was never started, or is active. */
enum { OCP_NO_CAUSE = 0, OCP_EXITED = 1, OCP_STOPPED = 2, OCP_ABORTED = 3, OCP_FAULT = 4 };

/* What happens to the procedure at the end of a step. */
enum { OCP_NOTHING_PENDING = 0, OCP_STOP_PENDING = 1, OCP_SUSPEND_PENDING = 2 };

struct ocp_view {
    uint32_t status;       /* OCP_INACTIVE, OCP_RUNNING or OCP_HELD */
    uint32_t cause;        /* OCP_NO_CAUSE to OCP_FAULT */
    uint32_t fault;        /* the number of the fault if the cause is OCP_FAULT, else 0 */
    uint32_t place;        /* the slot of the next instruction */
    uint32_t depth;        /* the number of local calls that have not returned */
    uint32_t pending;      /* OCP_NOTHING_PENDING to OCP_SUSPEND_PENDING */
    uint32_t pending_step; /* the step at whose end it happens; 0 for any step, or if nothing is pending */
    uint32_t has_budget;   /* 1 if a budget is set, else 0 */
    uint32_t remaining;    /* the instructions left of the budget, 0 if none is set */
};

/* Writes the state of a procedure, and R0 to R10 to the buffer's first 11 words. The rest of the buffer stays as it was.
 * Refusals: OCP_NOT_OPEN, OCP_BUFFER_TOO_SMALL (under 11 registers), OCP_NOT_LOADED. */
uint32_t ocp_view(struct ocp_engine *engine, uint16_t id, struct ocp_view *view, uint64_t *registers, size_t count);

/* Reads the pool word at an index.
 * Refusals: OCP_NOT_OPEN, OCP_NO_WORD. */
uint32_t ocp_pool_word(struct ocp_engine *engine, uint64_t index, uint64_t *word);

/* Writes the number of accepted events: each request, instruction, command of the debugger, drain and write of a pool word is
 * one.
 * Refusal: OCP_NOT_OPEN. */
uint32_t ocp_events(struct ocp_engine *engine, uint64_t *events);

/* ---- the journal
 *
 * Each accepted request, slice, round, step, command of the debugger, drain and write of a pool word is one entry. The journal
 * holds the last entries. The program copies them out by ocp_entry, sends them to ground or keeps them, and gives them up by
 * ocp_release. A full journal refuses: nothing is lost silently. The index of an entry counts from 0 since ocp_open, and
 * stays the same. */

/* Writes how many entries, and how many octets of entries, the journal has room for. An entry needs both.
 * Refusal: OCP_NOT_OPEN. */
uint32_t ocp_room(struct ocp_engine *engine, uint64_t *entries, uint64_t *octets);

/* Writes the index of the oldest entry that is held: that of the next entry if none is.
 * Refusal: OCP_NOT_OPEN. */
uint32_t ocp_first_entry(struct ocp_engine *engine, uint64_t *index);

/* Gives up the oldest `count` entries. Nothing else of the engine changes.
 * After 2^63 events every release is refused (OCP_SPENT): the journal fills, and then each event is refused. At 50 million
 * instructions a second that is after 5,800 years. The readers work on.
 * Refusals: OCP_NOT_OPEN, OCP_NOT_HELD, OCP_SPENT. */
uint32_t ocp_release(struct ocp_engine *engine, uint64_t count);

/* The kind of a journal entry: its first octet. The seat follows (2 octets), which is 0. Then: */
enum {
    OCP_ENTRY_REQUEST = 1,     /* the time (4 octets), and the packet to the end of the entry */
    OCP_ENTRY_STEPS = 2,       /* the procedure (2), and the number of its instructions in a row (4) */
    OCP_ENTRY_SET_BREAK = 3,   /* the procedure (2), the place (2) */
    OCP_ENTRY_CLEAR_BREAK = 4, /* the procedure (2), the place (2) */
    OCP_ENTRY_TRACE = 5,       /* the procedure (2), 1 for on and 0 for off (2) */
    OCP_ENTRY_DRAIN = 6,       /* the time (4) */
    OCP_ENTRY_PUT_WORD = 7     /* the index of the pool word (2), its value (8) */
};

/* The greatest length of an entry: packets of more than 65,542 octets are discarded. A journal with fewer octets refuses the
 * packets that are too long for it. */
#define OCP_LONGEST_ENTRY ((size_t)65549)

/* Copies the entry at an index to the buffer, whose rest stays as it was. Writes its length to the last argument, also if the
 * buffer is too small.
 * Refusals: OCP_NOT_OPEN, OCP_RELEASED, OCP_NO_ENTRY, OCP_BUFFER_TOO_SMALL (under the entry's length). */
uint32_t ocp_entry(struct ocp_engine *engine, uint64_t index, uint8_t *entry, size_t room, size_t *length);

#ifdef __cplusplus
}
#endif

#endif
