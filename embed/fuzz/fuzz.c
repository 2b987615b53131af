/* The library under libFuzzer. From this folder, with clang and the built library; it ends after a minute, or at a fault:
 *
 *   mkdir -p ../out && clang -std=c11 -g -O1 -fsanitize=fuzzer,address,undefined -I.. fuzz.c ../../../crates/ocp_c/out/libocp_c.a -o ../out/fuzz && ../out/fuzz -max_total_time=60
 *
 * An input is a list of calls: an octet says which, the next ones are its numbers. The library is not instrumented, so an input
 * counts as new when a call answers or a procedure is as none before. Requests are raw octets, or get a header and
 * their error control here. A piece of memory of ocp_open is refused if the input says so. What is asked of the library:
 *
 * - it calls the heap in ocp_open and ocp_close alone;
 * - it stays within its arguments and its heap, which the sanitizer sees;
 * - a status is one that the call lists, and a refusal changes neither events, room, view nor pool;
 * - the entries, given to a second engine before they are released, give the same reports, events, views and pool. */
#include "ocp_engine.h"
#include "ocp_heap.h"
#include "ocp_journal.h"
#include "telecommand.h"

#include <stdio.h>
#include <stdlib.h>
#include <string.h>

enum { APID = 291, POOL_WORDS = 4, PROCEDURES = 4, REPORTS = 1 << 20, PIECES = 90 /* of ocp_open */ };

/* ---- a heap that refuses one piece */

static size_t pieces, refused;
static bool may_call;

static struct fixed_heap_answer answer_of(void *piece)
{
    static unsigned char nothing;
    return (struct fixed_heap_answer){piece != NULL, piece != NULL ? piece : &nothing};
}

struct fixed_heap_answer rattle_alloc(size_t octets, size_t align)
{
    (void)align;
    if (!may_call)
        abort();
    return answer_of(pieces++ == refused ? NULL : malloc(octets));
}

struct fixed_heap_answer rattle_realloc(void *piece, size_t kept, size_t octets, size_t align)
{
    (void)piece, (void)kept, (void)octets, (void)align;
    abort();
}

void rattle_dealloc(void *piece)
{
    if (!may_call)
        abort();
    free(piece);
}

/* ---- the input */

static const uint8_t *input;
static size_t left;

static uint32_t number(size_t octets)
{
    uint32_t value = 0;
    for (; octets > 0 && left > 0; octets--, left--)
        value = value << 8 | *input++;
    return value;
}

static uint16_t procedure(void)
{
    uint32_t one = number(1);
    return (uint16_t)(one < 250 ? one % PROCEDURES : one);
}

#define HOLDS(fact) ((fact) ? (void)0 : fail(__LINE__, #fact))

static void fail(int line, const char *fact)
{
    fprintf(stderr, "fuzz.c:%d: not so: %s\n", line, fact);
    abort();
}

/* ---- what libFuzzer is told: an input that makes a call answer what none did before is kept */

__attribute__((section("__libfuzzer_extra_counters"))) static uint8_t seen_answers[65536];

static void tell(uint32_t what, uint32_t one, uint32_t other)
{
    seen_answers[(what * 4096 + one * 128 + other) % sizeof seen_answers] = 1;
}

/* ---- an engine and what is seen of it */

struct seen {
    uint64_t events, first, room, octets, pool[POOL_WORDS];
    uint32_t status[PROCEDURES];
    struct ocp_view view[PROCEDURES];
    uint64_t registers[PROCEDURES][11];
};

static void see(struct ocp_engine *engine, struct seen *seen)
{
    memset(seen, 0, sizeof *seen);
    HOLDS(ocp_events(engine, &seen->events) == OCP_DONE && ocp_room(engine, &seen->room, &seen->octets) == OCP_DONE);
    HOLDS(ocp_first_entry(engine, &seen->first) == OCP_DONE);
    for (uint64_t word = 0; word < POOL_WORDS; word++)
        HOLDS(ocp_pool_word(engine, word, &seen->pool[word]) == OCP_DONE);
    for (uint16_t id = 0; id < PROCEDURES; id++)
        seen->status[id] = ocp_view(engine, id, &seen->view[id], seen->registers[id], 11);
}

/* All reports of an engine, one after another. */
struct told {
    uint8_t octets[REPORTS];
    size_t length;
};

static struct told flown, again;

static struct ocp_engine second = OCP_CLOSED; /* is given the entries of the first one */
static uint32_t capacity;

static uint32_t request(struct ocp_engine *engine, struct told *told, uint32_t time, const uint8_t *packet, size_t length)
{
    uint8_t reports[OCP_REQUEST_REPORTS];
    size_t written = 0;
    uint32_t status = ocp_request(engine, time, packet, length, reports, sizeof reports, &written);
    HOLDS(written <= sizeof reports && (status == OCP_DONE || written == 0) && told->length + written <= REPORTS);
    memcpy(told->octets + told->length, reports, written);
    told->length += written;
    for (size_t at = 0; at < written; at += 7 + reports[at + 5])
        tell(1, reports[at + 8], reports[at + 8] % 2 == 0 ? reports[at + 22] : 0); /* the subtype, and a failure's code */
    return status;
}

static uint32_t drain(struct ocp_engine *engine, struct told *told, uint32_t time)
{
    uint8_t reports[OCP_DRAIN_REPORTS];
    size_t written = 0;
    uint32_t status = ocp_drain(engine, time, reports, sizeof reports, &written);
    HOLDS(written <= sizeof reports && (status == OCP_DONE || written == 0) && told->length + written <= REPORTS);
    memcpy(told->octets + told->length, reports, written);
    told->length += written;
    return status;
}

/* ---- requests of the input */

static uint8_t packet[65542];

static uint32_t raw_request(struct ocp_engine *engine)
{
    size_t length = number(1) % 64;
    length = length < left ? length : left;
    uint8_t *own = malloc(length + 1); /* the sanitizer sees what lies after it */
    memcpy(own, input, length);
    input += length;
    left -= length;
    uint32_t status = request(engine, &flown, 1, own, length);
    free(own);
    return status;
}

/* An instruction of the input: one that is admitted in most places, or any octets. */
static void put_slot(uint8_t *slot)
{
    static const uint8_t opcodes[] = {0x07, 0x1f, 0xb7, 0xbf, 0x34, 0x3f, 0x61, 0x79, 0x7b, 0x62, 0x15, 0x1d, 0x05, 0x85, 0x85, 0x85, 0x95};
    uint32_t which = number(1);
    memset(slot, 0, 8);
    if (which >= 240) {
        for (int at = 0; at < 8; at++)
            slot[at] = (uint8_t)number(1);
        return;
    }
    slot[0] = opcodes[which % sizeof opcodes];
    uint32_t rest = number(1);
    switch (slot[0]) {
    case 0x85: /* an engine call */
        slot[4] = (uint8_t)(1 + rest % 6);
        break;
    case 0x95:
        break;
    case 0x05:
        slot[2] = (uint8_t)rest;
        slot[3] = (uint8_t)-(rest >> 7);
        break;
    case 0x79:
    case 0x61: /* from the stack */
        slot[1] = (uint8_t)(10 << 4 | rest % 10);
        slot[2] = (uint8_t)-8;
        slot[3] = 0xff;
        break;
    case 0x7b:
        slot[1] = (uint8_t)((rest % 10) << 4 | 10);
        slot[2] = (uint8_t)-8;
        slot[3] = 0xff;
        break;
    case 0x62:
        slot[1] = 10;
        slot[2] = (uint8_t)-4;
        slot[3] = 0xff;
        slot[4] = (uint8_t)rest;
        break;
    case 0x1f:
    case 0xbf:
    case 0x3f:
    case 0x1d:
        slot[1] = (uint8_t)((rest % 11) << 4 | (rest >> 4) % 10);
        break;
    default:
        slot[1] = rest % 10;
        slot[4] = (uint8_t)(rest >> 4);
    }
}

static uint8_t *const data = packet + TELECOMMAND_HEAD; /* of a request */
static size_t data_length;

static void put(uint32_t value, size_t octets)
{
    while (octets-- > 0)
        data[data_length++] = (uint8_t)(value >> (8 * octets));
}

static void put_octets(size_t octets)
{
    while (octets-- > 0)
        put(number(1), 1);
}

/* Up to sixteen slots, the last of them an exit in most cases. */
static void put_code(void)
{
    size_t slots = 1 + number(1) % 16;
    put((uint32_t)slots * 8, 2);
    for (size_t slot = 1; slot < slots; slot++, data_length += 8)
        put_slot(data + data_length);
    put(number(1) < 240 ? 0x95 : 0x07, 1);
    put(0, 4);
    put(0, 3);
}

/* The data of a request, laid out as its subtype wants them, or any octets. */
static void put_data(uint8_t subtype, uint32_t profile)
{
    data_length = 0;
    if (number(1) >= 245) {
        put_octets(number(1) % 64);
        return;
    }
    if (subtype != 8)
        put(procedure(), 2);
    size_t count = 0;
    switch (subtype) {
    case 1:
        put_code();
        break;
    case 3:
        if (profile == 2)
            put(number(1), 4);
        put((uint32_t)(count = number(1) % 8), 2);
        put_octets(count);
        break;
    case 4:
    case 5:
        put(number(1) % 4, 2);
        break;
    case 7:
        put((uint32_t)(count = 1 + number(1) % 8), 1);
        put_octets(8 * count);
    }
}

/* A telecommand. */
static uint32_t whole_request(struct ocp_engine *engine, uint32_t profile)
{
    static const uint8_t subtypes[] = {1, 1, 1, 2, 3, 3, 3, 3, 4, 5, 6, 6, 7, 8, 12, 13};
    uint8_t subtype = subtypes[number(1) % sizeof subtypes], flags = (uint8_t)number(1);
    put_data(subtype, profile);
    size_t length = put_telecommand(packet, APID, 0, flags & 15, subtype, data_length);
    return request(engine, &flown, number(1), packet, length);
}

/* Loads and starts a procedure that ends steps for ever. */
static void begin_procedure(struct ocp_engine *engine, uint32_t profile)
{
    static const uint8_t load[] = {0, 0, 0, 16, 0x85, 0, 0, 0, 5, 0, 0, 0, 0x05, 0, 0xfe, 0xff, 0, 0, 0, 0};
    memcpy(data, load, sizeof load);
    size_t length = put_telecommand(packet, APID, 0, 0, LOAD, sizeof load);
    HOLDS(request(engine, &flown, 0, packet, length) == OCP_DONE);
    size_t activation = profile == 2 ? 8 : 4;
    memset(data, 0, activation);
    length = put_telecommand(packet, APID, 0, 0, ACTIVATE, activation);
    HOLDS(request(engine, &flown, 0, packet, length) == OCP_DONE);
}

/* ---- the journal again */

/* Gives this many of the oldest entries to the second engine, and releases them in both. */
static uint32_t hand_down(struct ocp_engine *engine, uint64_t count)
{
    static uint8_t entry[OCP_LONGEST_ENTRY], reports[OCP_DRAIN_REPORTS];
    uint64_t first;
    size_t length, written;
    HOLDS(ocp_first_entry(engine, &first) == OCP_DONE);
    for (uint64_t index = first; index < first + count; index++) {
        HOLDS(ocp_entry(engine, index, entry, sizeof entry, &length) == OCP_DONE);
        HOLDS(give_entry(&second, entry, length, reports, &written) && again.length + written <= REPORTS);
        memcpy(again.octets + again.length, reports, written);
        again.length += written;
        HOLDS(ocp_release(&second, 1) == OCP_DONE);
    }
    return ocp_release(engine, count);
}

static uint64_t held_count(struct ocp_engine *engine)
{
    uint64_t entries, octets;
    HOLDS(ocp_room(engine, &entries, &octets) == OCP_DONE);
    return capacity - entries;
}

/* A release of some entries, which may be more than are held. */
static uint32_t release(struct ocp_engine *engine)
{
    uint64_t held = held_count(engine), count = number(1) % (held + 2);
    uint32_t status = count <= held ? hand_down(engine, count) : ocp_release(engine, count);
    HOLDS(status == (count <= held ? OCP_DONE : OCP_NOT_HELD));
    return status;
}

/* The second engine is given the rest, and is then as the first one. */
static void compare_engines(struct ocp_engine *first)
{
    static struct seen one, other;
    HOLDS(hand_down(first, held_count(first)) == OCP_DONE);
    see(first, &one);
    see(&second, &other);
    one.room = other.room = one.octets = other.octets = 0; /* the journals have other sizes */
    HOLDS(memcmp(&one, &other, sizeof one) == 0);
    HOLDS(flown.length == again.length && memcmp(flown.octets, again.octets, flown.length) == 0);
}

/* ---- calls */

static bool is_listed(uint32_t status, const uint8_t *statuses, size_t count)
{
    return memchr(statuses, (int)status, count) != NULL;
}

#define LISTED(status, ...) \
    HOLDS(is_listed(status, (const uint8_t[]){__VA_ARGS__}, sizeof((const uint8_t[]){__VA_ARGS__})))

/* One call of the input; gives its status. */
static uint32_t call(struct ocp_engine *engine, uint32_t profile)
{
    uint32_t which = number(1), status, count, id32;
    struct ocp_outcome outcome;
    uint16_t id;
    uint8_t octets[64];
    size_t length;
    if (which >= 248)
        return release(engine);
    if (which >= 240) {
        status = ocp_put_word(engine, number(1) % (POOL_WORDS + 1), number(4));
        LISTED(status, OCP_DONE, OCP_NO_WORD, OCP_JOURNAL_FULL);
        return status;
    }
    if (which >= 208) {
        uint32_t step = 0, budget = number(2) % 2000;
        status = ocp_round(engine, procedure(), budget, &count, &outcome, &step);
        LISTED(status, OCP_DONE, OCP_NO_BUDGET, OCP_NOT_LOADED, OCP_NOT_RUNNING, OCP_JOURNAL_FULL);
        HOLDS(status != OCP_DONE || (count >= 1 && count <= budget && step <= OCP_NO_STEP));
        if (status == OCP_DONE)
            tell(5, outcome.kind, step == OCP_NO_STEP);
        return status;
    }
    switch (which % 16) {
    case 0:
        return raw_request(engine);
    case 1:
        status = drain(engine, &flown, number(1));
        LISTED(status, OCP_DONE, OCP_NOTHING_DUE, OCP_JOURNAL_FULL);
        return status;
    case 2:
        status = ocp_set_break(engine, procedure(), (uint16_t)number(1));
        LISTED(status, OCP_DONE, OCP_NOT_LOADED, OCP_NOT_AN_INSTRUCTION, OCP_ALREADY_SET, OCP_BREAKS_FULL, OCP_JOURNAL_FULL);
        return status;
    case 3:
        status = ocp_clear_break(engine, procedure(), (uint16_t)number(1));
        LISTED(status, OCP_DONE, OCP_NOT_LOADED, OCP_NOT_SET, OCP_JOURNAL_FULL);
        return status;
    case 4:
        status = ocp_trace(engine, procedure(), number(1) & 1);
        LISTED(status, OCP_DONE, OCP_NOT_LOADED, OCP_JOURNAL_FULL);
        return status;
    case 5:
        id = procedure();
        length = number(1) % sizeof octets;
        status = ocp_memory(engine, id, number(4), octets, length);
        LISTED(status, OCP_DONE, OCP_NOT_LOADED, OCP_OUTSIDE_MEMORY);
        return status;
    case 6:
        id32 = number(3);
        status = ocp_next_running(engine, id32, &id);
        LISTED(status, OCP_DONE, OCP_NONE_RUNNING);
        return status;
    case 7:
        status = ocp_step(engine, procedure(), &outcome);
        LISTED(status, OCP_DONE, OCP_NOT_LOADED, OCP_NOT_RUNNING, OCP_JOURNAL_FULL);
        return status;
    case 8:
    case 9:
    case 10:
        id = procedure();
        id32 = number(2) % 2000;
        status = ocp_slice(engine, id, id32, &count, &outcome);
        LISTED(status, OCP_DONE, OCP_NO_BUDGET, OCP_NOT_LOADED, OCP_NOT_RUNNING, OCP_JOURNAL_FULL);
        HOLDS(status != OCP_DONE || (count >= 1 && count <= id32));
        if (status == OCP_DONE)
            tell(2, outcome.kind, outcome.fault * 16 + (count > 15 ? 15 : count));
        return status;
    default:
        return whole_request(engine, profile);
    }
}

/* Opens an engine. If a piece is refused, it opens only then. */
static void begin_engine(struct ocp_engine *engine, uint32_t profile, uint32_t space)
{
    may_call = true;
    pieces = 0;
    refused = number(1);
    if (refused < PIECES)
        HOLDS(ocp_open(engine, profile, APID, POOL_WORDS, capacity, space) == OCP_MEMORY && ocp_close(engine) == OCP_NOT_OPEN);
    refused = SIZE_MAX;
    HOLDS(ocp_open(engine, profile, APID, POOL_WORDS, capacity, space) == OCP_DONE);
}

int LLVMFuzzerTestOneInput(const uint8_t *octets, size_t length)
{
    static struct seen before, after;
    struct ocp_engine engine = OCP_CLOSED;
    input = octets;
    left = length;
    flown.length = again.length = 0;
    uint32_t profile = 1 + (number(1) & 1), sizes = number(1) % 8, space = sizes == 1 ? 300 : 100000;
    capacity = sizes == 0 ? 8 : 900;
    begin_engine(&engine, profile, space);
    HOLDS(ocp_open(&second, profile, APID, POOL_WORDS, 1, OCP_LONGEST_ENTRY) == OCP_DONE);
    may_call = false;
    if (number(1) & 1)
        begin_procedure(&engine, profile);
    for (int calls = 0; left > 0 && calls < 890; calls++) {
        see(&engine, &before);
        uint32_t which = left > 0 ? *input : 0;
        uint32_t status = call(&engine, profile);
        HOLDS(status != OCP_MEMORY);
        see(&engine, &after);
        HOLDS(status == OCP_DONE || memcmp(&before, &after, sizeof before) == 0);
        for (int id = 0; id < PROCEDURES; id++)
            tell(3, after.view[id].status * 8 + after.view[id].cause, after.view[id].pending * 8 + after.view[id].depth);
        tell(4, which % 16, status);
    }
    compare_engines(&engine);
    may_call = true;
    HOLDS(ocp_close(&engine) == OCP_DONE && ocp_close(&second) == OCP_DONE);
    return 0;
}
