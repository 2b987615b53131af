/* Each call of the library with wrong arguments, and ocp_open with each of its pieces of memory refused in turn: it gives the
 * status that the header names, and nothing else is changed. No call but ocp_open and ocp_close may call the heap. This file has
 * the heap functions itself, so it is linked with no other. */
#include "ocp_engine.h"
#include "ocp_heap.h"
#include "telecommand.h"

#include <inttypes.h>
#include <stdio.h>
#include <stdlib.h>
#include <string.h>

/* ---- a heap that refuses one piece, and is called in ocp_open and ocp_close alone */

static size_t pieces;              /* how many were asked for */
static size_t asked;               /* their octets, each rounded up to a multiple of 16 */
static size_t refused = SIZE_MAX;  /* the one that is refused, from 0 on */
static bool may_call;
static size_t wrong_calls;

static struct fixed_heap_answer answer_of(void *piece)
{
    static unsigned char nothing;
    return (struct fixed_heap_answer){piece != NULL, piece != NULL ? piece : &nothing};
}

struct fixed_heap_answer rattle_alloc(size_t octets, size_t align)
{
    (void)align;
    wrong_calls += !may_call;
    asked += (octets + 15) / 16 * 16;
    return answer_of(pieces++ == refused ? NULL : malloc(octets));
}

struct fixed_heap_answer rattle_realloc(void *piece, size_t kept, size_t octets, size_t align)
{
    (void)kept;
    (void)align;
    wrong_calls++;
    return answer_of(realloc(piece, octets));
}

void rattle_dealloc(void *piece)
{
    wrong_calls += !may_call;
    free(piece);
}

/* The two calls that may call the heap. */
static uint32_t status_of_heap_call;

#define WITH_HEAP(call) (may_call = true, status_of_heap_call = call, may_call = false, status_of_heap_call)
#define ocp_open(...) WITH_HEAP((ocp_open)(__VA_ARGS__))
#define ocp_close(...) WITH_HEAP((ocp_close)(__VA_ARGS__))

/* ---- what is wanted */

static int tried, faults;

static void want(int line, const char *call, uint32_t wanted, uint32_t given)
{
    tried++;
    if (wanted != given) {
        faults++;
        printf("calls.c:%d: %s answers %" PRIu32 " and not %" PRIu32 "\n", line, call, given, wanted);
    }
}

#define WANT(status, call) want(__LINE__, #call, status, call)
#define HOLDS(fact) want(__LINE__, #fact, true, (fact) ? true : false)

/* ---- packets */

enum { APID = 291, ALL_REPORTS = 1 + 2 + 8, LONGEST = 65542, POOL_WORDS = 16, PIECES = 90 /* of ocp_open */ };
enum { OCTETS = 100000 /* of most journals */, MOST_OCTETS = 1073741824, STEPS_ENTRY = 9, PUT_WORD_ENTRY = 13 };

static uint8_t packet[LONGEST + 1];
static uint8_t reports[OCP_DRAIN_REPORTS];

/* A telecommand with these octets of data; gives its length. */
static size_t telecommand(uint8_t subtype, const uint8_t *data, size_t length)
{
    memcpy(packet + TELECOMMAND_HEAD, data, length);
    return put_telecommand(packet, APID, 0, ALL_REPORTS, subtype, length);
}

/* mov64 r1, 1; call 5; ja -1 */
static const uint8_t load_7[] = {0, 7, 0, 24, 0xb7, 1, 0, 0, 1, 0, 0, 0, 0x85, 0, 0, 0, 5, 0, 0, 0, 5, 0, 0xff, 0xff, 0, 0, 0, 0};
/* Reads word 2 into r6, and ends the steps 3, 65,535 and 0, over and over. */
static const uint8_t load_rounds[] = {
    0, 7, 0, 88,
    0xb7, 1, 0, 0, 2, 0, 0, 0,                         /* 0  mov64 r1, 2 */
    0x85, 0, 0, 0, 1, 0, 0, 0,                         /* 1  call 1 */
    0xbf, 6, 0, 0, 0, 0, 0, 0,                         /* 2  mov64 r6, r0 */
    0xb7, 1, 0, 0, 3, 0, 0, 0,                         /* 3  mov64 r1, 3 */
    0x85, 0, 0, 0, 5, 0, 0, 0,                         /* 4  call 5 */
    0xb7, 1, 0, 0, 0xff, 0xff, 0xff, 0xff,             /* 5  mov64 r1, -1 */
    0x85, 0, 0, 0, 5, 0, 0, 0,                         /* 6  call 5 */
    0x18, 1, 0, 0, 0, 0, 1, 0, 0, 0, 0, 0, 0, 0, 0, 0, /* 7  lddw r1, 65536 */
    0x85, 0, 0, 0, 5, 0, 0, 0,                         /* 9  call 5 */
    0x05, 0, 0xf5, 0xff, 0, 0, 0, 0};                  /* 10 ja -11 */
/* Reads the word that its argument names. */
static const uint8_t load_reader[] = {
    0, 7, 0, 24,
    0x71, 0x11, 0, 0, 0, 0, 0, 0,  /* 0  ldxb r1, [r1+0] */
    0x85, 0, 0, 0, 1, 0, 0, 0,     /* 1  call 1 */
    0x95, 0, 0, 0, 0, 0, 0, 0};    /* 2  exit */
static const uint8_t read_15[] = {0, 7, 0, 1, 15};
static const uint8_t read_16[] = {0, 7, 0, 1, 16};
static const uint8_t suspend_3[] = {0, 7, 0, 3};
static const uint8_t id_7[] = {0, 7};
static const uint8_t activate_7[] = {0, 7, 0, 0};
static const uint8_t stop_7[] = {0, 7, 0, 0};

/* ---- an engine and what is seen of it */

struct seen {
    uint64_t events, room, octets, first;
    struct ocp_view view;
    uint64_t registers[11];
    uint32_t view_status;
    uint64_t pool[POOL_WORDS];
};

static struct ocp_engine engine = OCP_CLOSED;

static uint32_t open_small(void)
{
    return ocp_open(&engine, 1, APID, POOL_WORDS, 4, OCTETS);
}

static struct seen see(void)
{
    struct seen seen;
    memset(&seen, 0, sizeof seen);
    ocp_events(&engine, &seen.events);
    ocp_room(&engine, &seen.room, &seen.octets);
    ocp_first_entry(&engine, &seen.first);
    seen.view_status = ocp_view(&engine, 7, &seen.view, seen.registers, 11);
    for (uint64_t index = 0; index < POOL_WORDS; index++)
        ocp_pool_word(&engine, index, &seen.pool[index]);
    return seen;
}

static bool is_same(const struct seen *one, const struct seen *other)
{
    return memcmp(one, other, sizeof *one) == 0;
}

static size_t written;

static uint32_t request(uint8_t subtype, const uint8_t *data, size_t length)
{
    return ocp_request(&engine, 5, packet, telecommand(subtype, data, length), reports, OCP_REQUEST_REPORTS, &written);
}

/* A call that has to be refused: nothing that is seen of the engine changes, nor what the pointers point to. */
#define REFUSED(status, call) \
    do { \
        struct seen before = see(); \
        written = 77; \
        memset(reports, 77, sizeof reports); \
        WANT(status, call); \
        struct seen after = see(); \
        HOLDS(is_same(&before, &after) && written == 77 && reports[0] == 77); \
    } while (false)

/* ---- the tests */

/* Every call but ocp_open on a handle that is not open. What the pointers point to stays. */
static void closed_handle(void)
{
    uint64_t wide = 77, other = 77, registers[11] = {77};
    uint32_t count = 77, step = 77;
    uint16_t id = 77;
    uint8_t octets[4] = {77};
    struct ocp_outcome outcome = {77, 77};
    struct ocp_view view = {.status = 77};
    struct ocp_trace_record record = {77, 77, {77, 77}};
    written = 77;
    memset(reports, 77, sizeof reports);
    WANT(OCP_NOT_OPEN, ocp_close(&engine));
    WANT(OCP_NOT_OPEN, ocp_request(&engine, 0, packet, 0, reports, 0, &written));
    WANT(OCP_NOT_OPEN, ocp_drain(&engine, 0, reports, 0, &written));
    WANT(OCP_NOT_OPEN, ocp_step(&engine, 7, &outcome));
    WANT(OCP_NOT_OPEN, ocp_put_word(&engine, 0, 1));
    WANT(OCP_NOT_OPEN, ocp_put_word(&engine, UINT64_MAX, 1));
    WANT(OCP_NOT_OPEN, ocp_slice(&engine, 7, 0, &count, &outcome));
    WANT(OCP_NOT_OPEN, ocp_round(&engine, 7, 0, &count, &outcome, &step));
    WANT(OCP_NOT_OPEN, ocp_round(&engine, 7, 1, &count, &outcome, &step));
    WANT(OCP_NOT_OPEN, ocp_next_running(&engine, OCP_NO_PROCEDURE, &id));
    WANT(OCP_NOT_OPEN, ocp_set_break(&engine, 7, 0));
    WANT(OCP_NOT_OPEN, ocp_clear_break(&engine, 7, 0));
    WANT(OCP_NOT_OPEN, ocp_trace(&engine, 7, true));
    WANT(OCP_NOT_OPEN, ocp_memory(&engine, 7, 0x10000000, octets, 4));
    WANT(OCP_NOT_OPEN, ocp_view(&engine, 7, &view, registers, 0));
    WANT(OCP_NOT_OPEN, ocp_pool_word(&engine, 0, &wide));
    WANT(OCP_NOT_OPEN, ocp_events(&engine, &wide));
    WANT(OCP_NOT_OPEN, ocp_room(&engine, &wide, &other));
    WANT(OCP_NOT_OPEN, ocp_first_entry(&engine, &wide));
    WANT(OCP_NOT_OPEN, ocp_release(&engine, 0));
    WANT(OCP_NOT_OPEN, ocp_release(&engine, UINT64_MAX));
    WANT(OCP_NOT_OPEN, ocp_trace_record(&engine, 0, &record, registers, 0));
    WANT(OCP_NOT_OPEN, ocp_entry(&engine, 0, octets, 4, &written));
    HOLDS(other == 77 && record.id == 77 && record.place == 77 && record.outcome.kind == 77 && record.outcome.fault == 77);
    HOLDS(written == 77 && wide == 77 && registers[0] == 77 && count == 77 && id == 77 && octets[0] == 77);
    HOLDS(step == 77 && outcome.kind == 77 && outcome.fault == 77 && view.status == 77 && reports[0] == 77);
}

/* The version is that of the header. */
static void version(void)
{
    WANT(OCP_VERSION, ocp_version());
}

/* The numbers of ocp_open, each at both ends of its range, and the order of their refusals. */
static void numbers(void)
{
    WANT(OCP_BAD_PROFILE, ocp_open(&engine, 0, 2047, 0, 0, 0));
    WANT(OCP_BAD_PROFILE, ocp_open(&engine, 3, 2046, 1, 1, 1));
    WANT(OCP_BAD_APID, ocp_open(&engine, 2, 2047, 0, 0, 0));
    WANT(OCP_BAD_POOL_WORDS, ocp_open(&engine, 2, 2046, 0, 0, 0));
    WANT(OCP_BAD_POOL_WORDS, ocp_open(&engine, 1, 0, 257, 0, 0));
    WANT(OCP_BAD_CAPACITY, ocp_open(&engine, 1, 0, 256, 0, 0));
    WANT(OCP_BAD_CAPACITY, ocp_open(&engine, 1, 0, 1, 1000001, 0));
    WANT(OCP_BAD_CAPACITY, ocp_open(&engine, 1, 0, 1, UINT32_MAX, UINT32_MAX));
    WANT(OCP_BAD_OCTETS, ocp_open(&engine, 1, 0, 256, 1, 0));
    WANT(OCP_BAD_OCTETS, ocp_open(&engine, 1, 0, 1, 1000000, MOST_OCTETS + 1));
    WANT(OCP_BAD_OCTETS, ocp_open(&engine, 1, 0, 1, 1, UINT32_MAX));
    WANT(OCP_NOT_OPEN, ocp_close(&engine));
    WANT(OCP_DONE, ocp_open(&engine, 2, 2046, 256, 1000000, 1));
    WANT(OCP_ALREADY_OPEN, ocp_open(&engine, 0, 2047, 0, 0, 0));
    WANT(OCP_DONE, ocp_close(&engine));
    WANT(OCP_DONE, ocp_open(&engine, 1, 0, 1, 1, MOST_OCTETS));
    WANT(OCP_DONE, ocp_close(&engine));
    WANT(OCP_NOT_OPEN, ocp_close(&engine));
}

/* ocp_open with each of its pieces refused in turn: what it took is given back, and the handle stays closed. */
static void each_piece(void)
{
    size_t of_open = 0;
    for (size_t number = 0; number <= of_open; number++) {
        pieces = 0;
        refused = number;
        uint32_t status = open_small();
        refused = SIZE_MAX;
        of_open = pieces;
        WANT(number < of_open ? OCP_MEMORY : OCP_DONE, status);
        WANT(number < of_open ? OCP_NOT_OPEN : OCP_DONE, ocp_close(&engine));
    }
    HOLDS(of_open == PIECES);
}

/* What ocp_size says is what ocp_open asks for: nothing if it is refused. */
static void size_of(int line, uint32_t profile, uint32_t pool_words, uint32_t entries, uint32_t octets)
{
    size_t size = ocp_size(profile, pool_words, entries, octets);
    asked = pieces = 0;
    uint32_t status = ocp_open(&engine, profile, APID, pool_words, entries, octets);
    bool is_open = status == OCP_DONE;
    want(line, "ocp_size", true, size == asked && (size != 0) == is_open);
    want(line, "the pieces", is_open ? PIECES : 0, (uint32_t)pieces);
    want(line, "ocp_open", false, status == OCP_MEMORY);
    want(line, "ocp_close", is_open ? OCP_DONE : OCP_NOT_OPEN, ocp_close(&engine));
}

/* Numbers at both ends of their ranges, beside them, and around multiples of 16 octets; each small number of entries, and of
 * octets. */
static void sizes(void)
{
    static const uint32_t words[] = {0, 1, 2, 3, 16, 17, 255, 256, 257, UINT32_MAX};
    static const uint32_t entries[] = {0, 1, 3, 4, 5, 1000, 999999, 1000000, 1000001, 0x80000000, UINT32_MAX};
    static const uint32_t octets[] = {0, 1, 15, 16, 17, 65549, MOST_OCTETS, MOST_OCTETS + 1, UINT32_MAX};
    for (uint32_t profile = 0; profile <= 3; profile++)
        for (size_t one = 0; one < sizeof words / sizeof *words; one++)
            for (size_t two = 0; two < sizeof entries / sizeof *entries; two++)
                for (size_t three = 0; three < sizeof octets / sizeof *octets; three++)
                    if (octets[three] == MOST_OCTETS ? one == two && (one == 1 || one == 7) : (one + two + three) % 3 == 0)
                        size_of(__LINE__, profile, words[one], entries[two], octets[three]);
    for (uint32_t number = 1; number <= 100; number++)
        size_of(__LINE__, 1 + number % 2, 1 + number * 7919 % 256, 1 + number * 104729 % 1000000, 1 + number * 1299709 % 1000000);
    for (uint32_t number = 1; number <= 1100; number++)
        size_of(__LINE__, 1 + number % 2, 1 + number % 256, number, 1101 - number);
    HOLDS(ocp_size(1, 1, 1, 1) == 714480 && ocp_size(2, 256, 1000000, MOST_OCTETS) == 1078507456);
}

static uint32_t load(void)
{
    return request(LOAD, load_7, sizeof load_7);
}

static uint32_t load_rounds_7(void)
{
    return request(LOAD, load_rounds, sizeof load_rounds);
}

static uint32_t load_long(void)
{
    static uint8_t data[4 + 2048 * 8] = {0, 8, 2048 * 8 >> 8, 0};
    return request(LOAD, data, sizeof data);
}

static uint32_t activate(void)
{
    return request(ACTIVATE, activate_7, sizeof activate_7);
}

static uint32_t stop(void)
{
    return request(STOP, stop_7, sizeof stop_7);
}

static uint32_t drain(void)
{
    return ocp_drain(&engine, 5, reports, OCP_DRAIN_REPORTS, &written);
}

/* Octets that are no request, and buffers that are too short. */
static void packets(void)
{
    WANT(OCP_DONE, ocp_open(&engine, 1, APID, POOL_WORDS, 20, OCTETS));
    memset(packet, 0, sizeof packet);
    REFUSED(OCP_BUFFER_TOO_SMALL, ocp_request(&engine, 0, packet, 0, reports, OCP_REQUEST_REPORTS - 1, &written));
    REFUSED(OCP_BUFFER_TOO_SMALL, ocp_request(&engine, 0, packet, 0, reports, 0, &written));
    REFUSED(OCP_DISCARDED_SHORT, ocp_request(&engine, 0, packet, 0, reports, OCP_REQUEST_REPORTS, &written));
    REFUSED(OCP_DISCARDED_SHORT, ocp_request(&engine, 0, packet, 6, reports, OCP_REQUEST_REPORTS, &written));
    REFUSED(OCP_DISCARDED_LENGTH, ocp_request(&engine, 0, packet, 65536, reports, OCP_REQUEST_REPORTS, &written));
    packet[0] = 0x20;
    REFUSED(OCP_DISCARDED_VERSION, ocp_request(&engine, 0, packet, 65536, reports, OCP_REQUEST_REPORTS, &written));
    packet[0] = 0;
    packet[4] = packet[5] = 0xff;
    REFUSED(OCP_DISCARDED_NOT_TELECOMMAND, ocp_request(&engine, 0, packet, LONGEST, reports, OCP_REQUEST_REPORTS, &written));
    packet[0] = 0x18;
    REFUSED(OCP_DISCARDED_OTHER_APID, ocp_request(&engine, 0, packet, LONGEST, reports, OCP_REQUEST_REPORTS, &written));
    REFUSED(OCP_DISCARDED_LENGTH, ocp_request(&engine, 0, packet, LONGEST + 1, reports, OCP_REQUEST_REPORTS, &written));
    packet[0] |= APID >> 8;
    packet[1] = APID & 255;
    packet[2] = 0xc0;
    /* the longest packet is taken, and rejected for its error control: [1,2] code 4 */
    WANT(OCP_DONE, ocp_request(&engine, 0, packet, LONGEST, reports, OCP_REQUEST_REPORTS, &written));
    HOLDS(written == 25 && reports[7] == 1 && reports[8] == 2 && reports[22] == 4);
    REFUSED(OCP_BUFFER_TOO_SMALL, ocp_drain(&engine, 0, reports, OCP_DRAIN_REPORTS - 1, &written));
    REFUSED(OCP_NOTHING_DUE, ocp_drain(&engine, 0, reports, OCP_DRAIN_REPORTS, &written));
    WANT(OCP_DONE, ocp_close(&engine));
}

/* Identifiers that are not loaded, and numbers out of their ranges. */
static void procedures(void)
{
    struct ocp_outcome outcome = {77, 77};
    struct ocp_view view = {.status = 77};
    uint64_t registers[12] = {77}, wide = 77;
    uint32_t count = 77;
    uint16_t id = 77;
    uint8_t octets[512] = {77};
    WANT(OCP_DONE, ocp_open(&engine, 1, APID, POOL_WORDS, 20, OCTETS));
    REFUSED(OCP_NOT_LOADED, ocp_step(&engine, 8, &outcome));
    REFUSED(OCP_NOT_LOADED, ocp_slice(&engine, 8, 1, &count, &outcome));
    REFUSED(OCP_NO_BUDGET, ocp_slice(&engine, 8, 0, &count, &outcome));
    REFUSED(OCP_NONE_RUNNING, ocp_next_running(&engine, OCP_NO_PROCEDURE, &id));
    REFUSED(OCP_NOT_LOADED, ocp_set_break(&engine, 8, 0));
    REFUSED(OCP_NOT_LOADED, ocp_clear_break(&engine, 8, 0));
    REFUSED(OCP_NOT_LOADED, ocp_trace(&engine, 8, true));
    REFUSED(OCP_NOT_LOADED, ocp_memory(&engine, 8, 0x10000000, octets, 4));
    REFUSED(OCP_NOT_LOADED, ocp_view(&engine, 8, &view, registers, 11));
    REFUSED(OCP_BUFFER_TOO_SMALL, ocp_view(&engine, 8, &view, registers, 10));
    REFUSED(OCP_NO_WORD, ocp_pool_word(&engine, 16, &wide));
    REFUSED(OCP_NO_WORD, ocp_pool_word(&engine, UINT64_MAX, &wide));

    WANT(OCP_DONE, load());
    REFUSED(OCP_NOT_RUNNING, ocp_step(&engine, 7, &outcome));
    REFUSED(OCP_NOT_RUNNING, ocp_slice(&engine, 7, 1, &count, &outcome));
    REFUSED(OCP_NONE_RUNNING, ocp_next_running(&engine, 7, &id));
    REFUSED(OCP_NOT_AN_INSTRUCTION, ocp_set_break(&engine, 7, 3));
    REFUSED(OCP_NOT_SET, ocp_clear_break(&engine, 7, 0));
    REFUSED(OCP_OUTSIDE_MEMORY, ocp_memory(&engine, 7, 0x10000fff, octets, 2));
    REFUSED(OCP_OUTSIDE_MEMORY, ocp_memory(&engine, 7, UINT64_MAX, octets, 2));
    HOLDS(outcome.kind == 77 && view.status == 77 && registers[0] == 77 && wide == 77 && count == 77 && id == 77);
    HOLDS(octets[0] == 77);

    /* a breakpoint that is set already, and a buffer that is longer than it has to be */
    WANT(OCP_DONE, ocp_set_break(&engine, 7, 0));
    REFUSED(OCP_ALREADY_SET, ocp_set_break(&engine, 7, 0));
    WANT(OCP_DONE, ocp_clear_break(&engine, 7, 0));
    WANT(OCP_DONE, ocp_trace(&engine, 7, true));
    registers[11] = 77;
    WANT(OCP_DONE, ocp_view(&engine, 7, &view, registers, 12));
    HOLDS(registers[10] == 0x10001000 && registers[11] == 77 && view.status == OCP_INACTIVE);
    WANT(OCP_DONE, ocp_close(&engine));
}

/* ---- pool words from outside */

/* A write that has to be done: the word is the value, and nothing else that is seen changes but one event and one entry. */
static void written_word(int line, uint64_t index, uint64_t value)
{
    char name[48];
    snprintf(name, sizeof name, "put %" PRIu64 " %" PRIu64, index, value);
    struct seen before = see();
    want(line, name, OCP_DONE, ocp_put_word(&engine, index, value));
    struct seen after = see();
    want(line, name, true, after.pool[index] == value);
    before.pool[index] = value;
    before.events++;
    before.room--;
    before.octets -= PUT_WORD_ENTRY;
    want(line, name, true, is_same(&before, &after));
}

#define PUT(index, value) written_word(__LINE__, index, value)

/* Each word of the pool, and indices that it has not: the next one, those whose low bits are an index, the greatest. */
static void pool_words(void)
{
    uint64_t word = 77;
    struct ocp_outcome last;
    uint32_t count;
    WANT(OCP_DONE, ocp_open(&engine, 1, APID, POOL_WORDS, 100, OCTETS));
    for (uint64_t index = 0; index < POOL_WORDS; index++)
        PUT(index, UINT64_MAX - index);
    PUT(3, 0);
    PUT(3, 0); /* also the same value again */
    PUT(3, 0x0102030405060708);
    static const uint64_t none[] = {POOL_WORDS, POOL_WORDS + 1, 255, 256, 65536, 65539, 0x100000000, 0x100000003, UINT64_MAX};
    for (size_t at = 0; at < sizeof none / sizeof *none; at++)
        REFUSED(OCP_NO_WORD, ocp_put_word(&engine, none[at], 1));

    /* a procedure reads what was written last, and a word that is not there is its fault 4 */
    WANT(OCP_DONE, request(LOAD, load_reader, sizeof load_reader));
    WANT(OCP_DONE, request(ACTIVATE, read_15, sizeof read_15));
    PUT(15, 0x8070605040302010);
    WANT(OCP_DONE, ocp_slice(&engine, 7, 100, &count, &last));
    HOLDS(count == 3 && last.kind == OCP_ENDED && see().registers[0] == 0x8070605040302010);
    WANT(OCP_DONE, ocp_close(&engine));

    /* the largest pool and the smallest */
    WANT(OCP_DONE, ocp_open(&engine, 2, APID, 256, 5, OCTETS));
    WANT(OCP_DONE, ocp_put_word(&engine, 255, 9));
    WANT(OCP_DONE, ocp_pool_word(&engine, 255, &word));
    HOLDS(word == 9);
    REFUSED(OCP_NO_WORD, ocp_put_word(&engine, 256, 9));
    WANT(OCP_DONE, ocp_close(&engine));
    WANT(OCP_DONE, ocp_open(&engine, 1, APID, 1, 5, OCTETS));
    WANT(OCP_DONE, ocp_put_word(&engine, 0, 9));
    REFUSED(OCP_NO_WORD, ocp_put_word(&engine, 1, 9));
    WANT(OCP_DONE, ocp_close(&engine));
}

/* ---- rounds */

/* A round that has to be done, and what it answers. It is one entry, and each of its instructions an event. */
static void done_round(int line, uint32_t budget, uint32_t wanted_count, uint32_t kind, uint32_t fault, uint32_t wanted_step)
{
    char name[32];
    snprintf(name, sizeof name, "round %" PRIu32, budget);
    uint32_t count = 77, step = 77;
    struct ocp_outcome last = {77, 77};
    struct seen before = see();
    want(line, name, OCP_DONE, ocp_round(&engine, 7, budget, &count, &last, &step));
    struct seen after = see();
    want(line, name, wanted_count, count);
    want(line, name, kind, last.kind);
    want(line, name, fault, last.fault);
    want(line, name, wanted_step, step);
    want(line, name, true, after.events == before.events + wanted_count && after.room == before.room - 1 &&
                         after.octets == before.octets - STEPS_ENTRY);
}

#define ROUND(budget, count, kind, fault, step) done_round(__LINE__, budget, count, kind, fault, step)

/* Rounds of the procedure that ends three steps, with the counts of its instructions by hand. */
static void rounds(void)
{
    struct ocp_view view;
    uint64_t registers[11];
    uint32_t count = 77, step = 77;
    struct ocp_outcome last = {77, 77};
    WANT(OCP_DONE, ocp_open(&engine, 1, APID, POOL_WORDS, 100, OCTETS));
    REFUSED(OCP_NO_BUDGET, ocp_round(&engine, 8, 0, &count, &last, &step));
    REFUSED(OCP_NOT_LOADED, ocp_round(&engine, 8, 1, &count, &last, &step));
    WANT(OCP_DONE, request(LOAD, load_rounds, sizeof load_rounds));
    REFUSED(OCP_NO_BUDGET, ocp_round(&engine, 7, 0, &count, &last, &step));
    REFUSED(OCP_NOT_RUNNING, ocp_round(&engine, 7, 1, &count, &last, &step));
    WANT(OCP_DONE, activate());
    REFUSED(OCP_NO_BUDGET, ocp_round(&engine, 7, 0, &count, &last, &step));
    HOLDS(count == 77 && step == 77 && last.kind == 77 && last.fault == 77);

    /* it goes on over call 1, and ends with each call 5 */
    PUT(2, 40);
    ROUND(1000, 5, OCP_CALLED, 0, 3);
    HOLDS(see().registers[6] == 40);
    ROUND(1000, 2, OCP_CALLED, 0, 65535);
    ROUND(UINT32_MAX, 2, OCP_CALLED, 0, 0);

    /* the budget ends it before, and just with, the call 5 */
    PUT(2, 41);
    ROUND(1, 1, OCP_RAN, 0, OCP_NO_STEP);
    ROUND(2, 2, OCP_CALLED, 0, OCP_NO_STEP);
    ROUND(3, 3, OCP_CALLED, 0, 3);
    HOLDS(see().registers[6] == 41);

    /* a suspend waits for the end of step 3: other steps end before, then the procedure is held */
    WANT(OCP_DONE, request(SUSPEND, suspend_3, sizeof suspend_3));
    ROUND(1000, 2, OCP_CALLED, 0, 65535);
    ROUND(1000, 2, OCP_CALLED, 0, 0);
    ROUND(1000, 6, OCP_CALLED, 0, 3);
    WANT(OCP_DONE, ocp_view(&engine, 7, &view, registers, 11));
    HOLDS(view.status == OCP_HELD && view.place == 5);
    REFUSED(OCP_NOT_RUNNING, ocp_round(&engine, 7, 1000, &count, &last, &step));
    WANT(OCP_DONE, drain());
    WANT(OCP_DONE, request(RESUME, id_7, sizeof id_7));

    /* a breakpoint at a call 5 ends the round before it, and is passed then */
    WANT(OCP_DONE, ocp_set_break(&engine, 7, 6));
    ROUND(1000, 2, OCP_BROKE, 0, OCP_NO_STEP);
    WANT(OCP_DONE, request(RESUME, id_7, sizeof id_7));
    PUT(2, 42); /* which leaves the pass as it is */
    ROUND(1000, 1, OCP_CALLED, 0, 65535);
    WANT(OCP_DONE, ocp_clear_break(&engine, 7, 6));

    /* a stop that waits for any step */
    WANT(OCP_DONE, stop());
    ROUND(1000, 2, OCP_CALLED, 0, 0);
    WANT(OCP_DONE, ocp_view(&engine, 7, &view, registers, 11));
    HOLDS(view.status == OCP_INACTIVE && view.cause == OCP_STOPPED);
    REFUSED(OCP_NOT_RUNNING, ocp_round(&engine, 7, 1000, &count, &last, &step));
    WANT(OCP_DONE, ocp_close(&engine));

    /* the last exit, and a fault */
    WANT(OCP_DONE, ocp_open(&engine, 1, APID, POOL_WORDS, 20, OCTETS));
    WANT(OCP_DONE, request(LOAD, load_reader, sizeof load_reader));
    WANT(OCP_DONE, request(ACTIVATE, read_15, sizeof read_15));
    ROUND(1000, 3, OCP_ENDED, 0, OCP_NO_STEP);
    WANT(OCP_DONE, request(ACTIVATE, read_16, sizeof read_16));
    ROUND(1000, 2, OCP_FAULTED, 4, OCP_NO_STEP);
    WANT(OCP_DONE, ocp_close(&engine));
}

/* A journal with room for four entries: what comes after them is refused, and what is refused before that too. */
static void full_journal(void)
{
    struct ocp_outcome outcome;
    uint32_t count = 77, step = 77;
    WANT(OCP_DONE, open_small());
    WANT(OCP_DONE, load());
    WANT(OCP_DONE, activate());
    PUT(15, 1);
    PUT(15, 2);
    REFUSED(OCP_JOURNAL_FULL, ocp_put_word(&engine, 15, 3));
    REFUSED(OCP_JOURNAL_FULL, ocp_put_word(&engine, 0, 3));
    REFUSED(OCP_NO_WORD, ocp_put_word(&engine, 16, 3));
    REFUSED(OCP_JOURNAL_FULL, ocp_round(&engine, 7, 1000, &count, &outcome, &step));
    REFUSED(OCP_NO_BUDGET, ocp_round(&engine, 7, 0, &count, &outcome, &step));
    REFUSED(OCP_NOT_LOADED, ocp_round(&engine, 8, 1000, &count, &outcome, &step));
    HOLDS(count == 77 && step == 77);
    WANT(OCP_DONE, ocp_close(&engine));

    WANT(OCP_DONE, open_small());
    WANT(OCP_DONE, load());
    WANT(OCP_DONE, activate());
    WANT(OCP_DONE, stop());
    WANT(OCP_DONE, ocp_slice(&engine, 7, 1000, &count, &outcome));
    HOLDS(count == 2 && outcome.kind == OCP_CALLED);
    REFUSED(OCP_JOURNAL_FULL, request(STATUS, load_7, 0));
    REFUSED(OCP_JOURNAL_FULL, drain());
    REFUSED(OCP_JOURNAL_FULL, ocp_set_break(&engine, 7, 0));
    REFUSED(OCP_NOT_SET, ocp_clear_break(&engine, 7, 0));
    REFUSED(OCP_JOURNAL_FULL, ocp_trace(&engine, 7, false));
    REFUSED(OCP_JOURNAL_FULL, ocp_put_word(&engine, 0, 3));
    REFUSED(OCP_NOT_RUNNING, ocp_step(&engine, 7, &outcome));
    REFUSED(OCP_NOT_RUNNING, ocp_round(&engine, 7, 1000, &count, &outcome, &step));
    REFUSED(OCP_DISCARDED_SHORT, ocp_request(&engine, 0, packet, 3, reports, OCP_REQUEST_REPORTS, &written));
    WANT(OCP_DONE, ocp_close(&engine));
}

/* A journal that is full by its octets, while it has room for entries. What does not fit is refused, and what fits is done. */
static void full_octets(void)
{
    struct ocp_outcome last;
    uint32_t count;
    const size_t head = 11, control = 2, time = 7; /* of a telecommand; of the entry of a request */
    const uint32_t octets = (uint32_t)(time + head + sizeof load_7 + control + PUT_WORD_ENTRY + STEPS_ENTRY);
    WANT(OCP_DONE, ocp_open(&engine, 1, APID, POOL_WORDS, 1000, octets));
    HOLDS(see().room == 1000 && see().octets == octets);
    WANT(OCP_DONE, load());
    HOLDS(see().room == 999 && see().octets == PUT_WORD_ENTRY + STEPS_ENTRY);
    REFUSED(OCP_JOURNAL_FULL, activate()); /* 24 octets */
    PUT(15, 1);
    REFUSED(OCP_JOURNAL_FULL, ocp_put_word(&engine, 15, 2)); /* 13 octets into 9 */
    REFUSED(OCP_NO_WORD, ocp_put_word(&engine, 16, 2));
    WANT(OCP_DONE, ocp_trace(&engine, 7, false)); /* 7 octets */
    REFUSED(OCP_JOURNAL_FULL, ocp_set_break(&engine, 7, 0));
    HOLDS(see().room == 997 && see().octets == 2);
    WANT(OCP_DONE, ocp_release(&engine, 1));
    HOLDS(see().room == 998 && see().octets == octets - PUT_WORD_ENTRY - 7 && see().first == 1);
    WANT(OCP_DONE, activate());
    WANT(OCP_DONE, ocp_slice(&engine, 7, 1000, &count, &last));
    HOLDS(count == 1000);
    WANT(OCP_DONE, ocp_close(&engine));

    /* a journal of 100 octets, and the longest packet: it is never taken */
    WANT(OCP_DONE, ocp_open(&engine, 1, APID, POOL_WORDS, 1000000, 100));
    memset(packet, 0, sizeof packet);
    packet[0] = 0x18 | APID >> 8;
    packet[1] = APID & 255;
    packet[4] = packet[5] = 0xff;
    REFUSED(OCP_JOURNAL_FULL, ocp_request(&engine, 0, packet, LONGEST, reports, OCP_REQUEST_REPORTS, &written));
    REFUSED(OCP_JOURNAL_FULL, load_long());
    WANT(OCP_DONE, load());
    WANT(OCP_DONE, ocp_close(&engine));

    /* one of 65,549 octets takes it once, and again after a release */
    WANT(OCP_DONE, ocp_open(&engine, 1, APID, POOL_WORDS, 2, OCP_LONGEST_ENTRY));
    for (uint64_t turn = 0; turn < 3; turn++) {
        memset(packet, 0, sizeof packet);
        packet[0] = 0x18 | APID >> 8;
        packet[1] = APID & 255;
        packet[4] = packet[5] = 0xff;
        WANT(OCP_DONE, ocp_request(&engine, 0, packet, LONGEST, reports, OCP_REQUEST_REPORTS, &written));
        HOLDS(see().room == 1 && see().octets == 0 && see().first == turn);
        REFUSED(OCP_JOURNAL_FULL, ocp_put_word(&engine, 0, 1));
        WANT(OCP_DONE, ocp_release(&engine, 1));
        HOLDS(see().room == 2 && see().octets == OCP_LONGEST_ENTRY);
    }
    WANT(OCP_DONE, ocp_close(&engine));
}

/* The octets of an entry, in a buffer that is just long enough, one octet too short, and longer. */
static void entry(int line, uint64_t index, const uint8_t *octets, size_t length)
{
    static uint8_t buffer[OCP_LONGEST_ENTRY + 1];
    char name[32];
    snprintf(name, sizeof name, "entry %" PRIu64, index);
    for (size_t room = length - 1; room <= length + 1; room++) {
        memset(buffer, 77, sizeof buffer);
        written = 0;
        want(line, name, room < length ? OCP_BUFFER_TOO_SMALL : OCP_DONE, ocp_entry(&engine, index, buffer, room, &written));
        want(line, name, (uint32_t)length, (uint32_t)written);
        want(line, name, true, room < length ? buffer[0] == 77 : memcmp(buffer, octets, length) == 0);
        want(line, name, 77, buffer[length]);
    }
}

/* That of the last request, at this time. */
static void request_entry(int line, uint64_t index, uint32_t time, size_t length)
{
    static uint8_t octets[OCP_LONGEST_ENTRY] = {OCP_ENTRY_REQUEST};
    for (int at = 0; at < 4; at++)
        octets[3 + at] = (uint8_t)(time >> (24 - 8 * at));
    memcpy(octets + 7, packet, length);
    entry(line, index, octets, 7 + length);
}

#define ENTRY(index, ...) entry(__LINE__, index, (const uint8_t[]){__VA_ARGS__}, sizeof((const uint8_t[]){__VA_ARGS__}))

/* Each kind of entry, octet for octet, and indices that have none. */
static void entries(void)
{
    struct ocp_outcome last;
    uint32_t count;
    uint8_t octets[16] = {77};
    WANT(OCP_DONE, ocp_open(&engine, 1, APID, POOL_WORDS, 20, OCTETS));
    REFUSED(OCP_NO_ENTRY, ocp_entry(&engine, 0, octets, sizeof octets, &written));
    WANT(OCP_DONE, load());
    request_entry(__LINE__, 0, 5, 11 + sizeof load_7 + 2);
    REFUSED(OCP_NO_ENTRY, ocp_entry(&engine, 1, octets, sizeof octets, &written));
    REFUSED(OCP_NO_ENTRY, ocp_entry(&engine, UINT64_MAX, octets, 0, &written));
    WANT(OCP_DONE, activate());
    request_entry(__LINE__, 1, 5, 11 + sizeof activate_7 + 2);
    WANT(OCP_DONE, ocp_trace(&engine, 7, true));
    WANT(OCP_DONE, ocp_set_break(&engine, 7, 2));
    WANT(OCP_DONE, ocp_clear_break(&engine, 7, 2));
    WANT(OCP_DONE, stop());
    WANT(OCP_DONE, ocp_slice(&engine, 7, 1000, &count, &last));
    WANT(OCP_DONE, ocp_drain(&engine, 0x01020304, reports, OCP_DRAIN_REPORTS, &written));
    WANT(OCP_DONE, ocp_trace(&engine, 7, false));
    WANT(OCP_DONE, ocp_put_word(&engine, 15, 0x0102030405060708));
    WANT(OCP_DONE, ocp_put_word(&engine, 0, UINT64_MAX));
    ENTRY(2, OCP_ENTRY_TRACE, 0, 0, 0, 7, 0, 1);
    ENTRY(3, OCP_ENTRY_SET_BREAK, 0, 0, 0, 7, 0, 2);
    ENTRY(4, OCP_ENTRY_CLEAR_BREAK, 0, 0, 0, 7, 0, 2);
    ENTRY(6, OCP_ENTRY_STEPS, 0, 0, 0, 7, 0, 0, 0, 2);
    ENTRY(7, OCP_ENTRY_DRAIN, 0, 0, 1, 2, 3, 4);
    ENTRY(8, OCP_ENTRY_TRACE, 0, 0, 0, 7, 0, 0);
    ENTRY(9, OCP_ENTRY_PUT_WORD, 0, 0, 0, 15, 1, 2, 3, 4, 5, 6, 7, 8);
    ENTRY(10, OCP_ENTRY_PUT_WORD, 0, 0, 0, 0, 255, 255, 255, 255, 255, 255, 255, 255);
    REFUSED(OCP_NO_ENTRY, ocp_entry(&engine, 11, octets, sizeof octets, &written));
    HOLDS(octets[0] == 77);

    /* the longest packet that is not discarded, and the longest entry */
    memset(packet, 0, sizeof packet);
    packet[0] = 0x18 | APID >> 8;
    packet[1] = APID & 255;
    packet[4] = packet[5] = 0xff;
    WANT(OCP_DONE, ocp_request(&engine, UINT32_MAX, packet, LONGEST, reports, OCP_REQUEST_REPORTS, &written));
    HOLDS(7 + LONGEST == OCP_LONGEST_ENTRY);
    request_entry(__LINE__, 11, UINT32_MAX, LONGEST);

    /* a round is an entry as a slice is */
    uint32_t step;
    WANT(OCP_DONE, activate());
    WANT(OCP_DONE, ocp_round(&engine, 7, 1000, &count, &last, &step));
    HOLDS(count == 2 && step == 1);
    ENTRY(13, OCP_ENTRY_STEPS, 0, 0, 0, 7, 0, 0, 0, 2);
    WANT(OCP_DONE, ocp_close(&engine));
}

/* Entries are released from the oldest on. Indices stay, and what is released or not yet there has a name of its own. */
static void releases(void)
{
    uint8_t octets[16] = {77};
    WANT(OCP_DONE, ocp_open(&engine, 1, APID, POOL_WORDS, 4, OCTETS));
    WANT(OCP_DONE, ocp_release(&engine, 0));
    REFUSED(OCP_NOT_HELD, ocp_release(&engine, 1));
    REFUSED(OCP_NOT_HELD, ocp_release(&engine, UINT64_MAX));
    HOLDS(see().first == 0 && see().room == 4 && see().octets == OCTETS);
    for (uint64_t index = 0; index < 4; index++)
        PUT(index, 40 + index);
    REFUSED(OCP_JOURNAL_FULL, ocp_put_word(&engine, 4, 44));
    REFUSED(OCP_NOT_HELD, ocp_release(&engine, 5));
    REFUSED(OCP_NOT_HELD, ocp_release(&engine, 0x100000000));
    REFUSED(OCP_NO_ENTRY, ocp_entry(&engine, 4, octets, sizeof octets, &written));

    /* the oldest one goes; the others keep their indices */
    WANT(OCP_DONE, ocp_release(&engine, 1));
    HOLDS(see().first == 1 && see().room == 1 && see().octets == OCTETS - 3 * PUT_WORD_ENTRY);
    REFUSED(OCP_RELEASED, ocp_entry(&engine, 0, octets, sizeof octets, &written));
    REFUSED(OCP_RELEASED, ocp_entry(&engine, 0, octets, 0, &written));
    ENTRY(1, OCP_ENTRY_PUT_WORD, 0, 0, 0, 1, 0, 0, 0, 0, 0, 0, 0, 41);
    ENTRY(3, OCP_ENTRY_PUT_WORD, 0, 0, 0, 3, 0, 0, 0, 0, 0, 0, 0, 43);
    PUT(4, 44);
    ENTRY(4, OCP_ENTRY_PUT_WORD, 0, 0, 0, 4, 0, 0, 0, 0, 0, 0, 0, 44);
    REFUSED(OCP_JOURNAL_FULL, ocp_put_word(&engine, 5, 45));

    /* several at once, and then none is held */
    WANT(OCP_DONE, ocp_release(&engine, 2));
    HOLDS(see().first == 3 && see().room == 2);
    REFUSED(OCP_RELEASED, ocp_entry(&engine, 2, octets, sizeof octets, &written));
    ENTRY(3, OCP_ENTRY_PUT_WORD, 0, 0, 0, 3, 0, 0, 0, 0, 0, 0, 0, 43);
    WANT(OCP_DONE, ocp_release(&engine, 2));
    REFUSED(OCP_NOT_HELD, ocp_release(&engine, 1));
    HOLDS(see().first == 5 && see().room == 4 && see().octets == OCTETS && see().events == 5);
    REFUSED(OCP_RELEASED, ocp_entry(&engine, 4, octets, sizeof octets, &written));
    REFUSED(OCP_NO_ENTRY, ocp_entry(&engine, 5, octets, sizeof octets, &written));
    REFUSED(OCP_NO_ENTRY, ocp_entry(&engine, UINT64_MAX, octets, sizeof octets, &written));
    HOLDS(octets[0] == 77);

    /* the words stay as they were written, and the journal goes on */
    for (uint64_t index = 0; index < 5; index++)
        HOLDS(see().pool[index] == 40 + index);
    for (uint64_t turn = 0; turn < 1000; turn++) {
        PUT(turn % POOL_WORDS, turn);
        HOLDS(see().first == 5 + turn);
        WANT(OCP_DONE, ocp_release(&engine, 1));
    }
    HOLDS(see().events == 1005);
    WANT(OCP_DONE, ocp_close(&engine));
}

/* ---- trace records */

/* A record by hand: mov64 r1, 1 is at slot 0, call 5 at slot 1, ja -1 at slot 2, to slot 2 again. */
static void record_at(int line, uint64_t index, uint32_t place, uint32_t kind, uint64_t r1)
{
    struct ocp_trace_record record = {77, 77, {77, 77}};
    uint64_t registers[12];
    memset(registers, 77, sizeof registers);
    want(line, "ocp_trace_record", OCP_DONE, ocp_trace_record(&engine, index, &record, registers, 12));
    want(line, "the procedure", 7, record.id);
    want(line, "the place", place, record.place);
    want(line, "the outcome", kind, record.outcome.kind);
    want(line, "no fault", 0, record.outcome.fault);
    want(line, "r1", true, registers[1] == r1);
    want(line, "r10", true, registers[10] == 0x10001000);
    want(line, "what follows the registers", true, registers[11] == 0x4d4d4d4d4d4d4d4d);
}

#define RECORD(index, place, kind, r1) record_at(__LINE__, index, place, kind, r1)

static void trace_records(void)
{
    struct ocp_trace_record record = {77, 77, {77, 77}};
    struct ocp_outcome last;
    uint64_t registers[11] = {77};
    uint32_t count;
    WANT(OCP_DONE, ocp_open(&engine, 1, APID, POOL_WORDS, 100, OCTETS));
    REFUSED(OCP_NO_RECORD, ocp_trace_record(&engine, 0, &record, registers, 11));
    REFUSED(OCP_BUFFER_TOO_SMALL, ocp_trace_record(&engine, 0, &record, registers, 10));
    WANT(OCP_DONE, load());
    WANT(OCP_DONE, activate());
    WANT(OCP_DONE, ocp_slice(&engine, 7, 1, &count, &last)); /* not traced */
    REFUSED(OCP_NO_RECORD, ocp_trace_record(&engine, 0, &record, registers, 11));
    WANT(OCP_DONE, ocp_trace(&engine, 7, true));
    WANT(OCP_DONE, ocp_slice(&engine, 7, 2, &count, &last));
    RECORD(0, 1, OCP_CALLED, 1);
    RECORD(1, 2, OCP_RAN, 1);
    REFUSED(OCP_NO_RECORD, ocp_trace_record(&engine, 2, &record, registers, 11));
    REFUSED(OCP_NO_RECORD, ocp_trace_record(&engine, UINT64_MAX, &record, registers, 11));
    REFUSED(OCP_NO_RECORD, ocp_trace_record(&engine, 0x100000000, &record, registers, 11));

    /* the last 256 are kept */
    WANT(OCP_DONE, ocp_slice(&engine, 7, 254, &count, &last));
    RECORD(0, 1, OCP_CALLED, 1);
    RECORD(255, 2, OCP_RAN, 1);
    REFUSED(OCP_NO_RECORD, ocp_trace_record(&engine, 256, &record, registers, 11));
    WANT(OCP_DONE, ocp_slice(&engine, 7, 1, &count, &last));
    RECORD(0, 2, OCP_RAN, 1);
    RECORD(255, 2, OCP_RAN, 1);
    REFUSED(OCP_NO_RECORD, ocp_trace_record(&engine, 256, &record, registers, 11));
    WANT(OCP_DONE, ocp_close(&engine));

    /* the last exit, and a fault, with its number and the registers after it */
    WANT(OCP_DONE, ocp_open(&engine, 1, APID, POOL_WORDS, 100, OCTETS));
    WANT(OCP_DONE, request(LOAD, load_reader, sizeof load_reader));
    WANT(OCP_DONE, ocp_trace(&engine, 7, true));
    WANT(OCP_DONE, request(ACTIVATE, read_15, sizeof read_15));
    WANT(OCP_DONE, ocp_slice(&engine, 7, 100, &count, &last));
    RECORD(0, 0, OCP_RAN, 15);
    RECORD(1, 1, OCP_CALLED, 15);
    RECORD(2, 2, OCP_ENDED, 15);
    WANT(OCP_DONE, request(ACTIVATE, read_16, sizeof read_16));
    WANT(OCP_DONE, ocp_slice(&engine, 7, 100, &count, &last));
    WANT(OCP_DONE, ocp_trace_record(&engine, 4, &record, registers, 11));
    HOLDS(record.id == 7 && record.place == 1 && record.outcome.kind == OCP_FAULTED && record.outcome.fault == 4 && registers[1] == 16);
    REFUSED(OCP_NO_RECORD, ocp_trace_record(&engine, 5, &record, registers, 11));
    WANT(OCP_DONE, ocp_close(&engine));
}

/* ---- memory */

static uint32_t unload(void)
{
    return request(UNLOAD, id_7, sizeof id_7);
}

static uint32_t slice(void)
{
    struct ocp_outcome outcome;
    uint32_t count;
    return ocp_slice(&engine, 7, 1000, &count, &outcome);
}

/* Loads or unloads procedures 8 to 22, upwards or downwards, the loads with the longest image. */
static void fifteen(uint8_t subtype, bool upwards)
{
    static uint8_t data[4 + 2048 * 8] = {0, 0, 2048 * 8 >> 8, 0};
    struct ocp_view view;
    uint64_t registers[11];
    for (int slot = 0; slot < 2048; slot++)
        data[4 + slot * 8] = slot < 2047 ? 0x05 : 0x95;
    for (uint8_t number = 0; number < 15; number++) {
        data[1] = upwards ? 8 + number : 22 - number;
        WANT(OCP_DONE, request(subtype, data, subtype == LOAD ? sizeof data : 2));
        WANT(subtype == LOAD ? OCP_DONE : OCP_NOT_LOADED, ocp_view(&engine, data[1], &view, registers, 11));
    }
}

/* Sixteen procedures are loaded and unloaded in turns, one of them is run, and the heap is not called. */
static void memory(void)
{
    WANT(OCP_DONE, ocp_open(&engine, 1, APID, POOL_WORDS, 100, 300000));
    wrong_calls = 0;
    for (int turn = 0; turn < 8; turn++) {
        fifteen(LOAD, turn % 2 == 0);
        WANT(OCP_DONE, turn % 2 == 0 ? load() : load_rounds_7());
        HOLDS(see().view_status == OCP_DONE);
        WANT(OCP_DONE, activate());
        WANT(OCP_DONE, stop());
        WANT(OCP_DONE, slice());
        WANT(OCP_DONE, drain());
        WANT(OCP_DONE, unload());
        HOLDS(see().view_status == OCP_NOT_LOADED);
        fifteen(UNLOAD, turn % 4 < 2);
        WANT(OCP_DONE, ocp_release(&engine, 100 - see().room));
    }
    HOLDS(wrong_calls == 0);
    WANT(OCP_DONE, ocp_close(&engine));
}

int main(void)
{
    closed_handle();
    version();
    numbers();
    each_piece();
    sizes();
    packets();
    procedures();
    pool_words();
    rounds();
    full_journal();
    full_octets();
    entries();
    releases();
    trace_records();
    memory();
    HOLDS(wrong_calls == 0);
    printf("calls: %d answers, %d faults\n", tried, faults);
    return faults != 0;
}
