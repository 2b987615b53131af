/* A long mission in constant memory, to be flown again by `replay`.
 *
 *   mission CYCLES JOURNAL REPORTS
 *
 * In each cycle flight software writes the number of the cycle into word 0 and gives each running procedure a round. Procedure 7
 * adds word 0 to word 1 in each of its steps; procedure 8 adds 1 or 3 to word 2, by the image that is loaded. Ground suspends and
 * resumes procedure 8, stops or aborts it, unloads it and loads its other image, and asks for the status. Every PASS cycles the
 * journal is written to the file JOURNAL and released; the reports go to the file REPORTS. Once in each LONG_RUN cycles the link
 * is down for so long that the journal fills. Then every event is refused until the next pass, and nothing changes.
 *
 * The program checks that no telecommand fails, that an abort is done before the rounds of its cycle, that words 1 and 2 are the
 * sums that it keeps itself, that no call between ocp_open and ocp_close calls the heap, and that the resident set does not grow
 * after the first half. It prints the number of events, the views of both procedures and the pool, as `replay` does, and on
 * standard error how many calls a full journal refused.
 *
 * Status: 0 done, 1 a check fails, and one line says which, 2 wrong words. */
#include "ocp_engine.h"
#include "ocp_heap.h"
#include "ocp_journal.h"
#include "ocp_octets.h"
#include "show.h"
#include "telecommand.h"
#include "turns.h"
#include "words.h"

#include <inttypes.h>
#include <stdbool.h>
#include <stdio.h>
#include <stdlib.h>
#include <string.h>

enum {
    APID = 291,
    ADDER = 7,
    COUNTER = 8,
    LONG = 9, /* loaded from time to time, with the longest image */
    ROUND = 1000,
    ALL_REPORTS = 1 + 2 + 8,

    INPUT = 0,
    SUM = 1,
    COUNT = 2,
    POOL_WORDS = 4,

    /* cycles */
    PASS = 64,
    SUSPENSION = 1000, /* and so on: how often */
    RELOAD = 10000,
    ROW = 700,
    LONG_RUN = 50000,
    DARK = 20020, /* from this cycle of a long run on the link is down */
    LIGHT = 21020,

    FEW_CYCLES = 1000000, /* with fewer of them the first half has not everything */
    PAGES = 16            /* by which the resident set may differ */
};

static struct journal_writer journal = {
    .with = {.profile = 1, .apid = APID, .pool_words = POOL_WORDS, .entries = 2000, .octets = 31000}, .flight = 1, .cycles = 1};
static struct ocp_engine engine = OCP_CLOSED;
static FILE *reports_file;
static uint32_t cycle;
static uint64_t refusals;
static uint64_t sum, count; /* what words 1 and 2 have to be */
static uint8_t step;        /* what procedure 8 adds to word 2 */

static _Noreturn void fail(const char *why)
{
    fprintf(stderr, "mission: cycle %" PRIu32 ": %s\n", cycle, why);
    exit(1);
}

/* ---- a heap that is called in ocp_open and ocp_close alone */

static bool may_call = true;

struct fixed_heap_answer rattle_alloc(size_t octets, size_t align)
{
    (void)align;
    void *piece = malloc(octets);
    if (piece == NULL || !may_call)
        fail("a call asks for memory, or there is none");
    return (struct fixed_heap_answer){true, piece};
}

void rattle_dealloc(void *piece)
{
    if (!may_call)
        fail("a call gives memory back");
    free(piece);
}

struct fixed_heap_answer rattle_realloc(void *piece, size_t kept, size_t octets, size_t align)
{
    struct fixed_heap_answer got = rattle_alloc(octets, align);
    memcpy(got.piece, piece, kept < octets ? kept : octets);
    rattle_dealloc(piece);
    return got;
}

/* The pages of the resident set, or 0 if they are not known. */
static unsigned long resident_pages(void)
{
    unsigned long size, resident = 0;
    FILE *file = fopen("/proc/self/statm", "r");
    if (file != NULL) {
        if (fscanf(file, "%lu %lu", &size, &resident) != 2)
            resident = 0;
        fclose(file);
    }
    return resident;
}

/* ---- telecommands */

/* mov64 r1, 0; call 1; mov64 r1, 1; mov64 r2, r0; call 3; mov64 r1, 1; call 5; ja -8 */
static const uint8_t adder[] = {
    0xb7, 1, 0, 0, 0, 0, 0, 0, 0x85, 0, 0, 0, 1, 0, 0, 0, 0xb7, 1, 0, 0, 1, 0, 0, 0, 0xbf, 2, 0, 0, 0, 0, 0, 0,
    0x85, 0, 0, 0, 3, 0, 0, 0, 0xb7, 1, 0, 0, 1, 0, 0, 0, 0x85, 0, 0, 0, 5, 0, 0, 0, 0x05, 0, 0xf8, 0xff, 0, 0, 0, 0};
/* mov64 r1, 2; mov64 r2, STEP; call 3; mov64 r1, 1; call 5; ja -6 */
static uint8_t counter[] = {
    0xb7, 1, 0, 0, 2, 0, 0, 0, 0xb7, 2, 0, 0, 0, 0, 0, 0, 0x85, 0, 0, 0, 3, 0, 0, 0,
    0xb7, 1, 0, 0, 1, 0, 0, 0, 0x85, 0, 0, 0, 5, 0, 0, 0, 0x05, 0, 0xfa, 0xff, 0, 0, 0, 0};
/* ja 0, over and over, and an exit */
static uint8_t longest[2048 * 8];

static uint8_t reports[OCP_DRAIN_REPORTS];

/* Sends the reports down; none may be of a failure. */
static void send_down(size_t length)
{
    for (size_t at = 0; at < length; at += (size_t)number_at(reports + at + 4, 2) + 7)
        if (reports[at + 7] == 1 && reports[at + 8] % 2 == 0)
            fail("a telecommand fails");
    fwrite(reports, 1, length, reports_file);
}

/* Gives whether the engine took it: a full journal refuses it. */
static bool send(uint8_t subtype, uint16_t id, const uint8_t *data, size_t length)
{
    static uint8_t packet[TELECOMMAND_HEAD + 4 + sizeof longest + TELECOMMAND_CONTROL];
    static uint16_t sent;
    size_t before = subtype == STATUS ? 0 : 2, written; /* only a status request names no procedure */
    put_number(packet + TELECOMMAND_HEAD, id, 2);
    memcpy(packet + TELECOMMAND_HEAD + before, data, length);
    length = put_telecommand(packet, APID, sent++, ALL_REPORTS, subtype, before + length);
    uint32_t status = ocp_request(&engine, cycle, packet, length, reports, sizeof reports, &written);
    if (status == OCP_DONE)
        send_down(written);
    else if (status != OCP_JOURNAL_FULL)
        fail("a telecommand is not taken");
    refusals += status == OCP_JOURNAL_FULL;
    return status == OCP_DONE;
}

static bool load(uint16_t id, const uint8_t *image, size_t length)
{
    static uint8_t data[2 + sizeof longest];
    put_number(data, length, 2);
    memcpy(data + 2, image, length);
    return send(LOAD, id, data, 2 + length);
}

static const uint8_t zeros[2];

static void must_take(bool taken)
{
    if (!taken)
        fail("a telecommand finds the journal full");
}

static void start_counter(uint8_t adds)
{
    step = counter[12] = adds;
    must_take(load(COUNTER, counter, sizeof counter) && send(ACTIVATE, COUNTER, zeros, 2));
}

/* Ends the counter: by a stop at the end of its step, every second time by an abort at once. */
static void end_counter(void)
{
    struct ocp_view view;
    uint64_t registers[11];
    if (step == 1) {
        must_take(send(STOP, COUNTER, zeros, 2));
        return;
    }
    must_take(send(ABORT, COUNTER, zeros, 0));
    if (ocp_view(&engine, COUNTER, &view, registers, 11) != OCP_DONE || view.status != OCP_INACTIVE)
        fail("an abort is not done at once");
}

/* What ground sends in this cycle. */
static void send_up(void)
{
    uint32_t of_reload = cycle % RELOAD, of_long_run = cycle % LONG_RUN;
    if (cycle % SUSPENSION == 400)
        must_take(send(SUSPEND, COUNTER, zeros, 2));
    if (cycle % SUSPENSION == 450)
        must_take(send(RESUME, COUNTER, zeros, 0));
    if (of_reload == 9000)
        end_counter();
    if (of_reload == 9002)
        must_take(send(UNLOAD, COUNTER, zeros, 0));
    if (of_reload == 9004)
        start_counter(step == 1 ? 3 : 1);
    if (cycle % ROW == 0)
        send(STATUS, 0, zeros, 0);
    if (of_long_run == DARK + 500 && load(LONG, longest, sizeof longest))
        fail("the longest load fits into a journal that is half full");
    if (of_long_run == LIGHT + 100)
        must_take(load(LONG, longest, sizeof longest));
    if (of_long_run == LIGHT + 120)
        must_take(send(UNLOAD, LONG, zeros, 0));
}

/* ---- a cycle */

/* Notes a call that a full journal may refuse; gives whether it was done. */
static bool is_done(uint32_t status)
{
    if (status != OCP_DONE && status != OCP_JOURNAL_FULL)
        fail("a call is refused");
    refusals += status == OCP_JOURNAL_FULL;
    return status == OCP_DONE;
}

static void give_rounds(uint64_t input)
{
    uint32_t last_id = OCP_NO_PROCEDURE, instructions, ended;
    uint16_t id;
    struct ocp_outcome last;
    while (next_turn(&engine, &last_id, &id)) {
        if (is_done(ocp_round(&engine, id, ROUND, &instructions, &last, &ended))) {
            sum += id == ADDER ? input : 0;
            count += id == COUNTER ? step : 0;
            if (ended != 1)
                fail("a round ends with no step");
        }
    }
}

static void drain(void)
{
    size_t written;
    uint32_t status = ocp_drain(&engine, cycle, reports, sizeof reports, &written);
    if (status != OCP_NOTHING_DUE && is_done(status))
        send_down(written);
}

static void run_cycle(void)
{
    static uint64_t input; /* that was written last */
    send_up();
    if (is_done(ocp_put_word(&engine, INPUT, cycle)))
        input = cycle;
    give_rounds(input);
    drain();
    bool is_dark = cycle % LONG_RUN >= DARK && cycle % LONG_RUN < LIGHT;
    if (cycle % PASS == 0 && !is_dark && !keep_journal(&journal, &engine))
        fail("the journal can't be written");
}

/* ---- what has to hold */

static void want_word(uint64_t index, uint64_t wanted)
{
    uint64_t word;
    if (ocp_pool_word(&engine, index, &word) != OCP_DONE || word != wanted)
        fail("a word of the pool is not the sum");
}

static void fly(uint32_t cycles)
{
    for (int slot = 0; slot < 2048; slot++)
        longest[slot * 8] = slot < 2047 ? 0x05 : 0x95;
    must_take(load(ADDER, adder, sizeof adder) && send(ACTIVATE, ADDER, zeros, 2));
    start_counter(1);
    unsigned long early = 0;
    for (cycle = 1; cycle <= cycles; cycle++) {
        run_cycle();
        if (cycle == cycles / 2)
            early = resident_pages();
    }
    cycle = cycles;
    want_word(SUM, sum);
    want_word(COUNT, count);
    if (cycles >= FEW_CYCLES && resident_pages() > early + PAGES)
        fail("the resident set grows");
}

int main(int words, char **word)
{
    uint64_t cycles;
    if (words != 4 || !read_number(word[1], UINT32_MAX, &cycles) || cycles == 0) {
        fprintf(stderr, "usage: mission CYCLES JOURNAL REPORTS\n");
        return 2;
    }
    reports_file = fopen(word[3], "wb");
    if (reports_file == NULL || open_engine(&engine, &journal.with) != OCP_DONE || !begin_journal(&journal, word[2]))
        fail("no engine, or no file");
    may_call = false;
    fly((uint32_t)cycles);
    if (!end_journal(&journal, &engine) || fclose(reports_file) != 0)
        fail("a file can't be written");
    show_events(&engine);
    show_view(&engine, ADDER);
    show_view(&engine, COUNTER);
    for (uint64_t index = 0; index < POOL_WORDS; index++)
        show_word(&engine, index);
    fprintf(stderr, "mission: %" PRIu64 " cycles, %" PRIu64 " calls refused by a full journal\n", cycles, refusals);
    may_call = true;
    return ocp_close(&engine) == OCP_DONE ? 0 : 1;
}
