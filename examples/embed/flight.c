/* A flight program: telecommand packets in on standard input, report packets out on standard output.
 *
 *   flight [MILLISECONDS [JOURNAL [FLIGHT]]]
 *
 * Time goes by in cycles. In each one every running procedure does a round in its turn: instructions up to the end of a step,
 * or SLICE of them. Every CYCLES_OF_DRAIN cycles the completions that wait are reported. The time in reports is the number of
 * the cycle. A cycle is due every MILLISECONDS; with 0, the default, one follows each packet, and the same packets give the same
 * reports. Input is read before each cycle. If a cycle takes longer, those that were due meanwhile are skipped and counted.
 *
 * Every CYCLES_OF_BLOCK cycles, and if the journal is full, its entries are written to the file JOURNAL, if one is named, for the
 * tools `journal` and `replay`; then they are released. So the program flies on in constant memory. If the file can't be written,
 * a line says so, and the flight goes on while the engine has room for entries. FLIGHT is the number by which ground tells the
 * journals of flights apart; it is the time of the start in nanoseconds, if left out.
 *
 * `parting.h` finds the packets in the input. After a second without an octet an unfinished one holds no whole one back.
 *
 * Status: 0 the input has ended, 2 wrong words, 3 no engine, no journal, or no output; one line says which. */
#define _POSIX_C_SOURCE 200809L
#include "cycles.h"
#include "ocp_engine.h"
#include "ocp_journal.h"
#include "parting.h"
#include "turns.h"
#include "words.h"

#include <errno.h>
#include <poll.h>
#include <stdio.h>
#include <stdlib.h>
#include <string.h>
#include <time.h>
#include <unistd.h>

#ifndef SLICE
#define SLICE 1000 /* the most instructions of each running procedure in a cycle */
#endif

enum {
    APID = 291,
    CYCLES_OF_DRAIN = 1, /* from drain to drain */
    CYCLES_OF_BLOCK = 10, /* from block to block of the journal */
    QUIET = 1000,           /* milliseconds */
    LONGEST_PERIOD = 60000, /* milliseconds */
    FAILED = 3
};

static struct journal_writer journal = {
    .with = {.profile = 1, .apid = APID, .pool_words = 16, .entries = 4096, .octets = 262144}, .cycles = CYCLES_OF_BLOCK, .file = -1};
static struct ocp_engine engine = OCP_CLOSED;
static uint32_t cycle;
static uint32_t drained; /* the cycle of the last drain */
static uint64_t skipped; /* cycles that were due while another one ran */
static uint32_t broken; /* packets that were discarded */

static struct parting input = {.apid = APID};
static uint64_t told; /* octets that were passed over and told of */
static int64_t heard; /* when octets came last, in milliseconds */

static uint8_t reports[OCP_DRAIN_REPORTS > OCP_REQUEST_REPORTS ? OCP_DRAIN_REPORTS : OCP_REQUEST_REPORTS];

static _Noreturn void end(const char *why)
{
    fprintf(stderr, "flight: cycle %lu: %s\n", (unsigned long)cycle, why);
    exit(FAILED);
}

/* Hands the journal down by a call that gives whether it could, and says when that changes. */
static bool hand_down(bool (*keep)(struct journal_writer *, struct ocp_engine *))
{
    static bool was_kept = true;
    bool is_kept = keep(&journal, &engine);
    if (is_kept != was_kept)
        fprintf(stderr, "flight: cycle %lu: the journal %s\n", (unsigned long)cycle, is_kept ? "is written again" : "can't be written");
    return was_kept = is_kept;
}

/* ---- reports out */

static void send_reports(size_t length)
{
    for (size_t at = 0; at < length;) {
        ssize_t sent = write(STDOUT_FILENO, reports + at, length - at);
        if (sent < 0 && errno != EINTR) {
            hand_down(keep_journal_now);
            end("nobody reads the reports");
        }
        at += sent > 0 ? (size_t)sent : 0;
    }
}

/* ---- telecommands in */

static int64_t milliseconds(void)
{
    struct timespec now;
    clock_gettime(CLOCK_MONOTONIC, &now);
    return (int64_t)now.tv_sec * 1000 + now.tv_nsec / 1000000;
}

/* Tells how many octets were passed over since it was told last. */
static void tell_passed(void)
{
    if (input.passed > told)
        fprintf(stderr, "flight: cycle %lu: %llu octets are passed over\n", (unsigned long)cycle, (unsigned long long)(input.passed - told));
    told = input.passed;
}

static void take(size_t length)
{
    size_t written = 0;
    const uint8_t *packet = input.octets + input.first;
    uint32_t status = ocp_request(&engine, cycle, packet, length, reports, sizeof reports, &written);
    if (status == OCP_JOURNAL_FULL) {
        if (!hand_down(keep_journal_now))
            end("the journal can't be written, and has no room");
        status = ocp_request(&engine, cycle, packet, length, reports, sizeof reports, &written);
    }
    if (status == OCP_DONE) {
        send_reports(written);
    } else { /* discarded: what comes after it is read */
        broken++;
        fprintf(stderr, "flight: cycle %lu: a packet is discarded, status %lu\n", (unsigned long)cycle, (unsigned long)status);
    }
}

/* Reads what is there; gives whether the input goes on. */
static bool read_input(void)
{
    size_t room = room_for_octets(&input);
    ssize_t got = read(STDIN_FILENO, input.octets + input.end, room);
    if (got < 0 && errno != EINTR)
        end("the input can't be read");
    add_octets(&input, got > 0 ? (size_t)got : 0);
    heard = milliseconds();
    return got != 0;
}

/* ---- a cycle */

/* A round of each running procedure, by rising identifier. */
static void give_rounds(void)
{
    uint32_t last_id = OCP_NO_PROCEDURE;
    uint16_t id;
    while (next_turn(&engine, &last_id, &id)) {
        uint32_t count, step;
        struct ocp_outcome last;
        if (ocp_round(&engine, id, SLICE, &count, &last, &step) != OCP_DONE)
            end("a round is refused"); /* the journal can't be written for long: else it has room for all rounds of a cycle */
        if (last.kind == OCP_FAULTED)
            fprintf(stderr, "flight: cycle %lu: procedure %u faulted: %lu\n", (unsigned long)cycle, id, (unsigned long)last.fault);
    }
}

static void drain(void)
{
    size_t written = 0;
    if (ocp_drain(&engine, cycle, reports, sizeof reports, &written) == OCP_DONE)
        send_reports(written); /* else nothing waits */
}

/* Runs the last of some cycles that are due. */
static void run_cycle(uint64_t count)
{
    cycle += (uint32_t)count;
    skipped += count - 1;
    hand_down(keep_journal);
    give_rounds();
    if (cycle - drained >= CYCLES_OF_DRAIN) {
        drained = cycle;
        drain();
    }
}

/* ---- the two ways of time */

/* Takes the packets that are here, in the first way of time with a cycle after each. */
static void take_packets(bool quiet, bool by_packets)
{
    for (size_t length; (length = next_packet(&input, quiet)) != 0; drop_octets(&input, length)) {
        tell_passed();
        take(length);
        if (by_packets)
            run_cycle(1);
    }
    if (quiet)
        tell_passed();
}

/* Waits for octets, with a time below 0 as long as it takes, and takes the packets that have come, or that a quiet second
 * leaves. Gives whether the input goes on. */
static bool attend_input(int64_t wait, bool by_packets)
{
    struct pollfd ready = {.fd = STDIN_FILENO, .events = POLLIN};
    bool waits = held_octets(&input) > 0 || input.passed > told, open = true;
    int64_t quiet = waits ? heard + QUIET - milliseconds() : -1;
    if (waits && (wait < 0 || quiet < wait))
        wait = quiet > 0 ? quiet : 0;
    if (poll(&ready, 1, (int)wait) > 0) {
        open = read_input();
        take_packets(!open, by_packets);
    } else if (waits && milliseconds() >= heard + QUIET) {
        heard = milliseconds();
        take_packets(true, by_packets);
    }
    return open;
}

static void cycles_by_packets(void)
{
    while (attend_input(-1, true)) {
    }
}

/* Input is read once before each cycle, also before one that is late. */
static void cycles_by_clock(uint64_t period)
{
    struct cycles cycles = {period, (uint64_t)milliseconds() + period};
    for (;;) {
        int64_t wait = (int64_t)cycles.due - milliseconds();
        if (!attend_input(wait > 0 ? wait : 0, false))
            return;
        uint64_t count = cycles_due(&cycles, (uint64_t)milliseconds());
        if (count > 0)
            run_cycle(count);
    }
}

int main(int words, char **word)
{
    uint64_t period = 0;
    struct timespec start;
    clock_gettime(CLOCK_REALTIME, &start);
    journal.flight = (uint64_t)start.tv_sec * 1000000000 + (uint64_t)start.tv_nsec;
    if (words > 4 || (words > 1 && !read_number(word[1], LONGEST_PERIOD, &period)) ||
        (words > 3 && !read_number(word[3], UINT64_MAX - 1, &journal.flight))) {
        fprintf(stderr, "usage: flight [MILLISECONDS [JOURNAL [FLIGHT]]] < TELECOMMANDS > REPORTS\n");
        return 2;
    }
    if (ocp_version() < OCP_VERSION || ocp_version() >> 16 != OCP_VERSION >> 16 || open_engine(&engine, &journal.with) != OCP_DONE)
        end("no engine of this version, or no memory for it");
    if (words >= 3 && !begin_journal(&journal, word[2]))
        end("the journal can't be written");
    if (period == 0)
        cycles_by_packets();
    else
        cycles_by_clock(period);
    if (held_octets(&input) > 0) { /* the input ends within a packet */
        broken++;
        fprintf(stderr, "flight: cycle %lu: the input ends within a packet\n", (unsigned long)cycle);
    }
    if (!end_journal(&journal, &engine))
        end("the journal can't be written");
    if (input.passed > 0)
        fprintf(stderr, "flight: %llu octets passed over\n", (unsigned long long)input.passed);
    if (skipped > 0)
        fprintf(stderr, "flight: %llu cycles were late and are skipped\n", (unsigned long long)skipped);
    fprintf(stderr, "flight: %lu cycles, %lu packets discarded\n", (unsigned long)cycle, (unsigned long)broken);
    return ocp_close(&engine) == OCP_DONE ? 0 : FAILED;
}
