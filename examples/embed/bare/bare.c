/* A flight program without an operating system: telecommand packets in by the UART, report packets out by it.
 *
 * Time goes by in cycles of CYCLE milliseconds; with 0, one follows each packet, and the same packets give the same reports.
 * In each one every running procedure does a slice of SLICE instructions in its turn, and the completions that wait are
 * reported. The time in reports is the number of the cycle. The UART is read before each cycle; cycles that were due while
 * another one ran are skipped and counted. The journal's entries are released after each cycle: a program
 * with room for them copies them out first. A packet whose octets stop coming is dropped after SILENCE milliseconds. */
#include "board.h"
#include "cycles.h"
#include "ocp_engine.h"
#include "turns.h"

#ifndef CYCLE
#define CYCLE 20
#endif
#ifndef SLICE
#define SLICE 1000
#endif

enum {
    PROFILE = 1,
    APID = 291,
    POOL_WORDS = 16,
    JOURNAL_ENTRIES = 1000,
    JOURNAL_OCTETS = 131072,
    HEADER = 6, /* octets of a primary header */
    LONGEST = HEADER + 65536,
    AT_ONCE = 4096, /* octets that are read before cycles are looked at */
    SILENCE = 1000
};

static struct ocp_engine engine = OCP_CLOSED;
static uint32_t cycle;

static uint8_t input[LONGEST];
static size_t held; /* octets of the input that are not taken yet */
static uint64_t heard; /* when the last one came */

static uint8_t reports[OCP_DRAIN_REPORTS];

/* A slice of each running procedure, by rising identifier. */
static void give_slices(void)
{
    uint32_t last_id = OCP_NO_PROCEDURE, count;
    uint16_t id;
    struct ocp_outcome last;
    while (next_turn(&engine, &last_id, &id))
        if (ocp_slice(&engine, id, SLICE, &count, &last) != OCP_DONE)
            return; /* the journal is full */
}

static void release_entries(void)
{
    uint64_t entries, octets;
    if (ocp_room(&engine, &entries, &octets) == OCP_DONE)
        ocp_release(&engine, JOURNAL_ENTRIES - entries);
}

/* Runs the last of some cycles that are due. */
static void run_cycle(uint64_t count)
{
    size_t written;
    cycle += (uint32_t)count;
    give_slices();
    if (ocp_drain(&engine, cycle, reports, sizeof reports, &written) == OCP_DONE)
        uart_send(reports, written);
    release_entries();
}

/* One packet. One that is discarded, or that finds the journal full, is dropped without a word. */
static void take(size_t length)
{
    size_t written;
    if (ocp_request(&engine, cycle, input, length, reports, sizeof reports, &written) == OCP_DONE)
        uart_send(reports, written);
    if (CYCLE == 0)
        run_cycle(1);
}

/* How long the packet is that the input begins with, or 0 while that is not known. */
static size_t packet_length(void)
{
    return held < HEADER ? 0 : HEADER + 1 + ((size_t)input[4] << 8 | input[5]);
}

static void read_input(void)
{
    for (int octets = 0; octets < AT_ONCE && uart_take(&input[held]); octets++) {
        held++;
        heard = milliseconds();
        if (held == packet_length()) {
            take(held);
            held = 0;
        }
    }
    if (held > 0 && milliseconds() - heard > SILENCE)
        held = 0;
}

int main(void)
{
    uart_begin();
    if (ocp_open(&engine, PROFILE, APID, POOL_WORDS, JOURNAL_ENTRIES, JOURNAL_OCTETS) != OCP_DONE)
        switch_off();
    struct cycles cycles = {CYCLE, milliseconds() + CYCLE};
    for (;;) {
        read_input();
        uint64_t count = CYCLE > 0 ? cycles_due(&cycles, milliseconds()) : 0;
        if (count > 0)
            run_cycle(count);
    }
}
