/* What slices and requests take of time: processor time, the least of several rounds, over the heap of heap.c.
 * Instructions, stack and heap are counted by bench/worst.
 *
 *   cc -O2 measure.c libocp_c.a -o measure && ./measure */
#define _POSIX_C_SOURCE 200809L
#include "heap.c"
#include "ocp_engine.h"
#include "ocp_octets.h"
#include "telecommand.h"

#include <inttypes.h>
#include <stdio.h>
#include <stdlib.h>
#include <time.h>

enum { APID = 291, PROCEDURE = 7, ALL_REPORTS = 1 + 2 + 8, ROUNDS = 10 };

static struct ocp_engine engine = OCP_CLOSED;
static uint32_t entries, octets; /* of the journal */
static uint8_t packet[65542];
static size_t length;
static uint8_t reports[OCP_DRAIN_REPORTS];
static uint32_t status;

/* ---- packets */

/* Makes a telecommand to the procedure of the data in the packet. */
static void end_packet(uint8_t subtype, size_t data_length)
{
    put_number(packet + TELECOMMAND_HEAD, PROCEDURE, 2);
    length = put_telecommand(packet, APID, 0, ALL_REPORTS, subtype, data_length);
}

/* A load of n slots: instructions of this opcode and immediate, and a jump back to the first. */
static void make_loop(uint32_t slots, uint8_t opcode, uint8_t immediate)
{
    uint8_t *code = packet + TELECOMMAND_HEAD + 4, *jump = code + (slots - 1) * 8;
    memset(packet, 0, sizeof packet);
    put_number(code - 2, slots * 8, 2);
    for (uint8_t *slot = code; slot < jump; slot += 8) {
        slot[0] = opcode;
        slot[4] = immediate;
    }
    jump[0] = 0x05;
    jump[2] = (uint8_t)-slots; /* the distance, its lowest octet first */
    jump[3] = (uint8_t)(-slots >> 8);
    end_packet(LOAD, 4 + slots * 8);
}

static void make_activate(void)
{
    memset(packet, 0, sizeof packet);
    end_packet(ACTIVATE, 4);
}

/* ---- the calls */

static void do_open(void)
{
    status = ocp_open(&engine, 1, APID, 16, entries, octets);
}

static void do_close(void)
{
    status = ocp_close(&engine);
}

static void do_request(void)
{
    size_t written;
    status = ocp_request(&engine, 0, packet, length, reports, sizeof reports, &written);
}

static void must(void (*call)(void))
{
    call();
    if (status != OCP_DONE)
        exit(3);
}

/* ---- time */

static double seconds(void)
{
    struct timespec now;
    clock_gettime(CLOCK_PROCESS_CPUTIME_ID, &now);
    return (double)now.tv_sec + (double)now.tv_nsec * 1e-9;
}

/* Nanoseconds of a slice of n instructions, in a loop of 100 slots that adds to R0. */
static double slice_nanoseconds(uint32_t budget, uint32_t slices)
{
    double least = 1e9;
    for (int round = 0; round < ROUNDS; round++) {
        entries = slices + 2;
        octets = 9 * slices + 10000;
        must(do_open);
        make_loop(100, 0x07, 1);
        must(do_request);
        make_activate();
        must(do_request);
        double begun = seconds();
        for (uint32_t slice = 0; slice < slices; slice++) {
            uint32_t count;
            struct ocp_outcome last;
            if (ocp_slice(&engine, PROCEDURE, budget, &count, &last) != OCP_DONE || count != budget)
                exit(5);
        }
        double taken = (seconds() - begun) / slices * 1e9;
        least = taken < least ? taken : least;
        must(do_close);
    }
    return least;
}

static double request_nanoseconds(void (*make)(void), int requests)
{
    double least = 1e9;
    for (int round = 0; round < ROUNDS; round++) {
        entries = (uint32_t)requests;
        octets = 20000;
        must(do_open);
        make();
        double begun = seconds();
        for (int request = 0; request < requests; request++)
            must(do_request);
        double taken = (seconds() - begun) / requests * 1e9;
        least = taken < least ? taken : least;
        must(do_close);
    }
    return least;
}

static void make_status(void)
{
    end_packet(STATUS, 0);
}

/* The longest load, of engine calls. */
static void make_long_load(void)
{
    make_loop(2048, 0x85, 5);
}

int main(void)
{
    printf("| What | Microseconds | Nanoseconds of each instruction |\n|---|---|---|\n");
    printf("| status request | %.2f | |\n", request_nanoseconds(make_status, 100) / 1000);
    printf("| load of 2,048 slots | %.2f | |\n", request_nanoseconds(make_long_load, 1) / 1000);
    static const uint32_t budgets[] = {1, 100, 1000, 100000};
    for (int at = 0; at < 4; at++) {
        uint32_t budget = budgets[at];
        double taken = slice_nanoseconds(budget, budget < 1000 ? 20000 : 20000000 / budget);
        const char *thousands = budget < 1000 ? "" : ",000";
        uint32_t rest = budget < 1000 ? budget : budget / 1000;
        printf("| slice of %" PRIu32 "%s | %.2f | %.2f |\n", rest, thousands, taken / 1000, taken / budget);
    }
    return 0;
}
