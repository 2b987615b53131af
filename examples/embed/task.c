/* A flight program as a real-time task: one POSIX thread with a small stack, locked memory, and cycles by the clock.
 *
 *   task [MILLISECONDS [CYCLES]] < TELECOMMANDS > PACKETS
 *
 * A cycle is due every MILLISECONDS, 100 if left out. In each one the task
 *
 *   1. gives the engine the telecommands that have come, REQUESTS of them at most, and sends the reports
 *   2. writes the inputs into the pool: the temperature of a simulated room, the numbers of the cycle and of missed ones
 *   3. gives each running procedure a round of at most SLICE instructions, and sends an event report if it faults
 *   4. reads the output and switches the heater, which is off in a cycle without a round
 *   5. reports the completions that wait, and sends the words of the pool every HOUSEKEEPING cycles
 *   6. releases the journal's entries; a mission copies them out first, as flight.c does
 *
 * A cycle that comes due while another one runs is missed: it is skipped and counted. Without CYCLES the flight ends with the
 * input, else with that cycle. After a second without an octet an unfinished packet holds no whole one back. Housekeeping (service
 * 3) and event reports (service 5) are packets of flight software, of the application process and with the words of pool.h. If
 * nobody reads the packets, the task waits in `write`, and misses cycles.
 *
 * The stack of the thread has PTHREAD_STACK_MIN octets, and is painted before: the last line says how many were used. The task
 * calls nothing that takes memory, and no stdio. The program locks its memory and runs the task under SCHED_FIFO if the system lets
 * it, and else goes on without; its first lines say which. Link it with -pthread -Wl,-z,now: else its first calls take 3,000 octets
 * of stack.
 *
 * Status: 0 done, 2 wrong words, 3 no engine, no thread, no output, or a refused call; one line says which. */
#define _POSIX_C_SOURCE 200809L
#include "../flight/pool.h"
#include "cycles.h"
#include "ocp_engine.h"
#include "parting.h"
#include "telemetry.h"
#include "turns.h"
#include "words.h"

#include <errno.h>
#include <limits.h>
#include <poll.h>
#include <pthread.h>
#include <sched.h>
#include <stdalign.h>
#include <stdio.h>
#include <string.h>
#include <sys/mman.h>
#include <time.h>
#include <unistd.h>

#ifndef SLICE
#define SLICE 1000 /* the most instructions of each running procedure in a cycle */
#endif
#ifndef HOUSEKEEPING
#define HOUSEKEEPING 10 /* cycles from one packet of the pool's words to the next */
#endif

enum {
    APID = 291,
    REQUESTS = 16,     /* the most of a cycle: others wait in the input */
    ENTRIES = 64,      /* more than a cycle makes: requests release theirs at once */
    OCTETS = 65552,    /* room for the longest packet */
    PRIORITY = 10,     /* of SCHED_FIFO */
    PAINT = 0xa5,
    QUIET = 1000, /* milliseconds */
    USUAL_PERIOD = 100,
    LONGEST_PERIOD = 60000,
    MILLISECOND = 1000000, /* nanoseconds */
    FAILED = 3
};

static alignas(64) uint8_t stack[PTHREAD_STACK_MIN];
static uintptr_t top; /* the task's own frame: what is above is the C library's */

static struct ocp_engine engine = OCP_CLOSED;
static struct parting input = {.apid = APID};
static bool is_open = true; /* whether the input goes on */
static uint64_t heard;      /* the cycle in which octets came last */
static uint64_t period = USUAL_PERIOD, last_cycle;
static uint64_t cycle, missed; /* the number of the cycle; how many were due while another one ran */
static uint32_t broken, events;
static const char *failure; /* why the flight ended early */

static uint8_t reports[OCP_DRAIN_REPORTS > OCP_REQUEST_REPORTS ? OCP_DRAIN_REPORTS : OCP_REQUEST_REPORTS];

/* Notes the first failure; the flight ends after its cycle. */
static void must(bool holds, const char *why)
{
    if (!holds && failure == NULL)
        failure = why;
}

/* ---- packets out */

static void send_octets(const uint8_t *octets, size_t length)
{
    while (length > 0 && failure == NULL) {
        ssize_t sent = write(STDOUT_FILENO, octets, length);
        must(sent >= 0 || errno == EINTR, "nobody reads the packets");
        octets += sent > 0 ? sent : 0;
        length -= sent > 0 ? (size_t)sent : 0;
    }
}

/* Sends a packet of flight software, whose data are at `packet` + TELEMETRY_HEAD. */
static void send_telemetry(uint8_t *packet, uint8_t service, uint8_t subtype, size_t length)
{
    static uint16_t count;
    send_octets(packet, put_telemetry(packet, FLIGHT_APID, count++, service, subtype, (uint32_t)cycle, length));
}

/* The words of the pool, each by the type of its row. Those that do not fit are counted. */
static void send_housekeeping(void)
{
    static const struct pool_field fields[POOL_WORDS] = {POOL_FIELDS};
    static uint8_t packet[TELEMETRY_HEAD + HOUSEKEEPING_OCTETS + TELEMETRY_CONTROL];
    uint8_t *at = packet + TELEMETRY_HEAD + 3;
    uint16_t misfits = 0;
    for (size_t index = 0; index < POOL_WORDS; at += fields[index++].octets) {
        uint64_t word = 0;
        must(ocp_pool_word(&engine, index, &word) == OCP_DONE, "ocp_pool_word is refused");
        misfits = (uint16_t)(misfits + !put_field(at, &fields[index], word));
    }
    packet[TELEMETRY_HEAD] = HOUSEKEEPING_STRUCTURE;
    put_number(packet + TELEMETRY_HEAD + 1, misfits, 2);
    send_telemetry(packet, HOUSEKEEPING_SERVICE, HOUSEKEEPING_SUBTYPE, HOUSEKEEPING_OCTETS);
}

/* The fault of a procedure: which one, which fault, at which slot. */
static void send_fault(uint16_t id, uint32_t fault)
{
    enum { LENGTH = 6, REGISTERS = 11 };
    static uint8_t packet[TELEMETRY_HEAD + LENGTH + TELEMETRY_CONTROL];
    static uint64_t registers[REGISTERS];
    struct ocp_view view = {.place = 0};
    must(ocp_view(&engine, id, &view, registers, REGISTERS) == OCP_DONE, "ocp_view is refused");
    packet[TELEMETRY_HEAD] = EVENT_OF_FAULT;
    put_number(packet + TELEMETRY_HEAD + 1, id, 2);
    packet[TELEMETRY_HEAD + 3] = (uint8_t)fault;
    put_number(packet + TELEMETRY_HEAD + 4, view.place, 2);
    send_telemetry(packet, EVENT_SERVICE, EVENT_SUBTYPE, LENGTH);
    events++;
}

/* ---- a cycle */

static void release_entries(void)
{
    uint64_t entries = ENTRIES, octets;
    must(ocp_room(&engine, &entries, &octets) == OCP_DONE && ocp_release(&engine, ENTRIES - entries) == OCP_DONE,
         "the journal's entries are not released");
}

/* Reads what is there, if there is room for it. */
static void read_input(void)
{
    struct pollfd ready = {.fd = STDIN_FILENO, .events = POLLIN};
    size_t room = room_for_octets(&input);
    if (!is_open || room == 0 || poll(&ready, 1, 0) <= 0)
        return;
    ssize_t got = read(STDIN_FILENO, input.octets + input.end, room);
    must(got >= 0 || errno == EINTR, "the input can't be read");
    add_octets(&input, got > 0 ? (size_t)got : 0);
    is_open = got != 0;
    heard = cycle;
}

/* Gives the engine the packets that are whole, up to REQUESTS of them. Gives whether that were all. */
static bool take_packets(void)
{
    bool quiet = !is_open || (cycle - heard) * period >= QUIET;
    heard = quiet ? cycle : heard;
    for (int requests = 0; requests < REQUESTS; requests++) {
        size_t length = next_packet(&input, quiet), written = 0;
        if (length == 0)
            return true;
        uint32_t status = ocp_request(&engine, (uint32_t)cycle, input.octets + input.first, length, reports, sizeof reports, &written);
        must(status != OCP_JOURNAL_FULL, "the journal has no room for a request");
        broken += status != OCP_DONE;
        send_octets(reports, written);
        drop_octets(&input, length);
        release_entries();
    }
    return false;
}

static uint64_t temperature = 190; /* of the room, in tenths of a degree */

static void write_inputs(void)
{
    must(ocp_put_word(&engine, POOL_TEMPERATURE, temperature) == OCP_DONE && ocp_put_word(&engine, POOL_CYCLE, cycle) == OCP_DONE &&
             ocp_put_word(&engine, POOL_MISSED, missed) == OCP_DONE,
         "ocp_put_word is refused");
}

/* A round of each running procedure. Gives whether there was one. */
static bool give_rounds(void)
{
    uint32_t last_id = OCP_NO_PROCEDURE, count, step;
    uint16_t id;
    struct ocp_outcome last;
    while (next_turn(&engine, &last_id, &id)) {
        must(ocp_round(&engine, id, SLICE, &count, &last, &step) == OCP_DONE, "a round is refused");
        if (last.kind == OCP_FAULTED)
            send_fault(id, last.fault);
    }
    return last_id != OCP_NO_PROCEDURE;
}

/* The room: two tenths warmer in a cycle with the heater on, one tenth colder in one without, down to 0. */
static void switch_heater(bool has_run)
{
    uint64_t heater = 0;
    must(ocp_pool_word(&engine, POOL_HEATER, &heater) == OCP_DONE, "ocp_pool_word is refused");
    if (has_run && heater == 1)
        temperature += 2;
    else if (temperature > 0)
        temperature--;
}

static void drain(void)
{
    size_t written = 0;
    if (ocp_drain(&engine, (uint32_t)cycle, reports, sizeof reports, &written) == OCP_DONE)
        send_octets(reports, written); /* else nothing waits */
}

/* Runs the last of some cycles that are due. Gives whether all that has come of the input was taken. */
static bool run_cycle(uint64_t count)
{
    cycle += count;
    missed += count - 1;
    read_input();
    bool is_done = take_packets();
    write_inputs();
    switch_heater(give_rounds());
    drain();
    if (cycle / HOUSEKEEPING != (cycle - count) / HOUSEKEEPING)
        send_housekeeping();
    release_entries();
    return is_done;
}

/* ---- the task */

static uint64_t nanoseconds(void)
{
    struct timespec now;
    clock_gettime(CLOCK_MONOTONIC, &now);
    return (uint64_t)now.tv_sec * 1000 * MILLISECOND + (uint64_t)now.tv_nsec;
}

static void sleep_until(uint64_t due)
{
    struct timespec at = {.tv_sec = (time_t)(due / (1000 * MILLISECOND)), .tv_nsec = (long)(due % (1000 * MILLISECOND))};
    while (clock_nanosleep(CLOCK_MONOTONIC, TIMER_ABSTIME, &at, NULL) == EINTR) {
    }
}

static void *fly(void *unused)
{
    top = (uintptr_t)__builtin_frame_address(0);
    struct cycles cycles = {period * MILLISECOND, nanoseconds() + period * MILLISECOND};
    for (bool goes_on = true; goes_on && failure == NULL;) {
        sleep_until(cycles.due);
        uint64_t count = cycles_due(&cycles, nanoseconds());
        if (count == 0)
            continue;
        bool is_done = run_cycle(count);
        goes_on = last_cycle != 0 ? cycle < last_cycle : is_open || !is_done;
    }
    return unused;
}

/* The octets at the end of the stack that were never written. */
static size_t untouched_stack(void)
{
    size_t octets = 0;
    while (octets < sizeof stack && stack[octets] == PAINT)
        octets++;
    return octets;
}

/* Starts the thread on the painted stack, under SCHED_FIFO if `is_fifo`. Gives 0, or the number of the error. */
static int start(pthread_t *task, bool is_fifo)
{
    pthread_attr_t how;
    struct sched_param priority = {.sched_priority = PRIORITY};
    int error = pthread_attr_init(&how);
    if (error == 0)
        error = pthread_attr_setstack(&how, stack, sizeof stack);
    if (error == 0 && is_fifo && (error = pthread_attr_setinheritsched(&how, PTHREAD_EXPLICIT_SCHED)) == 0 &&
        (error = pthread_attr_setschedpolicy(&how, SCHED_FIFO)) == 0)
        error = pthread_attr_setschedparam(&how, &priority);
    memset(stack, PAINT, sizeof stack);
    return error != 0 ? error : pthread_create(task, &how, fly, NULL);
}

static int fail(const char *why)
{
    fprintf(stderr, "task: cycle %llu: %s\n", (unsigned long long)cycle, why);
    return FAILED;
}

int main(int words, char **word)
{
    pthread_t task;
    if (words > 3 || (words > 1 && !read_number(word[1], LONGEST_PERIOD, &period)) ||
        (words > 2 && !read_number(word[2], UINT32_MAX, &last_cycle)) || period == 0) {
        fprintf(stderr, "usage: task [MILLISECONDS [CYCLES]] < TELECOMMANDS > PACKETS\n");
        return 2;
    }
    if (ocp_version() < OCP_VERSION || ocp_version() >> 16 != OCP_VERSION >> 16 ||
        ocp_open(&engine, 1, APID, POOL_WORDS, ENTRIES, OCTETS) != OCP_DONE)
        return fail("no engine of this version, or no memory for it");
    const char *locked = mlockall(MCL_CURRENT | MCL_FUTURE) == 0 ? NULL : strerror(errno);
    fprintf(stderr, "task: memory is %s%s\n", locked == NULL ? "locked" : "not locked: ", locked == NULL ? "" : locked);
    int fifo = start(&task, true), error = fifo == 0 ? 0 : start(&task, false);
    if (error != 0)
        return fail(strerror(error));
    fprintf(stderr, "task: scheduling is %s%s\n", fifo == 0 ? "SCHED_FIFO" : "the usual one: ", fifo == 0 ? "" : strerror(fifo));
    pthread_join(task, NULL);
    if (failure != NULL)
        return fail(failure);
    fprintf(stderr, "task: %llu cycles, %llu missed, %lu event reports, %lu packets discarded\n", (unsigned long long)cycle,
            (unsigned long long)missed, (unsigned long)events, (unsigned long)broken);
    size_t below = (size_t)(top - (uintptr_t)stack);
    fprintf(stderr, "task: of the stack's %zu octets the task used %zu, the C library %zu\n", sizeof stack, below - untouched_stack(),
            sizeof stack - below);
    return ocp_close(&engine) == OCP_DONE ? 0 : FAILED;
}
