/* A control loop: a procedure keeps a room at a temperature, and flight software is between the two.
 *
 *   control IMAGE ARGUMENTS [CYCLES [JOURNAL]]
 *
 * IMAGE is a file with the digits of a thermostat's image, as `ocp asm` writes them. ARGUMENTS are the octets that it is
 * activated with, as digits; the last one is the set point. Temperatures are in tenths of a degree. A cycle is a second; there
 * are 100,000 of them if no number is given. In each one, flight software
 *
 *   1. passes ground's telecommands to the engine: a new set point, a suspend, a resume
 *   2. writes the inputs: the measured temperature into word 0, the number of the cycle into word 2
 *   3. gives each running procedure a round
 *   4. reads the output, word 1, and switches the heater; it is off while no procedure has had a round
 *   5. sends the completions that wait
 *
 * If the procedure exits, it is activated again. After each cycle the journal's entries are given to a second engine, as ground
 * has one, written to the file JOURNAL, if one is named, for the tools `journal` and `replay`, and released. The last lines are
 * the pool, as the console prints it.
 *
 * Status: 0 the loop held the temperature, and both engines end alike; 1 it did not, and one line says why; 2 wrong words. */
#include "../flight/pool.h"
#include "ocp_engine.h"
#include "ocp_journal.h"
#include "ocp_octets.h"
#include "show.h"
#include "telecommand.h"
#include "turns.h"
#include "words.h"

#include <inttypes.h>
#include <stdio.h>
#include <stdlib.h>
#include <string.h>

enum {
    APID = 291,
    PROCEDURE = 7,
    ROUND = 1000, /* the most instructions of a round */

    WORDS = POOL_CYCLE + 1, /* of the mission's pool: those that a thermostat needs */

    /* what ground sends, and when */
    FIRST_CHANGE = 5000,
    SUSPENSION = 19000,
    RESUMPTION = 21000,
    SECOND_CHANGE = 25000,
    FIRST_SET_POINT = 240,
    SECOND_SET_POINT = 210,

    SETTLING = 3000, /* cycles from a change on in which the temperature may be anything */
    TOLERANCE = 20,
    CYCLES = 100000,
    CYCLES_OF_ROW = 10000
};

static struct journal_writer journal = {
    .with = {.profile = 1, .apid = APID, .pool_words = WORDS, .entries = 256, .octets = 65536}, .flight = 1, .cycles = 10, .file = -1};
static struct ocp_engine engine = OCP_CLOSED, second = OCP_CLOSED;
static uint64_t entries; /* that the second engine did */
static uint32_t cycle;
static uint32_t completions; /* that drains reported */
static uint8_t reports[OCP_DRAIN_REPORTS > OCP_REQUEST_REPORTS ? OCP_DRAIN_REPORTS : OCP_REQUEST_REPORTS];

static _Noreturn void fail(const char *why)
{
    fprintf(stderr, "control: cycle %" PRIu32 ": %s\n", cycle, why);
    exit(1);
}

static void must(uint32_t status, const char *call)
{
    if (status != OCP_DONE) {
        fprintf(stderr, "control: cycle %" PRIu32 ": %s answers %" PRIu32 "\n", cycle, call, status);
        exit(1);
    }
}

/* ---- the room, in degrees */

static double air = 5, heat = 0; /* the heater warms up and cools down with a delay */

static double outside(void)
{
    double part = (double)(cycle % 24000) / 24000;
    return 2 + 16 * (part < 0.5 ? part : 1 - part);
}

static void pass_a_second(bool heater_is_on)
{
    heat += ((heater_is_on ? 40 : 0) - heat) / 20;
    air += (outside() + heat - air) / 1500;
}

/* The sensor gives tenths of a degree. It is never below 0 in this room. */
static uint64_t measured(void)
{
    return (uint64_t)(air * 10 + 0.5);
}

/* ---- ground */

enum { MOST_CODE = 2048 * 8, MOST_ARGUMENTS = 256, FLAGS = 1 + 8 /* acceptance and completion */, COMPLETED = 7 };

static uint8_t code[MOST_CODE], arguments[MOST_ARGUMENTS];
static size_t code_length, argument_count;
static uint64_t set_point;

/* Looks at the reports of a call: none may be of a failure. Gives how many are of completions. */
static uint32_t look_at_reports(size_t length)
{
    uint32_t completed = 0;
    for (size_t at = 0; at < length; at += (size_t)number_at(reports + at + 4, 2) + 7) {
        if (reports[at + 7] == 1 && reports[at + 8] % 2 == 0)
            fail("a telecommand fails");
        completed += reports[at + 7] == 1 && reports[at + 8] == COMPLETED;
    }
    return completed;
}

/* Sends a telecommand to the procedure. */
static void send(uint8_t subtype, const uint8_t *data, size_t length)
{
    static uint8_t packet[TELECOMMAND_HEAD + 4 + MOST_CODE + TELECOMMAND_CONTROL];
    static uint16_t count;
    size_t written;
    put_number(packet + TELECOMMAND_HEAD, PROCEDURE, 2);
    memcpy(packet + TELECOMMAND_HEAD + 2, data, length);
    length = put_telecommand(packet, APID, count++, FLAGS, subtype, 2 + length);
    must(ocp_request(&engine, cycle, packet, length, reports, sizeof reports, &written), "ocp_request");
    look_at_reports(written);
}

static void load(void)
{
    static uint8_t data[2 + MOST_CODE];
    put_number(data, code_length, 2);
    memcpy(data + 2, code, code_length);
    send(LOAD, data, 2 + code_length);
}

static void activate(void)
{
    uint8_t data[2 + MOST_ARGUMENTS];
    put_number(data, argument_count, 2);
    memcpy(data + 2, arguments, argument_count);
    send(ACTIVATE, data, 2 + argument_count);
}

static void change_set_point(uint8_t tenths)
{
    uint8_t data[9] = {1};
    put_number(data + 1, tenths, 8);
    send(COMMUNICATE, data, sizeof data);
    arguments[argument_count - 1] = tenths;
    set_point = tenths;
}

static void send_telecommands(void)
{
    static const uint8_t step_1[] = {0, 1};
    uint8_t nothing = 0;
    if (cycle == FIRST_CHANGE)
        change_set_point(FIRST_SET_POINT);
    else if (cycle == SUSPENSION)
        send(SUSPEND, step_1, sizeof step_1);
    else if (cycle == RESUMPTION)
        send(RESUME, &nothing, 0);
    else if (cycle == SECOND_CHANGE)
        change_set_point(SECOND_SET_POINT);
}

/* ---- flight software */

static void write_inputs(void)
{
    must(ocp_put_word(&engine, POOL_TEMPERATURE, measured()), "ocp_put_word");
    must(ocp_put_word(&engine, POOL_CYCLE, cycle), "ocp_put_word");
}

/* A round of each running procedure, by rising identifier. Gives whether there was one. */
static bool give_rounds(void)
{
    uint32_t last_id = OCP_NO_PROCEDURE, count, step;
    uint16_t id;
    struct ocp_outcome last;
    while (next_turn(&engine, &last_id, &id)) {
        must(ocp_round(&engine, id, ROUND, &count, &last, &step), "ocp_round");
        if (last.kind == OCP_ENDED)
            activate();
        else if (step == OCP_NO_STEP)
            fail("a round ends with no step");
    }
    return last_id != OCP_NO_PROCEDURE;
}

static bool read_output(void)
{
    uint64_t word;
    must(ocp_pool_word(&engine, POOL_HEATER, &word), "ocp_pool_word");
    return word == 1;
}

static void drain(void)
{
    size_t written;
    uint32_t status = ocp_drain(&engine, cycle, reports, sizeof reports, &written);
    if (status == OCP_NOTHING_DUE)
        return;
    must(status, "ocp_drain");
    completions += look_at_reports(written);
}

/* ---- the journal */

/* Gives the new entries to the second engine. Every ten cycles they are written to the file and released. */
static void hand_down(void)
{
    static uint8_t entry[OCP_LONGEST_ENTRY], again[OCP_DRAIN_REPORTS];
    size_t length, written;
    while (ocp_entry(&engine, entries, entry, sizeof entry, &length) == OCP_DONE) {
        if (!give_entry(&second, entry, length, again, &written))
            fail("the second engine does not do an entry again");
        must(ocp_release(&second, 1), "ocp_release");
        entries++;
    }
    if (!keep_journal(&journal, &engine))
        fail("the journal can't be written");
}

/* ---- what has to hold */

static double farthest; /* from the set point, in tenths of a degree, after settling */

static void check_cycle(bool has_run)
{
    bool suspended = cycle >= SUSPENSION && cycle < RESUMPTION;
    uint32_t changed = cycle >= SECOND_CHANGE ? SECOND_CHANGE : cycle >= RESUMPTION ? RESUMPTION
                       : cycle >= FIRST_CHANGE ? FIRST_CHANGE : 0;
    double off = air * 10 > (double)set_point ? air * 10 - (double)set_point : (double)set_point - air * 10;
    if (has_run == (suspended && cycle > SUSPENSION)) /* the suspend takes effect at the end of a round */
        fail(has_run ? "a suspended procedure has run" : "the procedure has not run");
    if (completions != (cycle >= SUSPENSION))
        fail("the suspend is not reported once");
    if (cycle == RESUMPTION - 1 && off <= TOLERANCE)
        fail("the room is warm without the procedure");
    if (!suspended && cycle >= changed + SETTLING) {
        if (off > TOLERANCE)
            fail("the temperature is off by more than two degrees");
        farthest = off > farthest ? off : farthest;
    }
}

static void run_cycles(uint32_t cycles)
{
    load();
    activate();
    while (cycle < cycles) {
        cycle++;
        send_telecommands();
        write_inputs();
        bool has_run = give_rounds();
        bool heater_is_on = has_run && read_output();
        drain();
        hand_down();
        pass_a_second(heater_is_on);
        check_cycle(has_run);
        if (cycle % CYCLES_OF_ROW == 0)
            printf("cycle %" PRIu32 ": %.1f degrees, set point %.1f, outside %.1f, heater %s\n", cycle, air,
                   (double)set_point / 10, outside(), heater_is_on ? "on" : "off");
    }
}

/* ---- the replay */

/* What is seen of an engine: its events, its pool, and the registers of the procedure. */
enum { REGISTERS = 11, SEEN = 1 + WORDS + REGISTERS };

static void see(struct ocp_engine *one, uint64_t *seen, struct ocp_view *view)
{
    must(ocp_events(one, seen), "ocp_events");
    for (uint64_t index = 0; index < WORDS; index++)
        must(ocp_pool_word(one, index, seen + 1 + index), "ocp_pool_word");
    must(ocp_view(one, PROCEDURE, view, seen + 1 + WORDS, REGISTERS), "ocp_view");
}

/* What is seen of both engines has to be the same. */
static void compare_engines(void)
{
    struct ocp_view views[2];
    uint64_t flown[SEEN], again[SEEN];
    see(&engine, flown, &views[0]);
    see(&second, again, &views[1]);
    if (memcmp(flown, again, sizeof flown) != 0 || memcmp(&views[0], &views[1], sizeof views[0]) != 0)
        fail("the engines differ after the replay");
    printf("%" PRIu32 " cycles, %" PRIu64 " events, %" PRIu64 " entries; at most %.1f degrees off; the replay is the same\n",
           cycle, flown[0], entries, farthest / 10);
    for (uint64_t index = 0; index < WORDS; index++)
        show_word(&engine, index);
}

/* ---- the words */

/* The octets of digits, to the end or to a newline. Gives how many they are, or 0 if they are none or too many. */
static size_t octets_of(const char *digits, uint8_t *octets, size_t most)
{
    size_t count = read_digits(digits, octets, most);
    char next = digits[2 * count];
    return next == '\0' || next == '\n' ? count : 0;
}

static bool read_code(const char *name)
{
    static char digits[2 * MOST_CODE + 2];
    FILE *file = fopen(name, "r");
    if (file == NULL)
        return false;
    bool there = fgets(digits, sizeof digits, file) != NULL;
    fclose(file);
    code_length = there ? octets_of(digits, code, sizeof code) : 0;
    return code_length != 0;
}

int main(int words, char **word)
{
    uint64_t cycles = CYCLES;
    if (words < 3 || words > 5 || (words > 3 && !read_number(word[3], UINT32_MAX, &cycles)) || cycles == 0 ||
        !read_code(word[1]) || (argument_count = octets_of(word[2], arguments, sizeof arguments)) == 0) {
        fprintf(stderr, "usage: control IMAGE ARGUMENTS [CYCLES [JOURNAL]], with digits in the file IMAGE and for ARGUMENTS\n");
        return 2;
    }
    set_point = arguments[argument_count - 1];
    must(open_engine(&engine, &journal.with), "ocp_open");
    must(open_engine(&second, &journal.with), "ocp_open of the second engine");
    if (words == 5 && !begin_journal(&journal, word[4]))
        fail("the journal can't be written");
    run_cycles((uint32_t)cycles);
    if (!end_journal(&journal, &engine))
        fail("the journal can't be written");
    compare_engines();
    must(ocp_close(&engine), "ocp_close");
    must(ocp_close(&second), "ocp_close");
    return 0;
}
