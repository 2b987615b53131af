/* The console's lines over the library, to compare the two: a script of lines on standard input gives the transcript that
 * `ocp run` gives of it. It has no `send`, `trace` without words, and `work`.
 *
 *   lines PROFILE APID POOL_WORDS ENTRIES OCTETS [JOURNAL]
 *
 * The engine's journal is written to the file JOURNAL, if one is named. Status: 0 done, 1 a line that is none of these,
 * 2 wrong words, 3 no engine. */
#include "ocp_engine.h"
#include "ocp_journal.h"
#include "show.h"
#include "words.h"

#include <inttypes.h>
#include <stdio.h>
#include <string.h>

enum { LINE = 40002, MOST_MEMORY = 256, SECONDARY = 17 };

static struct ocp_engine engine = OCP_CLOSED;
static struct journal_writer journal = {.flight = 1, .cycles = 1, .file = -1};
static uint32_t seconds;

static const char *name_of(uint32_t status)
{
    static const char *const names[] = {
        [OCP_JOURNAL_FULL] = "JournalFull", [OCP_DISCARDED_SHORT] = "Short", [OCP_DISCARDED_VERSION] = "Version",
        [OCP_DISCARDED_LENGTH] = "Length", [OCP_DISCARDED_NOT_TELECOMMAND] = "NotTelecommand", [OCP_DISCARDED_OTHER_APID] = "OtherApid",
        [OCP_NOTHING_DUE] = "NothingDue", [OCP_NOT_LOADED] = "NotLoaded", [OCP_NOT_RUNNING] = "NotRunning",
        [OCP_NOT_AN_INSTRUCTION] = "NotAnInstruction", [OCP_ALREADY_SET] = "AlreadySet",
        [OCP_BREAKS_FULL] = "BreaksFull", [OCP_NOT_SET] = "NotSet", [OCP_OUTSIDE_MEMORY] = "OutsideMemory",
        [OCP_NO_WORD] = "BadPoolIndex"};
    const char *name = status < sizeof names / sizeof *names ? names[status] : NULL;
    return name != NULL ? name : "OtherStatus";
}

static void print_hex(const uint8_t *octets, size_t length)
{
    for (size_t at = 0; at < length; at++)
        printf("%02x", octets[at]);
    printf("\n");
}

/* ---- reports */

static uint32_t two(const uint8_t *octets)
{
    return (uint32_t)octets[0] << 8 | octets[1];
}

static void print_reports(const uint8_t *reports, size_t length)
{
    for (size_t size; length > 0; reports += size, length -= size) {
        size = two(reports + 4) + 7;
        printf("tm %u %u seq %" PRIu32 " dest %" PRIu32 " data ", reports[7], reports[8], two(reports + 2) & 0x3fff,
               two(reports + 11));
        print_hex(reports + SECONDARY, size - SECONDARY - 2);
    }
}

static void print_answer(uint32_t status, const uint8_t *reports, size_t length)
{
    if (status == OCP_DONE)
        print_reports(reports, length);
    else if (status >= OCP_DISCARDED_SHORT && status <= OCP_DISCARDED_OTHER_APID)
        printf("discarded %s\n", name_of(status));
    else
        printf("refused %s\n", name_of(status));
}

static bool up(const char *digits)
{
    static uint8_t packet[LINE / 2];
    static uint8_t reports[OCP_REQUEST_REPORTS];
    size_t length = read_digits(digits, packet, sizeof packet), written = 0;
    if (digits[2 * length] != '\0')
        return false;
    uint32_t status = ocp_request(&engine, seconds, packet, length, reports, sizeof reports, &written);
    print_answer(status, reports, written);
    return true;
}

static void drain(void)
{
    static uint8_t reports[OCP_DRAIN_REPORTS];
    size_t written = 0;
    uint32_t status = ocp_drain(&engine, seconds, reports, sizeof reports, &written);
    print_answer(status, reports, written);
}

/* ---- instructions and the debugger */

/* Prints what instructions answered, but for the end of the line. */
static void print_instructions(const char *name, uint16_t id, uint32_t status, uint32_t count, struct ocp_outcome last)
{
    static const char *const kinds[] = {"Broke", "Ran", "Called", "Ended", "Faulted"};
    printf("%s %u %" PRIu32 " %s", name, id, count, status == OCP_DONE ? kinds[last.kind] : name_of(status));
    if (status == OCP_DONE && last.kind == OCP_FAULTED)
        printf(" %" PRIu32, last.fault);
}

static void step(uint16_t id, uint32_t budget)
{
    uint32_t count = 0;
    struct ocp_outcome last = {0, 0};
    uint32_t status = ocp_slice(&engine, id, budget, &count, &last);
    print_instructions("step", id, status, count, last);
    printf("\n");
}

static void round_of(uint16_t id, uint32_t budget)
{
    uint32_t count = 0, ended = OCP_NO_STEP;
    struct ocp_outcome last = {0, 0};
    uint32_t status = ocp_round(&engine, id, budget, &count, &last, &ended);
    print_instructions("round", id, status, count, last);
    if (ended != OCP_NO_STEP)
        printf(" step %" PRIu32, ended);
    printf("\n");
}

/* Prints what a command of the debugger or a write of a pool word answered. */
static void command(uint32_t status, const char *done)
{
    printf(" %s\n", status == OCP_DONE ? done : name_of(status));
}

static void memory(uint16_t id, uint64_t address, size_t length)
{
    uint8_t octets[MOST_MEMORY];
    uint32_t status = ocp_memory(&engine, id, address, octets, length);
    if (status != OCP_DONE) {
        printf("mem %u %s\n", id, name_of(status));
        return;
    }
    printf("mem %u 0x%016" PRIx64 " ", id, address);
    print_hex(octets, length);
}

static void put(uint64_t index, uint64_t value)
{
    printf("put %" PRIu64 " %" PRIu64, index, value);
    command(ocp_put_word(&engine, index, value), "set");
}

/* ---- lines */

static bool debug_line(const char *line)
{
    uint16_t id, place;
    char on[4];
    if (sscanf(line, "break %" SCNu16 " %" SCNu16, &id, &place) == 2) {
        printf("break %u %u", id, place);
        command(ocp_set_break(&engine, id, place), "set");
    } else if (sscanf(line, "unbreak %" SCNu16 " %" SCNu16, &id, &place) == 2) {
        printf("unbreak %u %u", id, place);
        command(ocp_clear_break(&engine, id, place), "cleared");
    } else if (sscanf(line, "trace %" SCNu16 " %3s", &id, on) == 2) {
        printf("trace %u", id);
        command(ocp_trace(&engine, id, strcmp(on, "on") == 0), on);
    } else {
        return false;
    }
    return true;
}

static bool line_of_script(const char *line)
{
    uint16_t id;
    uint32_t number;
    uint64_t wide, value;
    size_t length;
    if (strncmp(line, "up ", 3) == 0)
        return up(line + 3);
    if (strcmp(line, "up") == 0)
        return up("");
    if (sscanf(line, "time %" SCNu32, &number) == 1)
        seconds = number;
    else if (sscanf(line, "step %" SCNu16 " %" SCNu32, &id, &number) == 2)
        step(id, number);
    else if (sscanf(line, "round %" SCNu16 " %" SCNu32, &id, &number) == 2)
        round_of(id, number);
    else if (sscanf(line, "put %" SCNu64 " %" SCNu64, &wide, &value) == 2)
        put(wide, value);
    else if (sscanf(line, "mem %" SCNu16 " 0x%" SCNx64 " %zu", &id, &wide, &length) == 3 && length <= MOST_MEMORY)
        memory(id, wide, length);
    else if (sscanf(line, "view %" SCNu16, &id) == 1)
        show_view(&engine, id);
    else if (sscanf(line, "pool %" SCNu64, &wide) == 1)
        show_word(&engine, wide);
    else if (strcmp(line, "drain") == 0)
        drain();
    else if (strcmp(line, "journal") == 0)
        show_events(&engine);
    else
        return debug_line(line) || line[0] == '#' || line[0] == '\0';
    return true;
}

int main(int words, char **word)
{
    static char line[LINE];
    uint64_t numbers[5];
    if (words < 6 || words > 7)
        return 2;
    for (int at = 0; at < 5; at++)
        if (!read_number(word[at + 1], UINT32_MAX, &numbers[at]))
            return 2;
    struct parameters *with = &journal.with;
    uint32_t *const parameters[] = {&with->profile, &with->apid, &with->pool_words, &with->entries, &with->octets};
    for (int at = 0; at < 5; at++)
        *parameters[at] = (uint32_t)numbers[at];
    if (open_engine(&engine, &journal.with) != OCP_DONE)
        return 3;
    if (words == 7 && !begin_journal(&journal, word[6]))
        return 3;
    bool known = true;
    while (known && fgets(line, sizeof line, stdin) != NULL) {
        line[strcspn(line, "\r\n")] = '\0';
        known = line_of_script(line);
    }
    if (!end_journal(&journal, &engine))
        return 3;
    ocp_close(&engine);
    return known ? 0 : 1;
}
