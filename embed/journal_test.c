/* Tests that a journal is whole whatever becomes of its writes.
 *
 *   journal_test FILE
 *
 * A flight is flown again and again. Each time one call of write misbehaves, or several in a row: it fails, writes a part, writes
 * nothing, or is interrupted; or a call of ftruncate fails after it. keep_journal has to say so at once and to lose nothing: at
 * the end the file has the octets of the flight without a fault, and while blocks are refused, the file ends with a whole block.
 * Linked with -Wl,--wrap=write,--wrap=ftruncate. Status: 0 done, 1 a check fails, and one line says which. */
#define _POSIX_C_SOURCE 200809L
#include "ocp_engine.h"
#include "ocp_journal.h"

#include <errno.h>
#include <inttypes.h>
#include <stdio.h>
#include <stdlib.h>
#include <string.h>
#include <sys/types.h>
#include <unistd.h>

enum { CYCLES = 40, BLOCK = 4, WORDS = 3, MOST_FILE = 1 << 16 };
enum fault { NONE, FULL, FULL_LONG, SHORT, NOTHING, INTERRUPTED, TORN, TORN_LONG, FAULTS };
enum { LONG = 9 /* calls in a row */ };

static const char *const names[FAULTS] = {"no fault",     "ENOSPC",       "ENOSPC for long", "a short write",
                                          "no octet",     "EINTR",        "a part, then ENOSPC", "the same, and ftruncate fails"};
static struct ocp_engine engine = OCP_CLOSED;
static struct journal_writer journal;
static enum fault fault;
static int calls, faulty, cuts;
static uint8_t wanted[MOST_FILE], given[MOST_FILE];
static size_t wanted_length;

ssize_t __real_write(int file, const void *octets, size_t length);
ssize_t __wrap_write(int file, const void *octets, size_t length);
int __real_ftruncate(int file, off_t length);
int __wrap_ftruncate(int file, off_t length);

static ssize_t refuse(int why)
{
    errno = why;
    return -1;
}

ssize_t __wrap_write(int file, const void *octets, size_t length)
{
    int call = calls++, since = call - faulty;
    size_t half = length / 2;
    if (fault == NONE || since < 0)
        return __real_write(file, octets, length);
    switch (fault) {
    case FULL:
        return since == 0 ? refuse(ENOSPC) : __real_write(file, octets, length);
    case FULL_LONG:
        return since < LONG ? refuse(ENOSPC) : __real_write(file, octets, length);
    case SHORT:
        return __real_write(file, octets, since == 0 && half > 0 ? half : length);
    case NOTHING:
        return since == 0 ? 0 : __real_write(file, octets, length);
    case INTERRUPTED:
        return since < 2 ? refuse(EINTR) : __real_write(file, octets, length);
    default:
        if (since == 0)
            return __real_write(file, octets, half > 0 ? half : length);
        return since < LONG ? refuse(ENOSPC) : __real_write(file, octets, length);
    }
}

int __wrap_ftruncate(int file, off_t length)
{
    return fault == TORN_LONG && cuts++ < 2 ? (int)refuse(EIO) : __real_ftruncate(file, length);
}

static _Noreturn void fail(const char *why)
{
    fprintf(stderr, "journal_test: %s at write %d: %s\n", names[fault], faulty, why);
    exit(1);
}

static size_t read_file(const char *name, uint8_t *octets)
{
    FILE *file = fopen(name, "rb");
    size_t length = file == NULL ? 0 : fread(octets, 1, MOST_FILE, file);
    if (file == NULL || fclose(file) != 0 || length == MOST_FILE)
        fail("the file can't be read");
    return length;
}

/* While a block is refused, the file has whole blocks alone, unless it could not be cut. */
static void look_at_refusal(const char *name)
{
    size_t length = read_file(name, given);
    if (!journal.is_torn && (length > wanted_length || memcmp(given, wanted, length) != 0))
        fail("the file does not end with a whole block");
    if (!journal.is_torn && length != (size_t)journal.end)
        fail("the file is not cut back");
}

/* Flies a flight of two words a cycle. Gives how many calls of keep_journal were refused. */
static int fly(const char *name)
{
    int refused = 0;
    calls = cuts = 0;
    journal.with = (struct parameters){.profile = 1, .apid = 291, .pool_words = WORDS, .entries = 400, .octets = 8000};
    journal.flight = 77;
    journal.cycles = BLOCK;
    if (open_engine(&engine, &journal.with) != OCP_DONE || !begin_journal(&journal, name))
        fail("no engine, or no file");
    for (uint64_t cycle = 1; cycle <= CYCLES; cycle++) {
        if (ocp_put_word(&engine, 0, cycle) != OCP_DONE || ocp_put_word(&engine, 2, cycle * cycle) != OCP_DONE)
            fail("an event is refused");
        if (!keep_journal(&journal, &engine)) {
            refused++;
            look_at_refusal(name);
        }
    }
    for (int again = 0; again < LONG; again++)
        if (!keep_journal_now(&journal, &engine))
            refused++;
    if (!end_journal(&journal, &engine) || ocp_close(&engine) != OCP_DONE)
        fail("the journal is not ended");
    return refused;
}

/* Reads the journal of a flight with faults: each entry once, with the values of its cycle. */
static void look_at_entries(char *name)
{
    static struct journal_reader reader;
    char *parts[] = {name, NULL};
    uint8_t *entry;
    size_t length;
    memset(&reader, 0, sizeof reader);
    reader.part = parts;
    if (!begin_reading(&reader) || reader.flight != 77 || reader.with.entries != 400)
        fail("the journal can't be read");
    for (uint64_t at = 0; at < 2 * CYCLES; at++) {
        uint64_t cycle = at / 2 + 1, value = at % 2 == 0 ? cycle : cycle * cycle;
        if (read_journal(&reader, &entry, &length) != JOURNAL_ENTRY || length != 13 || entry[0] != OCP_ENTRY_PUT_WORD ||
            number_at(entry + 3, 2) != at % 2 * 2 || number_at(entry + 5, 8) != value)
            fail("an entry is not the one that was flown");
    }
    if (read_journal(&reader, &entry, &length) != JOURNAL_END)
        fail("the journal has more than what was flown");
    end_reading(&reader);
}

int main(int words, char **word)
{
    int tried = 0;
    if (words != 2)
        return 2;
    fly(word[1]);
    wanted_length = read_file(word[1], wanted);
    look_at_entries(word[1]);
    int writes = calls;
    for (fault = FULL; fault < FAULTS; fault++)
        for (faulty = 0; faulty < writes; faulty++, tried++) {
            int refused = fly(word[1]);
            bool is_transparent = fault == SHORT || fault == INTERRUPTED;
            if (is_transparent != (refused == 0))
                fail(is_transparent ? "it is told as a failure" : "nobody was told");
            look_at_entries(word[1]);
            if (is_transparent && (read_file(word[1], given) != wanted_length || memcmp(given, wanted, wanted_length) != 0))
                fail("the file is another one");
        }
    printf("journal: %d writes, %d faults, nothing lost\n", writes, tried);
    return 0;
}
