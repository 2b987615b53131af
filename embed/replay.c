/* Runs a flown journal again on ground: gives its entries to an engine of the same library.
 *
 *   replay FILE.. [--until EVENT] [--view ID].. [--reports]
 *
 * The files are one journal in parts, in their order; `ocp_journal.h` has its form. Entries are read, given and released one by
 * one, so a journal of any length, and of any store, takes no more memory than an engine with room for one entry. The replay ends
 * after the last entry, or after EVENT events. It prints the number of events, the view of each procedure ID, and the pool, in
 * the lines of the console. With --reports it compares the engine's reports with those on standard input, which came down, octet
 * for octet.
 *
 * A line says each range of entries that is missing, comes again, comes after later ones, or is of another flight, and each
 * damage, by file and octet. After the first missing entry the state is unknown: later entries are looked at and not given, and
 * what is shown is the state before it.
 *
 * Status: 0 done, 1 the reports differ, an entry can't be done, or there are fewer events than EVENT, 2 wrong words, 3 no engine,
 * 4 the journal is not whole. */
#include "ocp_engine.h"
#include "ocp_journal.h"
#include "ocp_octets.h"
#include "show.h"
#include "words.h"

#include <inttypes.h>
#include <stdbool.h>
#include <stdio.h>
#include <string.h>

enum { MOST_IDS = 64, FAILED = 1, WRONG_WORDS, NO_ENGINE, NOT_WHOLE };

static struct journal_reader journal;
static struct ocp_engine engine = OCP_CLOSED;
static uint64_t events, until = UINT64_MAX;
static uint16_t ids[MOST_IDS];
static int id_count;
static bool has_reports;
static bool is_whole = true, is_known = true; /* the journal so far, and the state */

/* Says why the replay ends early, and at which octet of a file. */
static bool fail_at(const char *file, uint64_t octet, const char *why)
{
    fprintf(stderr, "replay: %s, octet %" PRIu64 ": %s\n", file, octet, why);
    return false;
}

static bool fail(const char *why)
{
    return fail_at(journal.name, journal.octet, why);
}

/* ---- the journal */

static void tell_entries(const char *what)
{
    fprintf(stderr, "replay: %s, octet %" PRIu64 ": ", journal.name, journal.octet);
    if (journal.from == journal.to)
        fprintf(stderr, "entry %" PRIu64 " %s\n", journal.from, what);
    else
        fprintf(stderr, "entries %" PRIu64 " to %" PRIu64 " %s\n", journal.from, journal.to, what);
}

static void tell_octets(const char *what)
{
    fprintf(stderr, "replay: %s, octet %" PRIu64 ": %" PRIu64 " octets %s\n", journal.name, journal.octet, journal.to, what);
}

/* Says what is wrong with the journal here. */
static void tell(enum journal_found what)
{
    is_whole = false;
    switch (what) {
    case JOURNAL_MISSING:
        is_known = false;
        tell_entries("missing: the state after this is unknown");
        break;
    case JOURNAL_AGAIN:
        tell_entries("again: passed over");
        break;
    case JOURNAL_SWAPPED:
        tell_entries("after later ones: pieces are swapped; passed over");
        break;
    case JOURNAL_OTHER_FLIGHT:
        tell_entries("of another flight: passed over");
        break;
    case JOURNAL_DAMAGED:
        tell_octets("damaged: passed over");
        break;
    case JOURNAL_CUT:
        tell_octets("of a block without its end: the journal is cut");
        break;
    case JOURNAL_UNREADABLE:
        fprintf(stderr, "replay: %s: %s\n", journal.name, strerror(journal.error));
        break;
    default:
        fprintf(stderr, "replay: out of memory\n");
    }
}

/* Reads the next entry, and says what is wrong before it. Gives whether there is one. */
static bool next_entry(uint8_t **entry, size_t *length)
{
    enum journal_found what;
    while ((what = read_journal(&journal, entry, length)) != JOURNAL_ENTRY && what != JOURNAL_END) {
        tell(what);
        if (what == JOURNAL_NO_MEMORY)
            return false;
    }
    return what == JOURNAL_ENTRY;
}

/* ---- the replay */

/* Opens an engine with room for the longest entry: each is released once it is done. */
static bool open_flown(void)
{
    if (!begin_reading(&journal)) {
        uint8_t *entry;
        size_t length;
        next_entry(&entry, &length);
        fprintf(stderr, "replay: no journal is in the files\n");
        return false;
    }
    struct parameters flown = journal.with;
    flown.entries = 1;
    flown.octets = (uint32_t)OCP_LONGEST_ENTRY;
    return open_engine(&engine, &flown) == OCP_DONE || fail("no engine opens with the parameters of the journal");
}

/* Compares reports of the engine with those that came down. */
static bool compare_reports(const uint8_t *reports, size_t length)
{
    static uint8_t sent[OCP_DRAIN_REPORTS];
    static uint64_t compared;
    if (fread(sent, 1, length, stdin) < length || memcmp(sent, reports, length) != 0)
        return fail_at("standard input", compared, "these reports are not those of the engine");
    compared += length;
    return true;
}

/* Gives an entry to the engine, its instructions only up to the last event that is wanted, and releases it. */
static bool give(uint8_t *entry, size_t length)
{
    static uint8_t reports[OCP_DRAIN_REPORTS];
    uint8_t *count = entry + ENTRY_FIELDS + 2;
    size_t written;
    if (entry[0] == OCP_ENTRY_STEPS && number_at(count, 4) > until - events)
        put_number(count, until - events, 4);
    if (!give_entry(&engine, entry, length, reports, &written) || ocp_release(&engine, 1) != OCP_DONE)
        return fail("the engine does not do what the entry says");
    ocp_events(&engine, &events);
    return !has_reports || compare_reports(reports, written);
}

/* Gives the entries up to the last event that is wanted, or up to the first that is missing. Returns whether all were done, and
 * the reports are the same. */
static bool give_entries(void)
{
    uint8_t *entry;
    size_t length;
    while (events < until && next_entry(&entry, &length))
        if (is_known && !give(entry, length))
            return false;
    if (!is_whole)
        return true;
    if (until != UINT64_MAX)
        return events == until || fail("the journal has fewer events");
    return !has_reports || getchar() == EOF || fail("more reports came down than the journal has");
}

static void show(void)
{
    uint64_t word;
    show_events(&engine);
    for (int at = 0; at < id_count; at++)
        show_view(&engine, ids[at]);
    for (uint64_t index = 0; ocp_pool_word(&engine, index, &word) == OCP_DONE; index++)
        show_word(&engine, index);
}

/* ---- the words */

/* Reads the options. The names of the files move to the front. */
static bool read_words(char **word)
{
    char **names = journal.part = word;
    uint64_t id;
    for (; *word != NULL; word++) {
        if (strncmp(*word, "--", 2) != 0) {
            *names++ = *word;
        } else if (strcmp(*word, "--reports") == 0) {
            has_reports = true;
        } else if (strcmp(*word, "--until") == 0 && read_number(word[1], UINT64_MAX - 1, &until)) {
            word++;
        } else if (strcmp(*word, "--view") == 0 && id_count < MOST_IDS && read_number(word[1], UINT16_MAX, &id)) {
            ids[id_count++] = (uint16_t)id;
            word++;
        } else {
            return false;
        }
    }
    *names = NULL;
    return names > journal.part;
}

int main(int words, char **word)
{
    if (words < 2 || !read_words(word + 1)) {
        fprintf(stderr, "usage: replay FILE.. [--until EVENT] [--view ID].. [--reports]\n");
        return WRONG_WORDS;
    }
    if (!open_flown())
        return NO_ENGINE;
    bool is_done = give_entries();
    show();
    end_reading(&journal);
    ocp_close(&engine);
    return !is_done ? FAILED : is_whole ? 0 : NOT_WHOLE;
}
