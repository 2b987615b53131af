/* Reads a journal back from its files, for ground; `ocp_journal.h` has the form and the calls. */
#include "ocp_journal.h"

#include <errno.h>
#include <stdlib.h>
#include <string.h>

enum { PARAMETERS = 22 /* of version 1, with their error control */, LENGTH = 4, CONTROL = 2, LEAST_ROOM = 1 << 16, LONGEST_NUMBER = 10 };

/* ---- the octets of all files, one after the other */

/* Names the file and the octet of a place in all files together. */
static void point_at(struct journal_reader *journal, uint64_t position)
{
    size_t file = 0;
    while (file + 1 < journal->opened && journal->begins[file + 1] <= position)
        file++;
    journal->name = journal->first_part[file];
    journal->octet = journal->opened > 0 ? position - journal->begins[file] : 0;
}

/* Makes room for `wanted` octets from `start` on. */
static bool make_room(struct journal_reader *journal, size_t wanted)
{
    if (journal->start + wanted <= journal->room)
        return true;
    if (journal->start > 0)
        memmove(journal->held, journal->held + journal->start, journal->filled - journal->start);
    journal->filled -= journal->start;
    journal->start = 0;
    size_t room = journal->room < LEAST_ROOM ? LEAST_ROOM : journal->room;
    while (room < wanted)
        room *= 2;
    uint8_t *more = room > journal->room ? (uint8_t *)realloc(journal->held, room) : journal->held;
    if (more == NULL)
        return false;
    journal->held = more;
    journal->room = room;
    return true;
}

/* Ends the file that is read. One that can't be read is told by the next call of read_journal. */
static void end_file(struct journal_reader *journal, int error)
{
    if (error != 0) {
        journal->is_unreadable = true;
        journal->error = error;
        journal->name = *journal->part;
    }
    if (journal->file != NULL)
        fclose(journal->file);
    journal->file = NULL;
    journal->part++;
}

static void open_file(struct journal_reader *journal)
{
    journal->begins[journal->opened++] = journal->position + (journal->filled - journal->start);
    errno = 0;
    journal->file = fopen(*journal->part, "rb");
    if (journal->file == NULL)
        end_file(journal, errno);
}

/* Reads on until `wanted` octets are held from `start` on. Gives how many are. */
static size_t available(struct journal_reader *journal, size_t wanted)
{
    while (journal->filled - journal->start < wanted && *journal->part != NULL && !journal->is_unreadable) {
        if (!make_room(journal, wanted)) {
            journal->has_no_memory = true;
            break;
        }
        if (journal->file == NULL) {
            open_file(journal);
            continue;
        }
        errno = 0;
        size_t got = fread(journal->held + journal->filled, 1, journal->room - journal->filled, journal->file);
        journal->filled += got;
        if (got == 0)
            end_file(journal, ferror(journal->file) ? errno : 0);
    }
    return journal->filled - journal->start;
}

static void drop(struct journal_reader *journal, size_t octets)
{
    journal->start += octets;
    journal->position += octets;
}

static enum journal_found found(struct journal_reader *journal, enum journal_found what, uint64_t from, uint64_t to)
{
    journal->from = from;
    journal->to = to;
    return what;
}

/* ---- version 1 */

/* Passes over all that is left: without its length, no record shows where the next one begins. */
static enum journal_found pass_over(struct journal_reader *journal, enum journal_found what)
{
    uint64_t passed = 0, begin = journal->position;
    for (size_t here; (here = available(journal, 1)) > 0; drop(journal, here))
        passed += here;
    point_at(journal, begin);
    return found(journal, what, 0, passed);
}

static enum journal_found read_record(struct journal_reader *journal, uint8_t **entry, size_t *length)
{
    size_t got = available(journal, LENGTH);
    if (got == 0)
        return JOURNAL_END;
    *length = got < LENGTH ? 0 : (size_t)number_at(journal->held + journal->start, LENGTH);
    if (*length > OCP_LONGEST_ENTRY)
        return pass_over(journal, JOURNAL_DAMAGED);
    size_t whole = LENGTH + *length + CONTROL;
    if (got < LENGTH || available(journal, whole) < whole)
        return pass_over(journal, JOURNAL_CUT);
    if (error_control(journal->held + journal->start, whole) != 0)
        return pass_over(journal, JOURNAL_DAMAGED);
    memcpy(journal->entry, journal->held + journal->start + LENGTH, *length);
    *entry = journal->entry;
    point_at(journal, journal->position);
    drop(journal, whole);
    return found(journal, JOURNAL_ENTRY, journal->next++, 0);
}

static void take_parameters(struct journal_reader *journal, const uint8_t *octets)
{
    uint32_t *const numbers[] = {&journal->with.profile, &journal->with.apid, &journal->with.pool_words, &journal->with.entries,
                                 &journal->with.octets};
    for (int at = 0; at < 5; at++)
        *numbers[at] = (uint32_t)number_at(octets + 4 * at, 4);
}

/* ---- version 2: blocks */

static bool is_head(const uint8_t *head)
{
    return memcmp(head, "OCPJ", 4) == 0 && head[4] == 2 && error_control(head, JOURNAL_HEAD) == 0 && number_at(head + 34, 4) > 0 &&
           number_at(head + 26, 8) < UINT64_MAX - UINT32_MAX;
}

/* Whether a whole block begins at `start`. It is held then. */
static bool is_block(struct journal_reader *journal)
{
    if (available(journal, JOURNAL_HEAD) < JOURNAL_HEAD || !is_head(journal->held + journal->start))
        return false;
    size_t codes = (size_t)number_at(journal->held + journal->start + 38, 4), checked = JOURNAL_HEAD + codes;
    if (available(journal, checked + JOURNAL_CHECK) < checked + JOURNAL_CHECK) {
        if (journal->cut == 0)
            journal->cut = journal->position + 1;
        return false;
    }
    const uint8_t *block = journal->held + journal->start;
    journal->whole = checked + JOURNAL_CHECK;
    journal->at = JOURNAL_HEAD;
    journal->after = checked;
    return crc_32(0, block, checked) == number_at(block + checked, JOURNAL_CHECK);
}

/* Passes over octets up to one that may begin a block. */
static void pass_junk(struct journal_reader *journal)
{
    const uint8_t *from = journal->held + journal->start;
    size_t here = journal->filled - journal->start;
    const uint8_t *next = (const uint8_t *)memchr(from + 1, 'O', here - 1);
    size_t passed = next == NULL ? here : (size_t)(next - from);
    journal->junk += passed;
    drop(journal, passed);
}

/* Goes on to the next block, unless a file can't be read. */
static bool find_block(struct journal_reader *journal)
{
    while (!journal->has_block && available(journal, 1) > 0 && !journal->is_unreadable && !journal->has_no_memory) {
        journal->has_block = is_block(journal);
        if (!journal->has_block && !journal->is_unreadable && !journal->has_no_memory)
            pass_junk(journal);
    }
    journal->is_judged = false;
    return journal->has_block;
}

static void drop_block(struct journal_reader *journal)
{
    drop(journal, journal->whole);
    journal->has_block = false;
    journal->left = 0;
}

static struct parameters parameters_of(const uint8_t *head)
{
    struct parameters with;
    with.profile = head[5];
    with.apid = (uint32_t)number_at(head + 6, 2);
    with.pool_words = (uint32_t)number_at(head + 8, 2);
    with.entries = (uint32_t)number_at(head + 10, 4);
    with.octets = (uint32_t)number_at(head + 14, 4);
    return with;
}

static bool is_of_flight(const struct journal_reader *journal, const uint8_t *head)
{
    struct parameters with = parameters_of(head);
    return number_at(head + 18, 8) == journal->flight && with.profile == journal->with.profile && with.apid == journal->with.apid &&
           with.pool_words == journal->with.pool_words && with.entries == journal->with.entries && with.octets == journal->with.octets;
}

static void note_missing(struct journal_reader *journal, uint64_t from, uint64_t to)
{
    if (journal->missed < MISSING_RANGES) {
        journal->missing[journal->missed][0] = from;
        journal->missing[journal->missed++][1] = to;
    }
}

static bool was_missing(const struct journal_reader *journal, uint64_t from, uint64_t to)
{
    for (size_t at = 0; at < journal->missed; at++)
        if (journal->missing[at][0] <= from && to <= journal->missing[at][1])
            return true;
    return false;
}

static uint64_t first_of(const struct journal_reader *journal)
{
    return number_at(journal->held + journal->start + 26, 8);
}

static uint64_t last_of(const struct journal_reader *journal)
{
    return first_of(journal) + number_at(journal->held + journal->start + 34, 4) - 1;
}

/* What the head of the block says: JOURNAL_ENTRY if the next entry is in it, JOURNAL_MISSING if that is in none so far. */
static enum journal_found kind_of_block(const struct journal_reader *journal)
{
    if (!is_of_flight(journal, journal->held + journal->start))
        return JOURNAL_OTHER_FLIGHT;
    if (first_of(journal) > journal->next)
        return JOURNAL_MISSING;
    if (last_of(journal) >= journal->next)
        return JOURNAL_ENTRY;
    return was_missing(journal, first_of(journal), last_of(journal)) ? JOURNAL_SWAPPED : JOURNAL_AGAIN;
}

/* Passes over the block, and over those after it that go on where it ends and are passed over for the same reason. */
static enum journal_found pass_blocks(struct journal_reader *journal, enum journal_found why)
{
    uint64_t from = first_of(journal), to;
    do {
        to = last_of(journal);
        drop_block(journal);
    } while (find_block(journal) && journal->junk == 0 && kind_of_block(journal) == why && first_of(journal) == to + 1);
    return found(journal, why, from, to);
}

static void begin_block(struct journal_reader *journal)
{
    journal->is_judged = true;
    journal->index = first_of(journal);
    journal->left = (uint32_t)(last_of(journal) - first_of(journal) + 1);
    memset(&journal->packing, 0, sizeof journal->packing);
}

/* Says what the head of the block says, and passes over one that has nothing new: JOURNAL_ENTRY if its entries can be read. */
static enum journal_found judge_block(struct journal_reader *journal)
{
    uint64_t next = journal->next, first = first_of(journal);
    enum journal_found kind = kind_of_block(journal);
    point_at(journal, journal->position);
    if (kind == JOURNAL_MISSING) {
        note_missing(journal, next, first - 1);
        journal->next = first;
        return found(journal, kind, next, first - 1);
    }
    if (kind != JOURNAL_ENTRY)
        return pass_blocks(journal, kind);
    begin_block(journal);
    return first < next ? found(journal, JOURNAL_AGAIN, first, next - 1) : JOURNAL_ENTRY;
}

/* ---- unpacking */

static bool take_number(struct journal_reader *journal, uint64_t *number)
{
    *number = 0;
    for (int at = 0; at < LONGEST_NUMBER && journal->at < journal->after; at++) {
        uint8_t octet = journal->held[journal->start + journal->at++];
        *number |= (uint64_t)(octet & 0x7f) << 7 * at;
        if (octet < 0x80)
            return true;
    }
    return false;
}

/* Takes octets of the codes, or gives a null. */
static const uint8_t *take_octets(struct journal_reader *journal, uint64_t count)
{
    if (count > journal->after - journal->at)
        return NULL;
    const uint8_t *octets = journal->held + journal->start + journal->at;
    journal->at += (size_t)count;
    return octets;
}

/* Writes an entry of seat 0 with a procedure or a pool word, and a number. Gives its length. */
static size_t put_entry(uint8_t *entry, uint8_t kind, uint32_t id, uint64_t number, int octets)
{
    entry[0] = kind;
    put_number(entry + 1, 0, 2);
    put_number(entry + ENTRY_FIELDS, id, 2);
    put_number(entry + ENTRY_FIELDS + 2, number, octets);
    return ENTRY_FIELDS + 2 + (size_t)octets;
}

static size_t unpack_word(struct journal_reader *journal, uint32_t index)
{
    uint64_t number;
    if (!take_number(journal, &number))
        return 0;
    journal->packing.words[index] += number & 1 ? ~(number >> 1) : number >> 1;
    return put_entry(journal->entry, OCP_ENTRY_PUT_WORD, index, journal->packing.words[index], 8);
}

static size_t unpack_steps(struct journal_reader *journal, uint32_t at, bool has_count)
{
    struct journal_packing *packing = &journal->packing;
    uint64_t count;
    if (at >= packing->listed)
        return 0;
    if (has_count) {
        if (!take_number(journal, &count) || count > UINT32_MAX)
            return 0;
        packing->counts[at] = (uint32_t)count;
    }
    return put_entry(journal->entry, OCP_ENTRY_STEPS, packing->ids[at], packing->counts[at], 4);
}

static size_t unpack_listing(struct journal_reader *journal)
{
    struct journal_packing *packing = &journal->packing;
    const uint8_t *id = take_octets(journal, 2);
    if (id == NULL || packing->listed == LISTED_PROCEDURES)
        return 0;
    packing->ids[packing->listed++] = (uint16_t)number_at(id, 2);
    return unpack_steps(journal, packing->listed - 1, true);
}

static size_t unpack_any(struct journal_reader *journal)
{
    uint64_t length;
    const uint8_t *octets = take_number(journal, &length) ? take_octets(journal, length) : NULL;
    if (octets == NULL || length > OCP_LONGEST_ENTRY)
        return 0;
    memcpy(journal->entry, octets, (size_t)length);
    return (size_t)length;
}

/* Unpacks the next entry, and gives its length: 0 if there is no such code. */
static size_t unpack(struct journal_reader *journal)
{
    const uint8_t *code = take_octets(journal, 1), *index;
    if (code == NULL)
        return 0;
    if (*code < 0x40)
        return unpack_word(journal, *code);
    if (*code < 0x80)
        return unpack_steps(journal, *code & 31, *code >= 0x60);
    switch (*code) {
    case 0x80:
        return unpack_listing(journal);
    case 0x81:
        return unpack_any(journal);
    case 0x82:
        index = take_octets(journal, 1);
        return index == NULL ? 0 : unpack_word(journal, SHORT_WORDS + *index);
    default:
        return 0;
    }
}

/* The next entry of the block that is not known yet. A block that has other codes than entries is damaged. */
static enum journal_found read_packed(struct journal_reader *journal, uint8_t **entry, size_t *length)
{
    uint64_t index;
    do {
        *length = unpack(journal);
        index = journal->index++;
        journal->left--;
    } while (*length > 0 && index < journal->next && journal->left > 0);
    *entry = journal->entry;
    bool is_whole = *length > 0 && (journal->left > 0 || journal->at == journal->after);
    point_at(journal, journal->position);
    if (!is_whole)
        found(journal, JOURNAL_DAMAGED, 0, journal->whole);
    if (!is_whole || journal->left == 0)
        drop_block(journal);
    if (!is_whole)
        return JOURNAL_DAMAGED;
    journal->next = index + 1;
    return found(journal, JOURNAL_ENTRY, index, 0);
}

/* ---- the calls */

bool begin_reading(struct journal_reader *journal)
{
    size_t parts = 0;
    while (journal->part[parts] != NULL)
        parts++;
    journal->first_part = journal->part;
    journal->begins = (uint64_t *)calloc(parts + 1, sizeof *journal->begins);
    if (journal->begins == NULL)
        return false;
    journal->version = 2;
    if (available(journal, PARAMETERS) >= PARAMETERS && error_control(journal->held + journal->start, PARAMETERS) == 0) {
        journal->version = 1;
        take_parameters(journal, journal->held + journal->start);
        drop(journal, PARAMETERS);
        return true;
    }
    if (!find_block(journal))
        return false;
    const uint8_t *head = journal->held + journal->start;
    journal->flight = number_at(head + 18, 8);
    journal->with = parameters_of(head);
    return true;
}

enum journal_found read_journal(struct journal_reader *journal, uint8_t **entry, size_t *length)
{
    if (journal->is_unreadable) {
        journal->is_unreadable = false;
        journal->octet = 0;
        return found(journal, JOURNAL_UNREADABLE, 0, 0);
    }
    if (journal->has_no_memory || journal->begins == NULL)
        return JOURNAL_NO_MEMORY;
    if (journal->version == 1)
        return read_record(journal, entry, length);
    if (journal->left == 0)
        find_block(journal);
    if (journal->is_unreadable || journal->has_no_memory)
        return read_journal(journal, entry, length);
    if (journal->junk > 0) {
        uint64_t octets = journal->junk, begin = journal->position - octets;
        bool is_cut = !journal->has_block && journal->cut == begin + 1;
        journal->junk = journal->cut = 0;
        point_at(journal, begin);
        return found(journal, is_cut ? JOURNAL_CUT : JOURNAL_DAMAGED, 0, octets);
    }
    journal->cut = 0;
    if (!journal->has_block)
        return JOURNAL_END;
    if (!journal->is_judged) {
        enum journal_found what = judge_block(journal);
        if (what != JOURNAL_ENTRY)
            return what;
    }
    return read_packed(journal, entry, length);
}

void end_reading(struct journal_reader *journal)
{
    if (journal->file != NULL)
        fclose(journal->file);
    free(journal->held);
    free(journal->begins);
    journal->file = NULL;
    journal->held = NULL;
    journal->begins = NULL;
    journal->room = journal->start = journal->filled = 0;
}
