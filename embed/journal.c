/* Writes a journal to a file, block by block; `ocp_journal.h` has the form and the calls. */
#define _POSIX_C_SOURCE 200809L
#include "ocp_journal.h"

#include <errno.h>
#include <fcntl.h>
#include <string.h>
#include <sys/types.h>
#include <unistd.h>

enum { STEPS_ENTRY = 9, WORD_ENTRY = 13, MOST_NUMBER = 10 /* octets of a number in a code */ };

/* ---- octets out: those of a block go through the buffer, and its check goes along */

/* Writes all octets, of which a call may write a part, or be interrupted. */
static bool write_all(int file, const uint8_t *octets, size_t length)
{
    while (length > 0) {
        ssize_t written = write(file, octets, length);
        if (written < 0 && errno == EINTR)
            continue;
        if (written <= 0)
            return false;
        octets += written;
        length -= (size_t)written;
    }
    return true;
}

static bool flush(struct journal_writer *writer)
{
    size_t used = writer->used;
    writer->used = 0;
    return write_all(writer->file, writer->output, used);
}

static bool put_octets(struct journal_writer *writer, const uint8_t *octets, size_t length)
{
    writer->check = crc_32(writer->check, octets, length);
    if (length > sizeof writer->output - writer->used && !flush(writer))
        return false;
    if (length > sizeof writer->output)
        return write_all(writer->file, octets, length);
    memcpy(writer->output + writer->used, octets, length);
    writer->used += length;
    return true;
}

/* ---- packing */

/* The octets of an entry's code, and those of the entry itself that follow it, if it is not a short one. */
struct code {
    uint8_t octets[MOST_NUMBER + 4];
    size_t length, plain;
};

static void add_number(struct code *code, uint64_t number)
{
    for (; number > 0x7f; number >>= 7)
        code->octets[code->length++] = (uint8_t)(0x80 | number);
    code->octets[code->length++] = (uint8_t)number;
}

static struct code code_of_word(struct journal_packing *packing, uint16_t index, uint64_t value)
{
    struct code code = {.length = 0};
    uint64_t change = value - packing->words[index];
    packing->words[index] = value;
    code.octets[code.length++] = (uint8_t)(index < SHORT_WORDS ? index : 0x82);
    if (index >= SHORT_WORDS)
        code.octets[code.length++] = (uint8_t)(index - SHORT_WORDS);
    add_number(&code, change >> 63 ? ~(change << 1) : change << 1);
    return code;
}

/* The number of a procedure in the list, which is that of the next one if it is not there. */
static uint32_t listed_at(const struct journal_packing *packing, uint16_t id)
{
    uint32_t at = 0;
    while (at < packing->listed && packing->ids[at] != id)
        at++;
    return at;
}

static struct code code_of_steps(struct journal_packing *packing, uint32_t at, uint16_t id, uint32_t count)
{
    struct code code = {.length = 0};
    if (at == packing->listed) {
        packing->ids[packing->listed++] = id;
        code.octets[code.length++] = 0x80;
        put_number(code.octets + code.length, id, 2);
        code.length += 2;
        add_number(&code, count);
    } else if (packing->counts[at] == count) {
        code.octets[code.length++] = (uint8_t)(0x40 | at);
    } else {
        code.octets[code.length++] = (uint8_t)(0x60 | at);
        add_number(&code, count);
    }
    packing->counts[at] = count;
    return code;
}

static struct code code_of_any(size_t length)
{
    struct code code = {.octets = {0x81}, .length = 1, .plain = length};
    add_number(&code, length);
    return code;
}

static struct code code_of(struct journal_packing *packing, const uint8_t *entry, size_t length)
{
    const uint8_t *fields = entry + ENTRY_FIELDS;
    bool is_short = length >= ENTRY_FIELDS && number_at(entry + 1, 2) == 0;
    if (is_short && entry[0] == OCP_ENTRY_PUT_WORD && length == WORD_ENTRY && number_at(fields, 2) < PACKED_WORDS)
        return code_of_word(packing, (uint16_t)number_at(fields, 2), number_at(fields + 2, 8));
    if (is_short && entry[0] == OCP_ENTRY_STEPS && length == STEPS_ENTRY) {
        uint16_t id = (uint16_t)number_at(fields, 2);
        uint32_t at = listed_at(packing, id);
        if (at < LISTED_PROCEDURES)
            return code_of_steps(packing, at, id, (uint32_t)number_at(fields + 2, 4));
    }
    return code_of_any(length);
}

/* Packs the entries from an index on, writes them if that is wanted, and gives their number by `count`, and by `octets` the
 * length of what they are packed into. */
static bool pack_entries(struct journal_writer *writer, struct ocp_engine *engine, bool writes, uint32_t *count, uint32_t *octets)
{
    size_t length;
    memset(&writer->packing, 0, sizeof writer->packing);
    *count = *octets = 0;
    while (ocp_entry(engine, writer->next + *count, writer->entry, sizeof writer->entry, &length) == OCP_DONE) {
        struct code code = code_of(&writer->packing, writer->entry, length);
        if (writes && !(put_octets(writer, code.octets, code.length) && put_octets(writer, writer->entry, code.plain)))
            return false;
        *octets += (uint32_t)(code.length + code.plain);
        ++*count;
    }
    return true;
}

/* ---- blocks */

static void put_head(uint8_t *head, const struct journal_writer *writer, uint32_t count, uint32_t octets)
{
    memcpy(head, "OCPJ", 4);
    head[4] = 2;
    put_number(head + 5, writer->with.profile, 1);
    put_number(head + 6, writer->with.apid, 2);
    put_number(head + 8, writer->with.pool_words, 2);
    put_number(head + 10, writer->with.entries, 4);
    put_number(head + 14, writer->with.octets, 4);
    put_number(head + 18, writer->flight, 8);
    put_number(head + 26, writer->next, 8);
    put_number(head + 34, count, 4);
    put_number(head + 38, octets, 4);
    put_number(head + 42, error_control(head, 42), 2);
}

/* Cuts the file back to its last whole block, if there is something after it. */
static bool cut_back(struct journal_writer *writer)
{
    if (writer->is_torn)
        writer->is_torn = ftruncate(writer->file, (off_t)writer->end) != 0 || lseek(writer->file, (off_t)writer->end, SEEK_SET) < 0;
    return !writer->is_torn;
}

/* Writes a block of these entries, whose octets were counted before. */
static bool write_block(struct journal_writer *writer, struct ocp_engine *engine, uint32_t count, uint32_t octets)
{
    uint8_t head[JOURNAL_HEAD], check[JOURNAL_CHECK];
    uint32_t packed, length;
    put_head(head, writer, count, octets);
    writer->used = 0;
    writer->check = 0;
    if (!put_octets(writer, head, sizeof head) || !pack_entries(writer, engine, true, &packed, &length))
        return false;
    put_number(check, writer->check, sizeof check);
    return put_octets(writer, check, sizeof check) && flush(writer);
}

/* Writes the entries that the engine holds and the file does not have. */
static bool write_entries(struct journal_writer *writer, struct ocp_engine *engine)
{
    uint32_t count, octets;
    pack_entries(writer, engine, false, &count, &octets);
    if (count == 0)
        return true;
    if (!cut_back(writer))
        return false;
    if (!write_block(writer, engine, count, octets)) {
        writer->is_torn = true;
        cut_back(writer);
        return false;
    }
    writer->end += JOURNAL_HEAD + (int64_t)octets + JOURNAL_CHECK;
    writer->next += count;
    return true;
}

/* ---- the calls */

bool begin_journal(struct journal_writer *writer, const char *name)
{
    writer->kept = 0;
    writer->next = 0;
    writer->end = 0;
    writer->is_torn = false;
    writer->file = open(name, O_WRONLY | O_CREAT | O_TRUNC, 0666);
    return writer->file >= 0;
}

bool keep_journal_now(struct journal_writer *writer, struct ocp_engine *engine)
{
    uint64_t first, entries, octets;
    if (ocp_first_entry(engine, &first) != OCP_DONE || ocp_room(engine, &entries, &octets) != OCP_DONE)
        return false;
    uint64_t held = writer->with.entries - entries;
    if (writer->next < first) /* the program released them itself: the file says that they are missing */
        writer->next = first;
    if (writer->file >= 0 && !write_entries(writer, engine))
        return false;
    if (ocp_release(engine, held) != OCP_DONE)
        return false;
    writer->kept = 0;
    return true;
}

bool keep_journal(struct journal_writer *writer, struct ocp_engine *engine)
{
    uint64_t entries, octets;
    if (ocp_room(engine, &entries, &octets) != OCP_DONE)
        return false;
    bool has_room = entries > writer->with.entries / 4 && octets > writer->with.octets / 4;
    if (writer->kept < UINT32_MAX)
        writer->kept++;
    return (writer->kept < writer->cycles && has_room) || keep_journal_now(writer, engine);
}

bool end_journal(struct journal_writer *writer, struct ocp_engine *engine)
{
    bool is_whole = keep_journal_now(writer, engine);
    if (writer->file >= 0) {
        is_whole = close(writer->file) == 0 && is_whole;
        writer->file = -1;
    }
    return is_whole;
}
