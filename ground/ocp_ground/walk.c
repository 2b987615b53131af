/* Blocks and walks: `walk.h` says what they are. */
#define _GNU_SOURCE
#include "walk.h"

#include "ocp_heap.h"

#include <string.h>
#include <sys/mman.h>

/* ---- the block: the library takes memory in ocp_open alone */

static _Thread_local struct walk_block *opening;
static uint8_t nothing[16];

struct fixed_heap_answer rattle_alloc(size_t octets, size_t align)
{
    struct walk_block *block = opening;
    if (block == NULL || align > 16 || octets > block->size - block->in_use)
        return (struct fixed_heap_answer){false, nothing};
    void *piece = block->octets + block->in_use;
    block->in_use += (octets + 15) / 16 * 16;
    return (struct fixed_heap_answer){true, piece};
}

struct fixed_heap_answer rattle_realloc(void *piece, size_t kept, size_t octets, size_t align)
{
    struct fixed_heap_answer more = rattle_alloc(octets, align);
    if (more.ok)
        memcpy(more.piece, piece, kept < octets ? kept : octets);
    return more;
}

void rattle_dealloc(void *piece)
{
    (void)piece; /* the block is given back whole */
}

static void give_back(struct walk_block *block)
{
    if (block->octets != NULL)
        munmap(block->octets, block->size);
    memset(block, 0, sizeof *block);
}

uint32_t walk_open(struct walk_block *block, uint32_t profile, uint32_t apid, uint32_t pool_words, uint32_t entries, uint32_t octets)
{
    size_t size = ocp_size(profile, pool_words, entries, octets);
    memset(block, 0, sizeof *block);
    if (size != 0) {
        void *at = mmap(NULL, size, PROT_READ | PROT_WRITE, MAP_PRIVATE | MAP_ANONYMOUS, -1, 0);
        if (at == MAP_FAILED)
            return OCP_MEMORY;
        block->octets = at;
        block->size = size;
    }
    opening = block;
    uint32_t status = ocp_open(&block->engine, profile, apid, pool_words, entries, octets);
    opening = NULL;
    if (status != OCP_DONE)
        give_back(block);
    return status;
}

uint32_t walk_close(struct walk_block *block)
{
    uint32_t status = ocp_close(&block->engine);
    if (status == OCP_DONE)
        give_back(block);
    return status;
}

/* ---- snapshots */

enum { PAGE = 512, NUMBER = 4 };

static size_t page_length(const struct walk_block *block, size_t at)
{
    return block->in_use - at < PAGE ? block->in_use - at : PAGE;
}

static bool is_zero(const uint8_t *octets, size_t length)
{
    static const uint8_t zeros[PAGE];
    return memcmp(octets, zeros, length) == 0;
}

size_t walk_save(const struct walk_block *block, uint8_t *snapshot, size_t room)
{
    size_t used = 0;
    for (size_t at = 0; at < block->in_use; at += PAGE) {
        size_t length = page_length(block, at);
        if (is_zero(block->octets + at, length))
            continue;
        if (room - used < NUMBER + length)
            return 0;
        put_number(snapshot + used, at / PAGE, NUMBER);
        memcpy(snapshot + used + NUMBER, block->octets + at, length);
        used += NUMBER + length;
    }
    return used;
}

void walk_restore(struct walk_block *block, const uint8_t *snapshot, size_t length)
{
    size_t used = 0;
    for (size_t at = 0; at < block->in_use; at += PAGE) {
        size_t here = page_length(block, at);
        if (used < length && number_at(snapshot + used, NUMBER) == at / PAGE) {
            memcpy(block->octets + at, snapshot + used + NUMBER, here);
            used += NUMBER + here;
        } else if (!is_zero(block->octets + at, here)) {
            memset(block->octets + at, 0, here);
        }
    }
}

/* ---- entries */

enum { RECORD_LENGTH = 4, RECORD_CONTROL = 2, STEPS_ENTRY = 9, WORD_ENTRY = 13, LONGEST_NUMBER = 10 };

/* Takes octets that lie before `end`, or gives a null. */
static const uint8_t *take(const struct walk_stretch *stretch, struct walk_place *place, uint64_t end, uint64_t count)
{
    if (end > stretch->length || place->at > end || count > end - place->at)
        return NULL;
    place->at += count;
    return stretch->octets + place->at - count;
}

/* Takes the record at a place. Gives its entry's length, 0 if there is none. */
static size_t take_record(const struct walk_stretch *stretch, struct walk_place *place, const uint8_t **entry)
{
    const uint8_t *head = take(stretch, place, stretch->length, RECORD_LENGTH);
    uint64_t length = head == NULL ? 0 : number_at(head, RECORD_LENGTH);
    *entry = length < SHORTEST_ENTRY || length > OCP_LONGEST_ENTRY ? NULL : take(stretch, place, stretch->length, length);
    return *entry == NULL || take(stretch, place, stretch->length, RECORD_CONTROL) == NULL ? 0 : (size_t)length;
}

static bool begin_block(const struct walk_stretch *stretch, struct walk_place *place)
{
    const uint8_t *head = take(stretch, place, stretch->length, JOURNAL_HEAD);
    if (head == NULL)
        return false;
    place->left = number_at(head + 34, 4);
    place->codes = place->at + number_at(head + 38, 4);
    memset(&place->packing, 0, sizeof place->packing);
    return place->left > 0;
}

static bool take_number(const struct walk_stretch *stretch, struct walk_place *place, uint64_t *number)
{
    *number = 0;
    for (int at = 0; at < LONGEST_NUMBER; at++) {
        const uint8_t *octet = take(stretch, place, place->codes, 1);
        if (octet == NULL)
            return false;
        *number |= (uint64_t)(*octet & 0x7f) << 7 * at;
        if (*octet < 0x80)
            return true;
    }
    return false;
}

/* Writes an entry with a short code, and gives its length. */
static size_t put_entry(uint8_t *entry, uint8_t kind, uint64_t id, uint64_t number, size_t length)
{
    memset(entry, 0, length);
    entry[0] = kind;
    put_number(entry + ENTRY_FIELDS, id, 2);
    put_number(entry + ENTRY_FIELDS + 2, number, (int)length - ENTRY_FIELDS - 2);
    return length;
}

/* Takes the rest of a code: the change of a word. */
static size_t take_word(const struct walk_stretch *stretch, struct walk_place *place, uint32_t index, uint8_t *entry)
{
    uint64_t change;
    if (!take_number(stretch, place, &change))
        return 0;
    place->packing.words[index] += change & 1 ? ~(change >> 1) : change >> 1;
    return put_entry(entry, OCP_ENTRY_PUT_WORD, index, place->packing.words[index], WORD_ENTRY);
}

/* Takes the rest of a code: how many instructions of a procedure in the list. */
static size_t take_steps(const struct walk_stretch *stretch, struct walk_place *place, uint32_t listed, bool has_count, uint8_t *entry)
{
    uint64_t count = 0;
    if (listed >= place->packing.listed || (has_count && (!take_number(stretch, place, &count) || count > UINT32_MAX)))
        return 0;
    if (has_count)
        place->packing.counts[listed] = (uint32_t)count;
    return put_entry(entry, OCP_ENTRY_STEPS, place->packing.ids[listed], place->packing.counts[listed], STEPS_ENTRY);
}

/* Takes a code; its entry is written to `made`, if it has a short one. Gives the entry's length, 0 if there is no such code. */
static size_t take_code(const struct walk_stretch *stretch, struct walk_place *place, uint8_t *made, const uint8_t **entry)
{
    struct journal_packing *packing = &place->packing;
    const uint8_t *code = take(stretch, place, place->codes, 1), *more;
    uint64_t length;
    *entry = made;
    if (code == NULL)
        return 0;
    if (*code < 0x40)
        return take_word(stretch, place, *code, made);
    if (*code < 0x80)
        return take_steps(stretch, place, *code & 31, *code >= 0x60, made);
    switch (*code) {
    case 0x80:
        more = take(stretch, place, place->codes, 2);
        if (more == NULL || packing->listed == LISTED_PROCEDURES)
            return 0;
        packing->ids[packing->listed++] = (uint16_t)number_at(more, 2);
        return take_steps(stretch, place, packing->listed - 1, true, made);
    case 0x81:
        if (!take_number(stretch, place, &length) || length < SHORTEST_ENTRY || length > OCP_LONGEST_ENTRY)
            return 0;
        *entry = take(stretch, place, place->codes, length);
        return *entry == NULL ? 0 : (size_t)length;
    case 0x82:
        more = take(stretch, place, place->codes, 1);
        return more == NULL ? 0 : take_word(stretch, place, SHORT_WORDS + *more, made);
    default:
        return 0;
    }
}

/* Takes the next entry of the stretch, and gives its length: 0 if there is none. */
static size_t take_entry(const struct walk_stretch *stretch, struct walk_place *place, uint8_t *made, const uint8_t **entry)
{
    if (stretch->version == 1)
        return take_record(stretch, place, entry);
    if (place->codes == 0 && !begin_block(stretch, place))
        return 0;
    size_t length = take_code(stretch, place, made, entry);
    if (length > 0 && --place->left == 0) {
        if (place->at != place->codes || take(stretch, place, stretch->length, JOURNAL_CHECK) == NULL)
            return 0;
        place->codes = 0;
    }
    return length;
}

/* ---- what is looked at */

static struct walk_table *table_of(const struct walk_look *look, uint32_t id)
{
    for (uint32_t at = 0; at < look->table_count; at++)
        if (look->tables[at].id == id)
            return &look->tables[at];
    return NULL;
}

static void note(struct walk_look *look, struct walk_hit hit)
{
    if (look->count < look->room)
        look->hits[look->count++] = hit;
}

/* Whether the hits of one event more may find no room. */
static bool is_full(const struct walk_look *look)
{
    return look->room > 0 && look->room - look->count < WALK_MOST_HITS;
}

static void note_write(struct walk_look *look, struct walk_hit hit)
{
    uint8_t watch = hit.word < WALK_POOL ? look->watch[hit.word] : 0;
    hit.reason = WALK_WRITE;
    if (watch == WALK_EACH || (watch == WALK_CHANGES && hit.before != hit.after))
        note(look, hit);
}

static void note_status(struct ocp_engine *engine, struct walk_look *look, struct walk_table *table, uint64_t event)
{
    struct ocp_view view;
    uint64_t registers[11];
    if (table == NULL || ocp_view(engine, (uint16_t)table->id, &view, registers, 11) != OCP_DONE || view.status == table->status)
        return;
    note(look, (struct walk_hit){event, view.fault, table->status, view.status, WALK_STATUS, table->id, view.place, view.cause});
    table->status = view.status;
}

enum { POOL_GET = 1, POOL_SET = 2, POOL_ADD = 3, NEXT_PARAM = 4, STEP_END = 5, POOL_COMPARE_SET = 6, BUDGET_SPENT = 5 };

/* What an engine call did: `at` are the registers before it, `word` was the pool word of its index. */
static void note_call(struct ocp_engine *engine, struct walk_look *look, struct walk_hit hit, const uint64_t *at, uint64_t word)
{
    struct ocp_view view;
    uint64_t registers[11];
    hit.word = at[1];
    hit.before = word;
    bool is_write = hit.kind == POOL_SET || hit.kind == POOL_ADD || (hit.kind == POOL_COMPARE_SET && word == at[2]);
    if (look->inputs_of == hit.id && hit.kind == NEXT_PARAM && ocp_view(engine, (uint16_t)hit.id, &view, registers, 11) == OCP_DONE) {
        hit.reason = WALK_TAKEN;
        note(look, (struct walk_hit){hit.event, 0, registers[0], registers[1], WALK_TAKEN, hit.id, hit.slot, hit.kind});
    } else if (look->inputs_of == hit.id) {
        hit.reason = hit.kind == STEP_END ? WALK_STEP : WALK_READ;
        note(look, hit);
    }
    if (is_write && ocp_pool_word(engine, hit.word, &hit.after) == OCP_DONE)
        note_write(look, hit);
}

/* Executes one instruction with a look at it, and gives whether the engine did. */
static bool look_at(struct ocp_engine *engine, uint16_t id, uint64_t event, struct walk_look *look)
{
    struct walk_table *table = table_of(look, id);
    struct ocp_view view, next;
    struct ocp_outcome what;
    uint64_t at[11], after[11], word = 0;
    if (ocp_view(engine, id, &view, at, 11) != OCP_DONE || view.place >= WALK_SLOTS)
        return false;
    struct walk_hit hit = {.event = event, .id = id, .slot = view.place, .kind = table ? table->call[view.place] : 0};
    bool has_word = hit.kind != 0 && ocp_pool_word(engine, at[1], &word) == OCP_DONE;
    if (ocp_step(engine, id, &what) != OCP_DONE)
        return false;
    if (what.kind == OCP_CALLED && (has_word || hit.kind == NEXT_PARAM || hit.kind == STEP_END))
        note_call(engine, look, hit, at, word);
    bool is_done = what.kind != OCP_BROKE && (what.kind != OCP_FAULTED || what.fault != BUDGET_SPENT);
    if (look->counts && table && is_done) {
        table->ran[view.place]++;
        if (ocp_view(engine, id, &next, after, 11) == OCP_DONE)
            table->taken[view.place] += next.place != view.place + 1;
    }
    if (look->statuses && what.kind != OCP_RAN)
        note_status(engine, look, table, event);
    return true;
}

static bool looks_at_each(const struct walk_look *look)
{
    static const uint8_t none[WALK_POOL];
    return look->counts || look->inputs_of != WALK_OUTSIDE || memcmp(look->watch, none, sizeof none) != 0;
}

/* ---- the walk */

/* Executes instructions of the last entry, at most up to an event. */
static uint32_t do_steps(struct ocp_engine *engine, struct walk_place *place, uint64_t until, struct walk_look *look, bool each)
{
    uint16_t id = (uint16_t)place->steps_id;
    while (place->steps_left > 0 && place->event < until) {
        uint64_t count = each ? 1 : until - place->event < place->steps_left ? until - place->event : place->steps_left;
        if (is_full(look))
            return WALK_FULL;
        if (!(each ? look_at(engine, id, place->event, look) : give_steps(engine, id, (uint32_t)count)) ||
            ocp_release(engine, 1) != OCP_DONE)
            return WALK_DIFFERS;
        place->steps_left -= (uint32_t)count;
        place->event += count;
        if (look->statuses && !each)
            note_status(engine, look, table_of(look, id), place->event - 1);
    }
    return WALK_REACHED;
}

static bool is_load(const uint8_t *packet, size_t length)
{
    return length > 8 && packet[7] == 18 && (packet[8] == 1 || packet[8] == 2);
}

/* Gives an entry that is one event to the engine. */
static uint32_t do_entry(struct ocp_engine *engine, struct walk_place *place, const uint8_t *entry, size_t length, struct walk_look *look)
{
    const uint8_t *fields = entry + ENTRY_FIELDS;
    bool is_request = entry[0] == OCP_ENTRY_REQUEST, has_time = is_request || entry[0] == OCP_ENTRY_DRAIN;
    struct walk_hit hit = {.event = place->event, .word = number_at(fields, 2), .id = WALK_OUTSIDE};
    if (entry[0] == OCP_ENTRY_PUT_WORD)
        ocp_pool_word(engine, hit.word, &hit.before);
    size_t written;
    if (!give_entry(engine, entry, length, look->reports, &written) || ocp_release(engine, 1) != OCP_DONE)
        return WALK_DIFFERS;
    place->event++;
    if (entry[0] == OCP_ENTRY_PUT_WORD && ocp_pool_word(engine, hit.word, &hit.after) == OCP_DONE)
        note_write(look, hit);
    if (look->statuses && has_time)
        for (uint32_t at = 0; at < look->table_count; at++)
            note_status(engine, look, &look->tables[at], hit.event);
    if (!has_time)
        return WALK_REACHED;
    place->time = (uint32_t)number_at(fields, 4);
    look->packet = fields + 4;
    look->packet_length = length - SHORTEST_ENTRY;
    look->written = written;
    bool ends = look->stop_after == WALK_REPORTS || (look->stop_after == WALK_LOADS && is_request && is_load(look->packet, length - SHORTEST_ENTRY));
    return ends ? WALK_STOPPED : WALK_REACHED;
}

uint32_t walk(struct walk_block *block, const struct walk_stretch *stretch, struct walk_place *place, uint64_t until,
              struct walk_look *look)
{
    struct ocp_engine *engine = &block->engine;
    bool each = looks_at_each(look);
    uint8_t made[WORD_ENTRY];
    uint32_t answer = WALK_REACHED;
    while (answer == WALK_REACHED && place->event < until) {
        if (place->steps_left > 0) {
            answer = do_steps(engine, place, until, look, each);
            continue;
        }
        if (is_full(look))
            return WALK_FULL;
        if (place->at == stretch->length && place->codes == 0)
            return WALK_END;
        uint64_t begin = place->at;
        const uint8_t *entry;
        size_t length = take_entry(stretch, place, made, &entry);
        if (length == 0) {
            place->at = begin;
            return WALK_DAMAGED;
        }
        if (place->known > 0) {
            place->known--;
            continue;
        }
        place->entry++;
        if (entry[0] == OCP_ENTRY_STEPS && length == STEPS_ENTRY && number_at(entry + ENTRY_FIELDS + 2, 4) > 0) {
            place->steps_id = (uint32_t)number_at(entry + ENTRY_FIELDS, 2);
            place->steps_left = (uint32_t)number_at(entry + ENTRY_FIELDS + 2, 4);
        } else {
            answer = do_entry(engine, place, entry, length, look);
            if (answer == WALK_DIFFERS)
                place->at = begin;
        }
    }
    return answer;
}
