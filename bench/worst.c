/* Makes the calls of a plan, and prints what each one took: for the script `worst`, on x86-64 Linux and on a bare aarch64.
 *
 * A call is made on a stack of its own, and the heap and memory functions that it calls have another one, so what is counted is
 * the library's alone. `counted` and the functions `outside_..` are in worst_x86_64.S and worst_aarch64.S; the library is linked
 * with its calls of `memcpy` and the others renamed to those. A line for each call that the plan marks:
 *
 *   status instructions stack copied calls-of-memory calls-of-the-heap number
 *
 * `instructions` is 0 if the processor does not count them (callgrind does, for x86-64). `number` is how many
 * reports a drain made, or of how many octets an entry is. */
#include "ocp_engine.h"

#define memcpy heap_memcpy
#define rattle_alloc fixed_alloc
#define rattle_realloc fixed_realloc
#define rattle_dealloc fixed_dealloc
#include "heap.c"
#undef memcpy

#ifdef BARE
#include "board.h"
#else
#include <unistd.h>
#endif

enum { STACK = 16384 / sizeof(uint64_t) };

static const uint64_t PATTERN = 0xa5a5a5a5a5a5a5a5;

/* What one call asks of the functions outside of the library. */
static struct {
    size_t copied, calls, heap_calls;
} outside;

/* The outside functions' stack lies below that of the call. */
_Alignas(16) uint64_t stacks[2 * STACK];

/* Calls words[0] with the arguments words[1] to words[7]: the status is words[0] then, and it gives the instructions between. */
uint64_t counted(uint64_t *words);

/* The same on the stack of the program, with nothing counted. */
static uint64_t uncounted(uint64_t *words)
{
    typedef uint32_t call(uint64_t, uint64_t, uint64_t, uint64_t, uint64_t, uint64_t, uint64_t);
    call *called = (call *)(uintptr_t)words[0];
    words[0] = called(words[1], words[2], words[3], words[4], words[5], words[6], words[7]);
    return 0;
}

/* ---- what the library calls */

/* What is copied at once. These functions are not counted, but callgrind takes long for each of their instructions. A bare board
 * may refuse a word at an odd place. */
#ifdef BARE
typedef uint8_t piece;
#else
typedef uint64_t __attribute__((aligned(1), may_alias)) piece;
#endif

void *heap_memcpy(void *to, const void *from, size_t octets)
{
    size_t at = 0;
    for (; at + sizeof(piece) <= octets; at += sizeof(piece))
        *(piece *)((uint8_t *)to + at) = *(const piece *)((const uint8_t *)from + at);
    for (; at < octets; at++)
        ((uint8_t *)to)[at] = ((const uint8_t *)from)[at];
    return to;
}

void *own_memcpy(void *to, const void *from, size_t octets)
{
    outside.calls++;
    outside.copied += octets;
    return heap_memcpy(to, from, octets);
}

void *own_memmove(void *to, const void *from, size_t octets)
{
    outside.calls++;
    outside.copied += octets;
    if ((uint8_t *)to <= (const uint8_t *)from)
        return heap_memcpy(to, from, octets);
    while (octets-- > 0)
        ((uint8_t *)to)[octets] = ((const uint8_t *)from)[octets];
    return to;
}

void *own_memset(void *to, int octet, size_t octets)
{
    outside.calls++;
    outside.copied += octets;
    size_t at = 0;
    for (; at + sizeof(piece) <= octets; at += sizeof(piece))
        *(piece *)((uint8_t *)to + at) = (piece)((uint8_t)octet * UINT64_C(0x0101010101010101));
    for (; at < octets; at++)
        ((uint8_t *)to)[at] = (uint8_t)octet;
    return to;
}

struct fixed_heap_answer own_alloc(size_t octets, size_t align)
{
    outside.heap_calls++;
    return fixed_alloc(octets, align);
}

struct fixed_heap_answer own_realloc(void *piece, size_t kept, size_t octets, size_t align)
{
    outside.heap_calls++;
    return fixed_realloc(piece, kept, octets, align);
}

void own_dealloc(void *piece)
{
    outside.heap_calls++;
    fixed_dealloc(piece);
}

/* ---- what is printed */

static void say(const char *text, size_t length)
{
#ifdef BARE
    uart_send((const uint8_t *)text, length);
#else
    while (length > 0) {
        ssize_t sent = write(STDOUT_FILENO, text, length);
        if (sent < 0)
            _exit(1);
        text += sent;
        length -= (size_t)sent;
    }
#endif
}

static char line[512];
static size_t length;

static void put_number(uint64_t number)
{
    char digits[20];
    size_t count = 0;
    do {
        digits[count++] = (char)('0' + number % 10);
        number /= 10;
    } while (number > 0);
    while (count > 0)
        line[length++] = digits[--count];
    line[length++] = ' ';
}

static void end_line(void)
{
    line[length - 1] = '\n';
    say(line, length);
    length = 0;
}

/* ---- the plan */

/* A call of the plan: which one, whether it is marked, the status that has to come, the numbers, and the octets of a packet. */
struct step {
    uint8_t call, marked, status, unused[5];
    uint64_t a, b, c, d, e;
    uint64_t octets; /* that follow, and then none to seven more */
};

enum { END, OPEN, CLOSE, REQUEST, DRAIN, SLICE, STEP, NEXT, SET_BREAK, CLEAR_BREAK, TRACE, MEMORY, VIEW, POOL_WORD, EVENTS, ROOM,
       ENTRY, NOTHING, PUT_WORD, ROUND, FIRST_ENTRY, RELEASE, TRACE_RECORD, VERSION, SIZE, MAKE_ROOM };

enum { ANY = 255 }; /* in place of a status: each is right */

extern const uint8_t plan[];

static struct ocp_engine engine = OCP_CLOSED;
static uint8_t reports[OCP_DRAIN_REPORTS], octets[OCP_LONGEST_ENTRY];
static size_t written;
static uint64_t registers[11], wide, other;
static struct ocp_trace_record record;
static struct ocp_outcome outcome;
static struct ocp_view view;
static uint32_t count;
static uint32_t ended; /* the step that ended a round */
static uint16_t id;

void nothing(void);
void copies_nothing(void);

#define WORD(value) ((uint64_t)(uintptr_t)(value))

/* The words of a step's call. */
static void words_of(const struct step *step, uint64_t *words)
{
    const uint64_t own = WORD(&engine);
    const uint64_t all[][8] = {
        [OPEN] = {WORD(ocp_open), own, step->a, step->b, step->c, step->d, step->e},
        [CLOSE] = {WORD(ocp_close), own},
        [REQUEST] = {WORD(ocp_request), own, step->a, WORD(step + 1), step->octets, WORD(reports), sizeof reports, WORD(&written)},
        [DRAIN] = {WORD(ocp_drain), own, step->a, WORD(reports), sizeof reports, WORD(&written)},
        [SLICE] = {WORD(ocp_slice), own, step->a, step->b, WORD(&count), WORD(&outcome)},
        [STEP] = {WORD(ocp_step), own, step->a, WORD(&outcome)},
        [NEXT] = {WORD(ocp_next_running), own, step->a, WORD(&id)},
        [SET_BREAK] = {WORD(ocp_set_break), own, step->a, step->b},
        [CLEAR_BREAK] = {WORD(ocp_clear_break), own, step->a, step->b},
        [TRACE] = {WORD(ocp_trace), own, step->a, step->b},
        [MEMORY] = {WORD(ocp_memory), own, step->a, step->b, WORD(octets), step->c},
        [VIEW] = {WORD(ocp_view), own, step->a, WORD(&view), WORD(registers), 11},
        [POOL_WORD] = {WORD(ocp_pool_word), own, step->a, WORD(&wide)},
        [EVENTS] = {WORD(ocp_events), own, WORD(&wide)},
        [ROOM] = {WORD(ocp_room), own, WORD(&wide), WORD(&other)},
        [FIRST_ENTRY] = {WORD(ocp_first_entry), own, WORD(&wide)},
        [RELEASE] = {WORD(ocp_release), own, step->a},
        [TRACE_RECORD] = {WORD(ocp_trace_record), own, step->a, WORD(&record), WORD(registers), 11},
        [VERSION] = {WORD(ocp_version)},
        [SIZE] = {WORD(ocp_size), step->a, step->b, step->c, step->d},
        [ENTRY] = {WORD(ocp_entry), own, step->a, WORD(octets), sizeof octets, WORD(&written)},
        [PUT_WORD] = {WORD(ocp_put_word), own, step->a, step->b},
        [ROUND] = {WORD(ocp_round), own, step->a, step->b, WORD(&count), WORD(&outcome), WORD(&ended)},
        /* A further call of the header has its row here, its number in the enumeration and in `CALLS` of the script. */
        [NOTHING] = {step->a == 0 ? WORD(nothing) : WORD(copies_nothing)},
    };
    for (int at = 0; at < 8; at++)
        words[at] = all[step->call][at];
}

/* Releases entries until there is room for one more of this length, if there is ever. */
static void make_room(uint64_t wanted)
{
    while (ocp_room(&engine, &wide, &other) == OCP_DONE && (wide == 0 || other < wanted) && ocp_release(&engine, 1) == OCP_DONE)
        ;
}

/* How many packets a buffer has. */
static uint64_t packets_in(const uint8_t *packets, size_t length)
{
    uint64_t number = 0;
    for (size_t at = 0; at < length; number++)
        at += 7 + 256 * packets[at + 4] + packets[at + 5];
    return number;
}

static uint64_t number_of(const struct step *step)
{
    return step->call == DRAIN ? packets_in(reports, written) : step->call == ENTRY ? written : 0;
}

/* An entry's index is counted from the oldest that is held, if the step says so. */
static void from_the_oldest(const struct step *step, uint64_t *words)
{
    if (step->call == ENTRY && step->b == 1 && ocp_first_entry(&engine, &wide) == OCP_DONE)
        words[2] += wide;
}

static bool make(const struct step *step)
{
    uint64_t words[8];
    if (step->call == MAKE_ROOM) {
        make_room(step->a);
        return true;
    }
    words_of(step, words);
    from_the_oldest(step, words);
    outside.copied = outside.calls = outside.heap_calls = 0;
    uint64_t instructions = step->marked ? counted(words) : uncounted(words);
    uint32_t status = (uint32_t)words[0];
    if (step->marked) {
        size_t untouched = 0;
        while (stacks[STACK + untouched] == PATTERN)
            untouched++;
        for (size_t at = untouched; at < STACK; at++)
            stacks[STACK + at] = PATTERN;
        const uint64_t said[] = {status, instructions, (STACK - untouched) * sizeof *stacks, outside.copied, outside.calls,
                                 outside.heap_calls, status == OCP_DONE ? number_of(step) : 0};
        for (size_t at = 0; at < sizeof said / sizeof *said; at++)
            put_number(said[at]);
        end_line();
    }
    return step->call == NOTHING || step->status == ANY || status == step->status;
}

int main(void)
{
#ifdef BARE
    uart_begin();
#endif
    for (size_t at = 0; at < STACK; at++)
        stacks[STACK + at] = PATTERN;
    const struct step *step = (const struct step *)plan;
    for (uint64_t number = 0; step->call != END; number++) {
        if (!make(step)) {
            static const char refused[] = "refused ";
            for (size_t at = 0; at < sizeof refused - 1; at++)
                line[length++] = refused[at];
            put_number(number);
            end_line();
            break;
        }
        step = (const struct step *)((const uint8_t *)(step + 1) + (step->octets + 7) / 8 * 8);
    }
    say("end\n", 4);
#ifdef BARE
    switch_off();
#endif
    return 0;
}
