/* Tests of heap.c over a block that is just as large as ocp_size says for one engine: pieces, refusals, and engines that
 * are opened and closed in it again and again. */
#define FIXED_HEAP_OCTETS 833248
#include "heap.c"
#include "ocp_engine.h"

#include <stdint.h>
#include <stdio.h>
#include <stdlib.h>

#define WANT(holds) ((holds) ? (void)0 : (printf("heap_test.c:%d: not so: %s\n", __LINE__, #holds), exit(1)))

/* The work regions of 16 machines are smaller under profile 1: what they leave of the block goes to the journal. */
enum { APID = 291, WORDS = 16, ENTRIES = 1000, OCTETS = 65536, LEFT = 16 * (4096 - 1024) };

/* Pieces of 0 to 99 octets begin where the one before ends, at a multiple of 16, until the block is full. */
static void pieces_in_order(void)
{
    size_t end = 0, count = 0;
    for (struct fixed_heap_answer got; (got = rattle_alloc(count % 100, (size_t)1 << count % 5)).ok; count++) {
        WANT((unsigned char *)got.piece == block + end);
        memset(got.piece, 7, count % 100);
        end += (count % 100 + 15) / 16 * 16;
        WANT(fixed_heap_in_use() == end && end <= sizeof block);
    }
    WANT(end > sizeof block - 112);
    for (; count > 0; count--) {
        WANT(fixed_heap_in_use() == end);
        rattle_dealloc(block);
    }
    WANT(fixed_heap_in_use() == 0);
}

static void refusals(void)
{
    static const size_t too_many[] = {sizeof block + 1, SIZE_MAX, SIZE_MAX - 14};
    for (int at = 0; at < 3; at++)
        WANT(!rattle_alloc(too_many[at], 16).ok && rattle_alloc(too_many[at], 16).piece != NULL);
    WANT(!rattle_alloc(16, 32).ok && fixed_heap_in_use() == 0);
    struct fixed_heap_answer whole = rattle_alloc(sizeof block - 15, 16);
    WANT(whole.ok && fixed_heap_in_use() == sizeof block && !rattle_alloc(1, 1).ok);
    memset(whole.piece, 7, sizeof block - 15);
    WANT(!rattle_realloc(whole.piece, sizeof block - 15, sizeof block, 16).ok);
    WANT(block[0] == 7 && block[sizeof block - 16] == 7 && fixed_heap_in_use() == sizeof block);
    rattle_dealloc(whole.piece);
    struct fixed_heap_answer small = rattle_alloc(5, 1);
    memcpy(small.piece, "first", 5);
    struct fixed_heap_answer larger = rattle_realloc(small.piece, 5, 100, 8);
    WANT(larger.ok && larger.piece != small.piece && memcmp(larger.piece, "first", 5) == 0);
    rattle_dealloc(larger.piece);
    WANT(fixed_heap_in_use() == 0);
}

/* An engine has just this block. One more octet of the journal, or a second engine, is refused. */
static void engines(void)
{
    struct ocp_engine one = OCP_CLOSED, other = OCP_CLOSED;
    for (int turn = 0; turn < 1000; turn++) {
        uint32_t profile = 1 + turn % 2, octets = profile == 1 ? OCTETS + LEFT : OCTETS;
        WANT(ocp_size(profile, WORDS, ENTRIES, octets) == sizeof block);
        WANT(ocp_open(&one, profile, APID, WORDS, ENTRIES, octets + 1) == OCP_MEMORY && fixed_heap_in_use() == 0);
        WANT(ocp_open(&one, profile, APID, WORDS, ENTRIES, octets) == OCP_DONE && fixed_heap_in_use() == sizeof block);
        WANT(ocp_open(&other, profile, APID, 1, 1, 1) == OCP_MEMORY && fixed_heap_in_use() == sizeof block);
        WANT(ocp_close(&one) == OCP_DONE && fixed_heap_in_use() == 0);
    }
}

int main(void)
{
    pieces_in_order();
    refusals();
    engines();
    printf("fixed heap: %zu octets\n", sizeof block);
    return 0;
}
