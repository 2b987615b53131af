/* The engine's memory from one static block, in place of liblibc_c.a: no call of malloc anywhere. See ocp_heap.h.
 *
 * The block has FIXED_HEAP_OCTETS octets, a multiple of 16: cc -DFIXED_HEAP_OCTETS=1048576 .. */
#include "ocp_heap.h"

#include <stdalign.h>
#include <string.h>

#ifndef FIXED_HEAP_OCTETS
#define FIXED_HEAP_OCTETS (16 * 1024 * 1024)
#endif

_Static_assert(FIXED_HEAP_OCTETS > 0 && FIXED_HEAP_OCTETS % 16 == 0, "the block is a multiple of 16");

static alignas(16) unsigned char block[FIXED_HEAP_OCTETS];
static size_t in_use; /* octets from the start of the block, a multiple of 16 */
static size_t pieces; /* that were not given back */

struct fixed_heap_answer rattle_alloc(size_t octets, size_t align)
{
    unsigned char *piece = block + in_use;
    if (align > 16 || octets > sizeof block - in_use)
        return (struct fixed_heap_answer){false, block};
    in_use += (octets + 15) / 16 * 16;
    pieces++;
    return (struct fixed_heap_answer){true, piece};
}

void rattle_dealloc(void *piece)
{
    (void)piece;
    if (--pieces == 0)
        in_use = 0;
}

struct fixed_heap_answer rattle_realloc(void *piece, size_t kept, size_t octets, size_t align)
{
    struct fixed_heap_answer got = rattle_alloc(octets, align);
    if (got.ok) {
        memcpy(got.piece, piece, kept < octets ? kept : octets);
        rattle_dealloc(piece);
    }
    return got;
}

size_t fixed_heap_in_use(void)
{
    return in_use;
}
