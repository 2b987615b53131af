/* The three functions by which the library takes memory, and the block of heap.c.
 *
 * A program links one implementation of them: heap.c, liblibc_c.a of the toolchain (over malloc), or its own. It owes the
 * library what this header states of each function. Only ocp_open takes pieces; it gives them back if it is refused, else ocp_close
 * does.
 *
 * heap.c passes out a static block from its start, in pieces that begin at multiples of 16. The block is whole again when
 * the last piece is given back: when the last engine is closed. An engine takes ocp_size(..) octets of it; set the sum of all
 * engines by the compiler's line, as a multiple of 16: cc -DFIXED_HEAP_OCTETS=784096 ..
 *
 * heap.c is for one thread: two threads that open or close an engine at the same time break the block. A program with such
 * threads brings heap functions that take a lock, or opens and closes all its engines in one thread. */
#ifndef OCP_HEAP_H
#define OCP_HEAP_H

#include <stdbool.h>
#include <stddef.h>

#ifdef __cplusplus
extern "C" {
#endif

struct fixed_heap_answer {
    bool ok;
    void *piece; /* not null, also if it is refused */
};

/* A piece of this many octets at an address that is a multiple of `align`, a power of two up to 16. It overlaps no other piece. */
struct fixed_heap_answer rattle_alloc(size_t octets, size_t align);

/* A piece of another size, with the first `kept` octets of this one, which is given back. If it is refused, this one stays. */
struct fixed_heap_answer rattle_realloc(void *piece, size_t kept, size_t octets, size_t align);

/* Gives a piece back. */
void rattle_dealloc(void *piece);

/* How many octets of the block are passed out: 0 if no piece is in use. */
size_t fixed_heap_in_use(void);

#ifdef __cplusplus
}
#endif

#endif
