/* What a control procedure written in C sees of the engine.
 *
 * A procedure is one function, the first of its file:
 *
 *     unsigned long entry(const unsigned char *arguments, unsigned long count)
 *
 * R1 and R2 hold its parameters at the start, and R0 holds its result when it ends: `view` shows it.
 */
#ifndef OCP_H
#define OCP_H

typedef unsigned char octet;
typedef unsigned int half;
typedef unsigned long word; /* 64 bits */

/* Memory. The stack has 512 octets for each of at most eight frames. */
#define ARGUMENTS ((const octet *)0x20000000) /* 256 octets, read only */
#define WORK ((octet *)0x30000000)            /* zeros at the start; 1,024 octets, under profile 2 4,096 */
#ifndef WORK_OCTETS
#define WORK_OCTETS 1024UL
#endif

/* Engine calls. The number of the call is the address that is called.
 *
 * pool_get   the word at an index of the pool that all procedures share
 * pool_set   writes that word, and gives the word before
 * pool_add   adds to that word, and gives the sum
 * step_end   ends a step: a stop or suspend that is pending for it is done here
 * pool_compare_set   (profile 2) writes that word if it has the expected value, and gives the word before
 *
 * An index that the pool does not have is fault 4, and ends the procedure. */
static word (*const pool_get)(word index) = (word (*)(word))1;
static word (*const pool_set)(word index, word value) = (word (*)(word, word))2;
static word (*const pool_add)(word index, word value) = (word (*)(word, word))3;
static word (*const step_end)(word step) = (word (*)(word))5;
static word (*const pool_compare_set)(word index, word expected, word value) = (word (*)(word, word, word))6;

/* The oldest word of the mailbox, which is taken out. Gives 1 if there was one, and else 0. The call also writes R1,
 * which no C function does: so it is in assembly. */
static inline __attribute__((always_inline)) word next_param(word *parameter)
{
    register word there asm("r0");
    register word taken asm("r1") = 0;
    asm volatile("call 4" : "=r"(there), "+r"(taken) : : "r2", "r3", "r4", "r5", "memory");
    *parameter = taken;
    return there;
}

#endif
