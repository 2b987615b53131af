/* What is seen of an engine, in the lines of the console. */
#ifndef SHOW_H
#define SHOW_H

#include "ocp_engine.h"

#include <inttypes.h>
#include <stdio.h>

static inline void show_view(struct ocp_engine *engine, uint16_t id)
{
    static const char *const statuses[] = {"inactive", "running", "held"};
    static const char *const causes[] = {"none", "exited", "stopped", "aborted", "fault"};
    static const char *const pendings[] = {"none", "stop", "suspend"};
    struct ocp_view seen;
    uint64_t registers[11];
    if (ocp_view(engine, id, &seen, registers, 11) != OCP_DONE) {
        printf("view %u NotLoaded\n", id);
        return;
    }
    printf("view %u %s %s", id, statuses[seen.status], causes[seen.cause]);
    if (seen.cause == OCP_FAULT)
        printf("%" PRIu32, seen.fault);
    printf(" place %" PRIu32 " depth %" PRIu32 " pending %s", seen.place, seen.depth, pendings[seen.pending]);
    if (seen.pending != OCP_NOTHING_PENDING)
        printf(" %" PRIu32, seen.pending_step);
    printf("\n");
    for (int at = 0; at < 11; at++)
        printf("r%d %016" PRIx64 "\n", at, registers[at]);
}

static inline void show_word(struct ocp_engine *engine, uint64_t index)
{
    uint64_t word;
    if (ocp_pool_word(engine, index, &word) == OCP_DONE)
        printf("pool %" PRIu64 " %016" PRIx64 "\n", index, word);
    else
        printf("pool %" PRIu64 " BadPoolIndex\n", index);
}

/* The number of events, in the line `journal`. */
static inline void show_events(struct ocp_engine *engine)
{
    uint64_t events;
    if (ocp_events(engine, &events) == OCP_DONE)
        printf("journal %" PRIu64 "\n", events);
}

#endif
