/* The turns of a cycle: each running procedure once, by rising identifier. */
#ifndef TURNS_H
#define TURNS_H

#include "ocp_engine.h"

#include <stdbool.h>
#include <stdint.h>

/* Writes the procedure whose turn follows that of `last`, which it is then itself; `last` begins as OCP_NO_PROCEDURE. Gives
 * whether there is one: the cycle ends after the greatest identifier. */
static inline bool next_turn(struct ocp_engine *engine, uint32_t *last, uint16_t *id)
{
    if (ocp_next_running(engine, *last, id) != OCP_DONE || (*last != OCP_NO_PROCEDURE && *id <= *last))
        return false;
    *last = *id;
    return true;
}

#endif
