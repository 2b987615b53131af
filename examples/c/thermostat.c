/* A thermostat. Word 0 of the pool is the temperature that another procedure writes, word 1 the heater: 1 on, 0 off.
 * The arguments say how many rounds it makes (one octet) and the set point at first (one octet); a word that is sent
 * to it is the new set point. Each round is a step: a stop or suspend waits for its end. The result is how many rounds
 * the heater was on. */
#include "ocp.h"

enum { TEMPERATURE, HEATER };

word entry(const octet *arguments, word count)
{
    if (count < 2)
        return 0;
    word rounds = arguments[0];
    word set_point = arguments[1];
    word on = 0;
    for (word round = 0; round < rounds; round++) {
        word sent;
        if (next_param(&sent))
            set_point = sent;
        word heats = pool_get(TEMPERATURE) < set_point;
        pool_set(HEATER, heats);
        on += heats;
        step_end(1);
    }
    return on;
}
