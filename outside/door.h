/*
   The door: makes a call of the library on lent memory, in both ways of lending
   it, and compares all that comes back with what must come back. What differs is
   counted and reported (guard.h).
*/
#ifndef OUTSIDE_DOOR_H
#define OUTSIDE_DOOR_H

#include <stdbool.h>

#include "brute.h"
#include "call.h"
#include "guard.h"

/* Makes the memory to lend and sets up the handlers of traps. */
void door_open(void);

/* What a call must answer and leave. */
struct outcome {
    uint32_t answer[4];
    const uint8_t *states;  /* as many as the call lends */
    const uint16_t *work;   /* as many as the call lends */
};

/* Calls the library and compares with the outcome wanted. True if all is the same. */
bool door_try(const struct call *call, const struct outcome *wanted);

/* The same with the outcome that brute force gives. Afterwards the call's states
   and work area are those that must be left, and `answer` what must be answered. */
bool door_compare(struct call *call, uint32_t answer[4]);
bool door_compare_by(brute_stepper *step, struct call *call, uint32_t answer[4]);

/* Calls the library and wants nothing: the call's states and work area become
   those that it left, `answer` what it answered. False if it trapped. */
bool door_ask(struct call *call, uint32_t answer[4]);

/* A table of length 0 is lent as NULL from now on, or as a pointer to an
   untouchable page. */
void door_lend_null(bool null);

#endif
