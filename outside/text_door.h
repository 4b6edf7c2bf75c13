/*
   The door of the calls about a text: lends, compares, counts and reports as
   door.h does for the calls about a network.
*/
#ifndef OUTSIDE_TEXT_DOOR_H
#define OUTSIDE_TEXT_DOOR_H

#include <stdbool.h>

#include "guard.h"
#include "text_call.h"

/* Makes the memory to lend. The traps are door_open's. */
void text_door_open(void);

/* Calls the library and wants these numbers and the tables of `left`, which are as
   long as the call's. True if all is the same. */
bool text_door_try(const struct text_call *call, const struct text_call *left,
                   const uint32_t numbers[4]);

/* The same with what the plain reader gives. Afterwards the call's tables are
   those that must be left, and `numbers` what must be answered. */
bool text_door_compare(struct text_call *call, uint32_t numbers[4]);

#endif
