/*
   The independent program: the rule taken at its word. It tries every choice
   of open and closed for the unknown transistors and joins nodes into sets
   for each of them. It shares no code and no idea with the library.
*/
#ifndef COMPARE_BRUTE_H
#define COMPARE_BRUTE_H

#include "call.h"

/* More unknown transistors than this are too many to try every choice. */
enum { BRUTE_MOST_UNKNOWN = 20 };

/*
   One unit step of the network of a call whose tables are in order, from the
   states `before` to the states `after`. Another way to the same step may be
   handed to brute_answer_by for networks with too many choices.
*/
typedef void brute_stepper(const struct call *network, const uint8_t *before, uint8_t *after);

void brute_step(const struct call *network, const uint8_t *before, uint8_t *after);

/* Answers the call: writes the four numbers, and alters the call's own states
   and work area as the library must alter those that it is lent. */
void brute_answer(struct call *call, uint32_t answer[4]);
void brute_answer_by(brute_stepper *step, struct call *call, uint32_t answer[4]);

#endif
