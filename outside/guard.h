/*
   What the doors share: a call may trap or run on and is still come back from;
   what is found is counted, and told with the words that replay it.
*/
#ifndef OUTSIDE_GUARD_H
#define OUTSIDE_GUARD_H

#include <stdbool.h>
#include <stdint.h>

struct door_counts {
    uint64_t calls;       /* of the library */
    uint64_t differences; /* calls with another answer, or that left other tables */
    uint64_t traps;       /* calls that trapped or ran on */
    uint64_t stray;       /* calls that wrote beside the tables lent */
};

extern struct door_counts door_counts;

/* Seconds until a call counts as running on. */
extern int door_patience;

/* After so many findings the program ends, with status 1. */
extern uint64_t door_enough;

/* The option that says how many cases a check takes, for reports. */
extern const char *door_cases_option;

/* What is being checked, for reports: the check's name, the number of the case
   within it, and the options that replay it, or none where the check is replayed
   whole. The strings are kept, not copied. */
void door_now_checking(const char *check, uint64_t number, const char *replay);

/* A difference found otherwise than by a call. */
void door_difference(const char *what);

/* Whether nothing was found. */
bool door_clean(void);

/* ---- for the doors ---- */

/* Sets up the handlers of traps. */
void guard_open(void);

/* Makes a call. Returns 0, or the signal that ended it. */
int guard_call(void (*make)(const void *call), const void *call);

/* Whether a finding is to be told in full; its first lines are then printed. */
bool guard_tells(const char *what);
bool guard_tells_trap(int trapped);

/* Counts a finding, and ends the program if that is enough. */
void guard_found(uint64_t *count);

#endif
