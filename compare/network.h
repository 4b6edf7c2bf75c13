/*
   Networks to lend: room for the tables of the longest calls of the outside
   check, and small random networks.
*/
#ifndef COMPARE_NETWORK_H
#define COMPARE_NETWORK_H

#include <stdbool.h>

#include "call.h"
#include "dice.h"

enum { LONGEST = 70000 };

struct storage {
    uint8_t kinds[LONGEST], states[LONGEST], types[LONGEST], change_states[LONGEST];
    uint16_t gates[LONGEST], sources[LONGEST], drains[LONGEST], change_nodes[LONGEST];
    uint16_t work[LONGEST];
};

enum { NORMAL, PULLUP, INPUT, GROUND, POWER };
enum { LOW, HIGH, UNKNOWN };
enum { N_TYPE, P_TYPE, D_TYPE };

/* A call over the storage with these numbers of nodes and transistors, no
   changes, limit 0 and a work area of exactly the size needed. */
struct call network_call(struct storage *storage, size_t nodes, size_t transistors);

bool network_is_input(uint8_t kind); /* an input or a rail */

void network_kinds(struct call *call, const char *letters);  /* N, P, I, G and V (power) */
void network_states(struct call *call, const char *letters); /* 0, 1 and X */
void network_transistor(struct call *call, size_t i, uint8_t type, uint16_t gate,
                        uint16_t source, uint16_t drain);
void network_change(struct call *call, uint16_t node, uint8_t state);

/* Fills the tables of a network at random. How often each kind, type and state
   comes up varies from network to network. */
void network_random(struct call *call, struct dice *dice);
void network_random_states(struct call *call, struct dice *dice);

/* A list of changes of some of the inputs, in any order. */
void network_random_changes(struct call *call, struct dice *dice);

/* Random cells in the work area, so that a stray write shows. */
void network_random_work(struct call *call, struct dice *dice);

#endif
