/*
   Every order of arrivals: on small networks, from a settled start, the changed
   inputs arrive one by one, and the other nodes take their step values one by
   one before, between and after them, in any order and as often as may be. All
   states that can be so reached are visited, breadth first. Each of them that is
   settled with all new inputs in place must agree with the ternary answer of the
   library wherever that is 0 or 1. Each half of the ternary run must take at most
   as many steps as there are nodes that are not inputs.

       arrivals [--seed S] [--from K] [--networks N] [--enough FINDINGS]
*/
#include <inttypes.h>
#include <stdio.h>
#include <stdlib.h>
#include <string.h>

#include "brute.h"
#include "door.h"
#include "network.h"

enum { MOST_NODES = 5, MOST_TRANSISTORS = 6, STATES = 243 /* 3 to the power 5 */ };

static struct storage storage;
static struct {
    uint64_t visited, ends, several, doubted;
} counts;

/* ---- the states that can be reached ---- */

static uint32_t code_of(const uint8_t *states, size_t nodes)
{
    uint32_t code = 0;
    for (size_t v = nodes; v-- > 0;)
        code = 3 * code + states[v];
    return code;
}

static void states_of(uint32_t code, uint8_t *states, size_t nodes)
{
    for (size_t v = 0; v < nodes; v++, code /= 3)
        states[v] = (uint8_t)(code % 3);
}

/* A queue of states, each entered once. An input's state tells whether it has
   arrived: it has its old or its new state, and never goes back. */
static struct {
    bool entered[STATES];
    uint32_t waiting[STATES];
    size_t count;
} reached;

static void reach(const uint8_t *states, size_t nodes)
{
    uint32_t code = code_of(states, nodes);
    if (!reached.entered[code]) {
        reached.entered[code] = true;
        reached.waiting[reached.count++] = code;
    }
}

static bool all_arrived(const struct call *call, const uint8_t *states)
{
    for (size_t i = 0; i < call->change_nodes.length; i++)
        if (states[call->change_nodes.at[i]] != call->change_states.at[i])
            return false;
    return true;
}

static bool agrees(const uint8_t *states, const uint8_t *ternary, size_t nodes)
{
    for (size_t v = 0; v < nodes; v++)
        if (ternary[v] != UNKNOWN && states[v] != ternary[v])
            return false;
    return true;
}

/* Visits every state that can be reached from `start`. */
static void explore(const struct call *call, const uint8_t *start, const uint8_t *ternary)
{
    size_t nodes = call->kinds.length;
    uint64_t ends = 0;
    memset(&reached, 0, sizeof reached);
    reach(start, nodes);
    for (size_t k = 0; k < reached.count; k++) {
        uint8_t here[MOST_NODES], next[MOST_NODES], after[MOST_NODES];
        states_of(reached.waiting[k], here, nodes);
        brute_step(call, here, next);
        if (memcmp(here, next, nodes) == 0 && all_arrived(call, here)) {
            ends++;
            if (!agrees(here, ternary, nodes))
                door_difference("a state that can be reached is not the ternary answer's");
        }
        for (size_t v = 0; v < nodes; v++) {
            memcpy(after, here, nodes);
            after[v] = next[v];
            reach(after, nodes);
        }
        for (size_t i = 0; i < call->change_nodes.length; i++) {
            memcpy(after, here, nodes);
            after[call->change_nodes.at[i]] = call->change_states.at[i];
            reach(after, nodes);
        }
    }
    counts.visited += reached.count;
    counts.ends += ends;
    counts.several += ends > 1;
}

/* ---- the networks ---- */

static void one_network(uint64_t seed, uint64_t number)
{
    struct dice dice = dice_for(seed, number);
    size_t nodes = 2 + dice_below(&dice, MOST_NODES - 1), inputs = 0;
    struct call call = network_call(&storage, nodes, 1 + dice_below(&dice, MOST_TRANSISTORS));
    uint32_t answer[4];
    uint8_t start[MOST_NODES];

    network_random(&call, &dice);
    uint8_t kind = (uint8_t)(INPUT + dice_below(&dice, 3));
    call.kinds.at[dice_below(&dice, (uint32_t)nodes)] = kind;
    for (size_t v = 0; v < nodes; v++)
        inputs += network_is_input(call.kinds.at[v]);

    /* a settled start: where random states lead, or else where X leads */
    network_random_states(&call, &dice);
    call.entry = ENTRY_UNIT_RUN;
    brute_answer(&call, answer);
    if (answer[0] != 0) {
        for (size_t v = 0; v < nodes; v++)
            if (!network_is_input(call.kinds.at[v]))
                call.states.at[v] = UNKNOWN;
        brute_answer(&call, answer);
    }
    memcpy(start, call.states.at, nodes);

    network_random_changes(&call, &dice);
    network_random_work(&call, &dice);
    call.entry = ENTRY_TERNARY_RUN;
    if (!door_ask(&call, answer))
        return;
    if (answer[0] != 0 || answer[1] != 0)
        door_difference("a ternary run from a settled start is not done, with place 0");
    else if (answer[2] > nodes - inputs || answer[3] > nodes - inputs)
        door_difference("a half takes more steps than there are nodes that are not inputs");
    counts.doubted += memchr(call.states.at, UNKNOWN, nodes) != NULL;
    explore(&call, start, call.states.at);
}

int main(int count, char **words)
{
    uint64_t seed = 1, from = 0, networks = 20000;
    for (int at = 1; at < count; at += 2) {
        uint64_t number = at + 1 < count ? strtoull(words[at + 1], NULL, 10) : 0;
        if (strcmp(words[at], "--seed") == 0)
            seed = number;
        else if (strcmp(words[at], "--from") == 0)
            from = number;
        else if (strcmp(words[at], "--networks") == 0)
            networks = number;
        else if (strcmp(words[at], "--enough") == 0)
            door_enough = number;
        else {
            fprintf(stderr, "arrivals: %s is no option\n", words[at]);
            return 2;
        }
    }

    char replay[40];
    snprintf(replay, sizeof replay, "--seed %" PRIu64, seed);
    door_open();
    for (uint64_t k = 0; k < networks; k++) {
        door_now_checking("arrivals", from + k, replay);
        one_network(seed, from + k);
    }
    printf("arrivals, seed %" PRIu64 ": %" PRIu64 " networks (numbers from %" PRIu64 "), %" PRIu64
           " states visited, %" PRIu64 " ends, %" PRIu64 " networks with several ends, %" PRIu64
           " with X in the ternary answer; %" PRIu64 " differences, %" PRIu64 " traps, %" PRIu64
           " stray writes\n", seed, networks, from, counts.visited, counts.ends, counts.several,
           counts.doubted, door_counts.differences, door_counts.traps, door_counts.stray);
    return door_clean() ? 0 : 1;
}
