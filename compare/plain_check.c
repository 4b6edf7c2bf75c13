/*
   The plain C simulator against brute force, on random networks of up to 8 nodes
   and 10 transistors: the benchmark compares the library with a simulator that
   gives the right answers.
*/
#include <stdio.h>
#include <string.h>

#include "brute.h"
#include "network.h"
#include "plain.h"

enum { NETWORKS = 30000, MOST_NODES = 8, MOST_TRANSISTORS = 10, MOST_STEPS = 100 };

static struct storage storage;

static bool same_step(struct call *call, struct plain *plain)
{
    uint8_t before[MOST_NODES], next[MOST_NODES];
    uint32_t answer[4];
    memcpy(before, call->states.at, call->states.length);
    size_t differing = plain_step(plain, before, next);
    call->entry = ENTRY_STEP;
    brute_answer(call, answer);
    return answer[2] == differing && memcmp(next, call->states.at, call->states.length) == 0;
}

static bool same_runs(struct call *call, struct plain *plain, struct dice *dice)
{
    uint8_t states[MOST_NODES];
    uint32_t answer[4], counts[2] = {0, 0};
    network_random_changes(call, dice);
    struct plain_changes changes = {call->change_nodes.length, call->change_nodes.at,
                                    call->change_states.at};

    memcpy(states, call->states.at, call->states.length);
    call->entry = ENTRY_UNIT_RUN;
    call->limit = MOST_STEPS;
    bool settled = plain_unit_run(plain, states, &changes, MOST_STEPS, &counts[0]);
    brute_answer(call, answer);
    if (settled != (answer[0] == 0) || counts[0] != answer[2]
        || memcmp(states, call->states.at, call->states.length) != 0)
        return false;

    network_random_changes(call, dice);
    changes.count = call->change_nodes.length;
    counts[0] = 0;
    call->entry = ENTRY_TERNARY_RUN;
    bool done = plain_ternary_run(plain, states, &changes, counts);
    brute_answer(call, answer);
    return done == (answer[0] == 0) && counts[0] == answer[2] && counts[1] == answer[3]
        && memcmp(states, call->states.at, call->states.length) == 0;
}

int main(void)
{
    int differences = 0;
    for (uint64_t number = 0; number < NETWORKS; number++) {
        struct dice dice = dice_for(7, number);
        struct call call = network_call(&storage, 1 + dice_below(&dice, MOST_NODES),
                                        dice_below(&dice, MOST_TRANSISTORS + 1));
        network_random(&call, &dice);
        network_random_states(&call, &dice);
        struct plain_network network = {call.kinds.length, call.types.length, call.kinds.at,
                                        call.types.at, call.gates.at, call.sources.at,
                                        call.drains.at};
        struct plain *plain = plain_open(&network);
        if (!same_step(&call, plain) || !same_runs(&call, plain, &dice))
            differences++;
        plain_close(plain);
    }
    printf("plain C simulator against brute force: %d networks, %d differences\n", NETWORKS,
           differences);
    return differences == 0 ? 0 : 1;
}
