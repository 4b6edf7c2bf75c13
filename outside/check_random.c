/*
   Random networks of up to 8 nodes and 12 transistors: a check, a reset, steps,
   unit runs and ternary runs, from random states and from settled ones; a step
   more from where a run stopped at its limit, which must name its node. Each
   step and run is made a second time with the transistors listed in another
   order, some ends swapped and some transistors listed twice: nothing that is
   answered or left may differ.
*/
#include <inttypes.h>
#include <stdio.h>
#include <string.h>

#include "door.h"
#include "host.h"
#include "network.h"

enum { MOST_NODES = 8, MOST_TRANSISTORS = 12, MOST_TWICE = 3, MOST_SPARE_CELLS = 5 };

static struct storage storage, relisted;

static struct {
    uint64_t unit_done, unit_oscillates, ternary_done, ternary_start, relisted;
} counts;

static uint32_t random_limit(struct dice *dice)
{
    switch (dice_below(dice, 8)) {
    case 0: return 0;
    case 1: return 1;
    case 2: return 2;
    case 3: return 3;
    case 4: return dice_below(dice, 2) == 0 ? 100 : 1000;
    case 5: return dice_below(dice, 200) == 0 ? 10000 : 999;
    default: return dice_below(dice, 12);
    }
}

static void swap(uint16_t *a, uint16_t *b)
{
    uint16_t kept = *a;
    *a = *b;
    *b = kept;
}

/* The same network listed otherwise. */
static struct call list_otherwise(const struct call *call, struct dice *dice)
{
    size_t nodes = call->kinds.length, transistors = call->types.length;
    size_t twice = transistors == 0 ? 0 : dice_below(dice, MOST_TWICE + 1);
    struct call other = network_call(&relisted, nodes, transistors + twice);
    memcpy(other.kinds.at, call->kinds.at, nodes);
    for (size_t i = 0; i < transistors + twice; i++) {
        size_t from = i < transistors ? i : dice_below(dice, (uint32_t)transistors);
        network_transistor(&other, i, call->types.at[from], call->gates.at[from],
                           call->sources.at[from], call->drains.at[from]);
        if (dice_below(dice, 2))
            swap(&other.sources.at[i], &other.drains.at[i]);
    }
    for (size_t left = transistors + twice; left > 1; left--) {
        size_t i = left - 1, j = dice_below(dice, (uint32_t)left);
        uint8_t type = other.types.at[i];
        other.types.at[i] = other.types.at[j];
        other.types.at[j] = type;
        swap(&other.gates.at[i], &other.gates.at[j]);
        swap(&other.sources.at[i], &other.sources.at[j]);
        swap(&other.drains.at[i], &other.drains.at[j]);
    }
    return other;
}

/* Makes the call on the other list, wanting the answer and the states of the first. */
static void try_otherwise(struct call *other, const struct call *first, const uint8_t *start,
                          const uint32_t answer[4], struct dice *dice)
{
    other->entry = first->entry;
    other->limit = first->limit;
    other->change_nodes = first->change_nodes;
    other->change_states = first->change_states;
    memcpy(other->states.at, start, other->states.length);
    network_random_work(other, dice);

    uint16_t work[4 * MOST_NODES + 2 * (MOST_TRANSISTORS + MOST_TWICE)] = {0};
    struct outcome wanted = {.states = first->states.at, .work = work};
    memcpy(wanted.answer, answer, sizeof wanted.answer);
    door_try(other, &wanted);
    counts.relisted++;
}

/* Compares one call from the states `start`; the call then has the states left.
   Gives the answer's number. */
static uint32_t compare_from(struct call *call, struct call *other, enum entry entry,
                             const uint8_t *start, struct dice *dice, uint32_t answer[4])
{
    call->entry = entry;
    memcpy(call->states.at, start, call->states.length);
    network_random_work(call, dice);
    door_compare(call, answer);
    if (entry_takes_work(entry))
        try_otherwise(other, call, start, answer, dice);
    return answer[0];
}

/* A step from where a run stopped at its limit: it must be done, and name the node
   that the run named. */
static void compare_next_step(struct call *call, struct call *other, uint32_t place,
                              struct dice *dice)
{
    uint8_t left[MOST_NODES];
    uint32_t answer[4];
    memcpy(left, call->states.at, call->states.length);
    if (compare_from(call, other, ENTRY_STEP, left, dice, answer) != 0 || answer[1] != place)
        door_difference("a step from where a run stopped does not name the run's node");
}

static void compare_runs(struct call *call, struct call *other, const uint8_t *start,
                         struct dice *dice)
{
    uint32_t answer[4];
    network_random_changes(call, dice);
    call->limit = random_limit(dice);
    if (compare_from(call, other, ENTRY_UNIT_RUN, start, dice, answer) == 0) {
        counts.unit_done++;
    } else {
        counts.unit_oscillates++;
        compare_next_step(call, other, answer[1], dice);
    }
    if (compare_from(call, other, ENTRY_TERNARY_RUN, start, dice, answer) == 0)
        counts.ternary_done++;
    else
        counts.ternary_start++;
}

/* A settled state: where the random one leads, or else where X everywhere but at
   the inputs leads, which always settles. */
static void find_settled(struct call *call, struct call *other, uint8_t *states,
                         struct dice *dice)
{
    uint32_t answer[4];
    call->change_nodes.length = call->change_states.length = 0;
    call->limit = 0;
    if (compare_from(call, other, ENTRY_UNIT_RUN, states, dice, answer) != 0) {
        for (size_t v = 0; v < call->kinds.length; v++)
            if (!network_is_input(call->kinds.at[v]))
                states[v] = UNKNOWN;
        if (compare_from(call, other, ENTRY_UNIT_RUN, states, dice, answer) != 0)
            door_difference("a run from X does not settle");
    }
    memcpy(states, call->states.at, call->states.length);
}

static void one_network(const struct options *options, uint64_t number)
{
    struct dice dice = dice_for(options->seed, number);
    size_t nodes = 1 + dice_below(&dice, MOST_NODES);
    size_t transistors = dice_below(&dice, MOST_TRANSISTORS + 1);
    struct call call = network_call(&storage, nodes, transistors);
    call.work.length += dice_below(&dice, MOST_SPARE_CELLS + 1);
    door_now_checking("random", number, options->replay);
    door_lend_null(dice_below(&dice, 2));

    network_random(&call, &dice);
    struct call other = list_otherwise(&call, &dice);
    network_random_states(&call, &dice);
    uint8_t states[MOST_NODES];
    memcpy(states, call.states.at, nodes);

    uint32_t answer[4];
    compare_from(&call, &other, ENTRY_CHECK, states, &dice, answer);
    compare_from(&call, &other, ENTRY_RESET, states, &dice, answer);
    compare_from(&call, &other, ENTRY_STEP, states, &dice, answer);
    compare_runs(&call, &other, states, &dice);
    find_settled(&call, &other, states, &dice);
    compare_runs(&call, &other, states, &dice);
}

void check_random(const struct options *options)
{
    for (uint64_t k = 0; k < options->networks; k++) {
        one_network(options, options->from + k);
        if (k % 1024 == 0)
            progress("random networks", k, options->networks);
    }
    printf("random networks: %" PRIu64 " (numbers from %" PRIu64 "); unit runs %" PRIu64
           " settled, %" PRIu64 " at their limit; ternary runs %" PRIu64 " done, %" PRIu64
           " unsettled at the start; %" PRIu64 " calls with the transistors listed otherwise\n",
           options->networks, options->from, counts.unit_done, counts.unit_oscillates,
           counts.ternary_done, counts.ternary_start, counts.relisted);
}
