/*
   Every network of up to 3 nodes and 2 transistors in every state: one step, a
   unit run, and a ternary run with every list of changes in node order. No
   symmetry is used: two lists of the same transistors count as two networks.

   With n nodes there are 5^n kinds, 3^n states and 3 n^3 transistors, so with
   t transistors 15^n (3 n^3)^t cases. With 3 nodes a node is normal, a pullup or
   an input, and which of the three kinds of input it is the seed decides: what is
   asked here treats them alike, and random networks mix them too. So there are
   9^n (3 n^3)^t cases with 3 nodes, and 4,978,167 in all. The short version takes
   one network of the largest size in so many, drawn by the seed; the long one
   takes all.
*/
#include <inttypes.h>
#include <stdio.h>
#include <string.h>

#include "door.h"
#include "host.h"
#include "network.h"

enum { MOST_NODES = 3, MOST_TRANSISTORS = 2 };

static struct storage storage;
static uint64_t networks, cases, runs;

static uint64_t power(uint64_t base, size_t exponent)
{
    uint64_t product = 1;
    while (exponent-- > 0)
        product *= base;
    return product;
}

/* The lowest digit of a number in the given base, which is taken off it. */
static uint32_t take_digit(uint64_t *number, uint32_t base)
{
    uint32_t digit = (uint32_t)(*number % base);
    *number /= base;
    return digit;
}

static void compare(struct call *call, enum entry entry, const uint8_t *start, struct dice *dice)
{
    uint32_t answer[4];
    call->entry = entry;
    memcpy(call->states.at, start, call->states.length);
    network_random_work(call, dice);
    door_compare(call, answer);
    runs++;
}

/* Each input has four lots: unchanged, or changed to 0, 1 or X. */
static void every_change_list(struct call *call, const uint8_t *start, struct dice *dice)
{
    size_t inputs = 0;
    for (size_t v = 0; v < call->kinds.length; v++)
        inputs += network_is_input(call->kinds.at[v]);
    for (uint64_t list = 0; list < power(4, inputs); list++) {
        uint64_t lots = list;
        call->change_nodes.length = call->change_states.length = 0;
        for (size_t v = 0; v < call->kinds.length; v++) {
            uint32_t lot = network_is_input(call->kinds.at[v]) ? take_digit(&lots, 4) : 3;
            if (lot < 3)
                network_change(call, (uint16_t)v, (uint8_t)lot);
        }
        compare(call, ENTRY_TERNARY_RUN, start, dice);
    }
    call->change_nodes.length = call->change_states.length = 0;
}

static void every_state(struct call *call, struct dice *dice)
{
    for (uint64_t code = 0; code < power(3, call->kinds.length); code++) {
        uint8_t start[MOST_NODES];
        uint64_t digits = code;
        for (size_t v = 0; v < call->kinds.length; v++)
            start[v] = (uint8_t)take_digit(&digits, 3);
        compare(call, ENTRY_STEP, start, dice);
        compare(call, ENTRY_UNIT_RUN, start, dice);
        every_change_list(call, start, dice);
        cases++;
    }
}

/* How many kinds of nodes are told apart in networks of so many nodes. */
static uint32_t kinds_with(size_t nodes)
{
    return nodes < MOST_NODES ? 5 : 3;
}

static uint8_t kind_by(uint32_t digit, size_t nodes, struct dice *dice)
{
    bool drawn = nodes == MOST_NODES && digit == INPUT;
    return (uint8_t)(drawn ? INPUT + dice_below(dice, 3) : digit);
}

static void one_network(size_t nodes, size_t transistors, uint64_t code, struct dice *dice)
{
    struct call call = network_call(&storage, nodes, transistors);
    call.limit = 9;
    for (size_t v = 0; v < nodes; v++)
        call.kinds.at[v] = kind_by(take_digit(&code, kinds_with(nodes)), nodes, dice);
    for (size_t i = 0; i < transistors; i++) {
        uint8_t type = (uint8_t)take_digit(&code, 3);
        uint16_t gate = (uint16_t)take_digit(&code, (uint32_t)nodes);
        uint16_t source = (uint16_t)take_digit(&code, (uint32_t)nodes);
        network_transistor(&call, i, type, gate, source,
                           (uint16_t)take_digit(&code, (uint32_t)nodes));
    }
    every_state(&call, dice);
    networks++;
}

static uint64_t networks_with(size_t nodes, size_t transistors)
{
    return power(kinds_with(nodes), nodes) * power(3 * power(nodes, 3), transistors);
}

void check_small(const struct options *options)
{
    uint64_t number = 0, whole = 0;
    for (size_t nodes = 1; nodes <= MOST_NODES; nodes++)
        for (size_t transistors = 0; transistors <= MOST_TRANSISTORS; transistors++)
            whole += networks_with(nodes, transistors);

    for (size_t nodes = 1; nodes <= MOST_NODES; nodes++)
        for (size_t transistors = 0; transistors <= MOST_TRANSISTORS; transistors++)
            for (uint64_t code = 0; code < networks_with(nodes, transistors); code++, number++) {
                struct dice dice = dice_for(options->seed, number);
                bool always = nodes < MOST_NODES || transistors < MOST_TRANSISTORS;
                if (!always && dice_below(&dice, options->small_part) > 0)
                    continue;
                door_now_checking("small", number, options->replay);
                one_network(nodes, transistors, code, &dice);
                progress("small networks", number, whole);
            }
    printf("small networks: %" PRIu64 " of %" PRIu64 ", every state of each: %" PRIu64
           " cases, %" PRIu64 " steps and runs\n", networks, whole, cases, runs);
}
