/*
   Full-size tables, and both sides of each bound.

   Brute force cannot try every choice of a large network, so the large random
   ones are made of tiles: many small networks side by side that share nothing
   but inputs, their nodes and transistors listed in a shuffled order. Inputs
   join nothing, so each tile steps as it would alone, and brute force steps it
   alone. Long chains have few unknown transistors; brute force takes them whole.
*/
#include <inttypes.h>
#include <stdio.h>
#include <string.h>

#include "door.h"
#include "host.h"
#include "network.h"

enum { DONE, SIZE, LIMIT, KIND, WIRE, STATE, CHANGE, START, OSCILLATES };
enum { MOST_NODES = 4096, MOST_TRANSISTORS = 8192, MOST_CHANGES = 4096 };
enum { DEFAULT_LIMIT = 1000 };

static struct storage storage, tile_storage;
static uint64_t tried;

/* Compares, and holds the answer against the one written here. Gives the first count. */
static uint32_t expect(struct call *call, uint32_t number, uint32_t place, brute_stepper *step,
                       struct dice *dice)
{
    uint32_t answer[4];
    door_now_checking("full", ++tried, "");
    door_lend_null(tried % 2);
    network_random_work(call, dice);
    door_compare_by(step, call, answer);
    if (answer[0] != number || answer[1] != place)
        door_difference("brute force does not give the answer and place wanted");
    return answer[2];
}

/* An answer with the first count that is wanted. */
static void expect_count(struct call *call, uint32_t number, uint32_t place, uint32_t count,
                         struct dice *dice)
{
    if (expect(call, number, place, brute_step, dice) != count)
        door_difference("brute force does not give the count wanted");
}

/* DONE where no step alters a state: a step has the number of nodes as its place. */
static void expect_still(struct call *call, struct dice *dice)
{
    uint32_t place = call->entry == ENTRY_STEP ? (uint32_t)call->kinds.length : 0;
    expect_count(call, DONE, place, 0, dice);
}

/* A network of nodes of one kind in state 0 and n transistors from node 0 to node 0. */
static struct call plain_call(enum entry entry, size_t nodes, size_t transistors, uint8_t kind)
{
    struct call call = network_call(&storage, nodes, transistors);
    call.entry = entry;
    memset(call.kinds.at, kind, nodes);
    memset(call.states.at, LOW, nodes);
    for (size_t i = 0; i < transistors; i++)
        network_transistor(&call, i, N_TYPE, 0, 0, 0);
    return call;
}

/* ---- both sides of each bound ---- */

static void lengths_of_one_entry(enum entry entry, struct dice *dice)
{
    struct call call = plain_call(entry, 1, 0, INPUT);
    expect_still(&call, dice);
    call = plain_call(entry, 0, 0, INPUT);
    expect(&call, SIZE, 0, brute_step, dice);
    call = plain_call(entry, MOST_NODES, MOST_TRANSISTORS, NORMAL);
    expect_still(&call, dice);
    call = plain_call(entry, MOST_NODES + 1, MOST_TRANSISTORS, NORMAL);
    expect(&call, SIZE, 0, brute_step, dice);
    if (entry_takes_transistors(entry)) {
        call = plain_call(entry, MOST_NODES, MOST_TRANSISTORS + 1, NORMAL);
        expect(&call, SIZE, 0, brute_step, dice);
    }
    if (entry_takes_work(entry)) {
        static const size_t nodes[] = {1, 3, MOST_NODES}, transistors[] = {0, 1, MOST_TRANSISTORS};
        for (int k = 0; k < 3; k++) {
            call = plain_call(entry, nodes[k], transistors[k], NORMAL);
            call.work.length -= 1;
            expect(&call, SIZE, 0, brute_step, dice);
            call.work.length += 2;
            expect_still(&call, dice);
            call.work.length = 65537;
            expect_still(&call, dice);
        }
        call = plain_call(entry, 1, 0, NORMAL);
        call.work.length = 0;
        expect(&call, SIZE, 0, brute_step, dice);
    }
}

/* Reset, of every kind and from every byte. */
static void reset_of_every_kind(struct dice *dice)
{
    static const uint8_t wanted[] = {UNKNOWN, UNKNOWN, UNKNOWN, LOW, HIGH};
    struct call call = plain_call(ENTRY_RESET, MOST_NODES, 0, NORMAL);
    for (size_t v = 0; v < MOST_NODES; v++) {
        call.kinds.at[v] = (uint8_t)(v % 5);
        call.states.at[v] = (uint8_t)v;
    }
    expect(&call, DONE, 0, brute_step, dice);
    for (size_t v = 0; v < MOST_NODES; v++)
        if (call.states.at[v] != wanted[v % 5])
            door_difference("reset does not give a node what its kind is to have");
}

/* Nothing moves where all nodes are inputs, rails or others: a unit run is done
   with no step. */
static void inputs_only(enum entry entry, struct dice *dice)
{
    for (uint8_t kind = INPUT; kind <= POWER; kind++) {
        struct call call = plain_call(entry, MOST_NODES, MOST_TRANSISTORS, kind);
        for (size_t i = 0; i < MOST_TRANSISTORS; i++)
            network_transistor(&call, i, D_TYPE, 0, (uint16_t)(i % MOST_NODES),
                               (uint16_t)(i * 7 % MOST_NODES));
        for (size_t v = 0; v < MOST_NODES; v++)
            call.states.at[v] = (uint8_t)(v % 3);
        expect_still(&call, dice);
    }
}

/* The last place of each full-size table, and the place before it. */
static void last_places(enum entry entry, struct dice *dice)
{
    for (uint32_t back = 1; back <= 2; back++) {
        struct call call = plain_call(entry, MOST_NODES, MOST_TRANSISTORS, NORMAL);
        call.kinds.at[MOST_NODES - 1] = call.kinds.at[MOST_NODES - back] = 5;
        expect(&call, KIND, MOST_NODES - back, brute_step, dice);
        call.kinds.at[MOST_NODES - 1] = call.kinds.at[MOST_NODES - back] = POWER;
        expect_still(&call, dice);
        if (!entry_takes_transistors(entry))
            continue;
        uint16_t *ends[3] = {storage.gates, storage.sources, storage.drains};
        for (int k = 0; k < 3; k++) {
            call = plain_call(entry, MOST_NODES, MOST_TRANSISTORS, NORMAL);
            ends[k][MOST_TRANSISTORS - 1] = ends[k][MOST_TRANSISTORS - back] = MOST_NODES;
            expect(&call, WIRE, MOST_TRANSISTORS - back, brute_step, dice);
            ends[k][MOST_TRANSISTORS - 1] = ends[k][MOST_TRANSISTORS - back] = MOST_NODES - 1;
            expect_still(&call, dice);
        }
        if (!entry_takes_work(entry))
            continue;
        call = plain_call(entry, MOST_NODES, MOST_TRANSISTORS, NORMAL);
        call.states.at[MOST_NODES - 1] = call.states.at[MOST_NODES - back] = 3;
        expect(&call, STATE, MOST_NODES - back, brute_step, dice);
    }
    if (entry_takes_transistors(entry)) {
        struct call call = plain_call(entry, 3, 1, NORMAL);
        call.gates.at[0] = 2;
        expect_still(&call, dice);
        call.gates.at[0] = 3;
        expect(&call, WIRE, 0, brute_step, dice);
    }
}

static void change_lists(enum entry entry, struct dice *dice)
{
    for (uint8_t state = LOW; state <= UNKNOWN; state++) {
        /* inputs, grounds or powers */
        struct call call = plain_call(entry, MOST_NODES, 0, (uint8_t)(INPUT + state));
        for (size_t v = 0; v < MOST_CHANGES; v++)
            network_change(&call, (uint16_t)(MOST_CHANGES - 1 - v), state);
        expect(&call, DONE, 0, brute_step, dice);
        struct call again = call;
        call.change_nodes.at[MOST_CHANGES - 1] = call.change_nodes.at[0];
        expect(&again, CHANGE, MOST_CHANGES - 1, brute_step, dice);
        call.change_nodes.at[1] = call.change_nodes.at[0];
        expect(&again, CHANGE, 1, brute_step, dice);
        network_change(&again, 0, state);
        expect(&again, SIZE, 0, brute_step, dice);
    }
    struct call call = plain_call(entry, MOST_NODES, 0, INPUT);
    for (size_t v = 0; v < MOST_CHANGES; v++)
        network_change(&call, (uint16_t)v, HIGH);
    call.kinds.at[MOST_NODES - 1] = PULLUP;
    call.states.at[MOST_NODES - 1] = HIGH;
    expect(&call, CHANGE, MOST_NODES - 1, brute_step, dice);
}

/* The first changed node of a step at both ends of the largest table: pullups at
   1 but for two of them, or one, or none. */
static void first_changed_nodes(struct dice *dice)
{
    enum { LAST = MOST_NODES - 1 };
    static const uint32_t low[][2] = {{0, 0}, {0, 1}, {1, LAST}, {LAST - 1, LAST}, {LAST, LAST}};
    for (size_t k = 0; k < sizeof low / sizeof *low; k++) {
        uint32_t first = low[k][0], second = low[k][1];
        struct call call = plain_call(ENTRY_STEP, MOST_NODES, 0, PULLUP);
        memset(call.states.at, HIGH, MOST_NODES);
        call.states.at[first] = call.states.at[second] = LOW;
        expect_count(&call, DONE, first, first == second ? 1 : 2, dice);
    }
    struct call call = plain_call(ENTRY_STEP, MOST_NODES, 0, PULLUP);
    memset(call.states.at, HIGH, MOST_NODES);
    expect_still(&call, dice);
}

/* A loop that never settles: a pullup that shorts itself to ground. It is the
   last of the nodes, and the others are inputs. */
static struct call loop(uint32_t nodes, uint32_t limit)
{
    struct call call = plain_call(ENTRY_UNIT_RUN, nodes, 1, INPUT);
    uint16_t last = (uint16_t)(nodes - 1);
    call.kinds.at[last] = PULLUP;
    network_transistor(&call, 0, N_TYPE, last, 0, last);
    call.limit = limit;
    return call;
}

static void limits(struct dice *dice)
{
    static const uint32_t accepted[] = {1, 99, 100, 101, 999, 1000, 1001, 9999, 10000};
    static const uint32_t refused[] = {10001, 65536, 65636, 66536, 0x7fffffff, UINT32_MAX};
    for (size_t k = 0; k < sizeof accepted / sizeof *accepted; k++) {
        struct call call = loop(2, accepted[k]);
        expect_count(&call, OSCILLATES, 1, accepted[k], dice);
    }
    for (size_t k = 0; k < sizeof refused / sizeof *refused; k++) {
        struct call call = loop(2, refused[k]);
        expect_count(&call, LIMIT, 0, 0, dice);
    }
    struct call call = loop(2, 0);
    expect_count(&call, OSCILLATES, 1, DEFAULT_LIMIT, dice);
    call = loop(MOST_NODES, 9);
    expect_count(&call, OSCILLATES, MOST_NODES - 1, 9, dice);
}

/* Seven inverters in a ring, one of them out of step with its neighbour: they
   come back to their states after fourteen steps and no fewer, so the states
   tell 1,000 steps from 100 and from one more or less. */
static struct call ring_of_seven(enum entry entry)
{
    struct call call = plain_call(entry, 8, 7, PULLUP);
    call.kinds.at[0] = GROUND;
    for (uint16_t v = 1; v <= 7; v++) {
        network_transistor(&call, v - 1u, N_TYPE, v == 1 ? 7 : v - 1u, 0, v);
        call.states.at[v] = v % 2 == 1 ? HIGH : LOW;
    }
    return call;
}

/* What a run leaves at its limit is what as many single steps of the library
   leave. The change goes round node by node: each step names the node that it
   has come to, and the run names the one that the next step would change. */
static void ring_at(uint32_t limit, uint32_t steps, struct dice *dice)
{
    uint8_t left[8];
    struct call call = ring_of_seven(ENTRY_UNIT_RUN);
    call.limit = limit;
    expect_count(&call, OSCILLATES, 1 + steps % 7, steps, dice);
    memcpy(left, call.states.at, sizeof left);

    uint32_t answer[4] = {0};
    call = ring_of_seven(ENTRY_STEP);
    for (uint32_t k = 0; k < steps; k++) {
        door_ask(&call, answer);
        if (answer[1] != 1 + k % 7)
            door_difference("a step does not name the node that the change has come to");
    }
    if (memcmp(left, call.states.at, sizeof left) != 0)
        door_difference("a run at its limit does not leave what single steps leave");
}

/* ---- long chains ---- */

/* Inverters in a row: node 0 is ground, node 1 the first one's input. */
static struct call inverters(size_t nodes)
{
    struct call call = plain_call(ENTRY_UNIT_RUN, nodes, nodes - 2, PULLUP);
    call.kinds.at[0] = GROUND;
    call.kinds.at[1] = INPUT;
    for (size_t v = 2; v < nodes; v++) {
        network_transistor(&call, v - 2, N_TYPE, (uint16_t)(v - 1), 0, (uint16_t)v);
        call.states.at[v] = v % 2 == 0 ? HIGH : LOW;
    }
    return call;
}

/* A change at the head of a row of inverters takes one step for each. */
static void inverter_chain(size_t nodes, struct dice *dice)
{
    uint32_t steps = (uint32_t)nodes - 2;
    static const int32_t around[] = {-1, 0, 1};
    for (int k = 0; k < 3; k++) {
        struct call call = inverters(nodes);
        network_change(&call, 1, HIGH);
        call.limit = (uint32_t)((int32_t)steps + around[k]);
        if (around[k] < 0)
            expect(&call, OSCILLATES, (uint32_t)nodes - 1, brute_step, dice);
        else
            expect(&call, DONE, 0, brute_step, dice);
    }
    struct call call = inverters(nodes);
    network_change(&call, 1, HIGH);
    call.entry = ENTRY_TERNARY_RUN;
    if (nodes <= 20) {
        expect(&call, DONE, 0, brute_step, dice);
        return;
    }
    /* Too many unknown transistors for brute force, but it is plain what happens:
       X runs down the chain, then the new states do. */
    static uint8_t states[MOST_NODES];
    static uint16_t work[4 * MOST_NODES + 2 * MOST_TRANSISTORS];
    struct outcome wanted = {{DONE, 0, steps, steps}, states, work};
    for (size_t v = 0; v < nodes; v++)
        states[v] = v > 0 && v % 2 == 1 ? HIGH : LOW;
    door_now_checking("full", ++tried, "");
    network_random_work(&call, dice);
    door_try(&call, &wanted);
}

/* A limit of 0 stands for 1,000 steps: rows of inverters that need fewer, that
   many or more, and a ring. */
static void default_limit(struct dice *dice)
{
    static const struct {
        size_t stages;
        uint32_t limit, number, count;
    } rows[] = {
        {300, 0, DONE, 300},   {300, 100, OSCILLATES, 100}, {999, 0, DONE, 999},
        {1000, 0, DONE, 1000}, {1001, 0, OSCILLATES, 1000}, {1001, 1001, DONE, 1001},
    };
    for (size_t k = 0; k < sizeof rows / sizeof *rows; k++) {
        struct call call = inverters(rows[k].stages + 2);
        network_change(&call, 1, HIGH);
        call.limit = rows[k].limit;
        /* after so many steps the change is at that inverter's output; the next one follows */
        uint32_t place = rows[k].number == DONE ? 0 : rows[k].count + 2;
        expect_count(&call, rows[k].number, place, rows[k].count, dice);
    }
    ring_at(0, DEFAULT_LIMIT, dice);
    ring_at(100, 100, dice);
    ring_at(999, 999, dice);
}

/* Nodes joined in a row by transistors of the one type, listed from the near
   end, from the far end or shuffled; node 0, power, drives the row. */
static struct call pass_chain(size_t nodes, uint8_t type, int order, struct dice *dice)
{
    struct call call = plain_call(ENTRY_STEP, nodes, nodes - 2, NORMAL);
    call.kinds.at[0] = POWER;
    call.kinds.at[1] = INPUT;
    call.states.at[0] = HIGH;
    call.states.at[1] = type == N_TYPE ? HIGH : LOW;
    for (size_t i = 0; i < nodes - 2; i++) {
        size_t link = order == 1 ? nodes - 3 - i : i;
        network_transistor(&call, i, type, 1, (uint16_t)(link == 0 ? 0 : link + 1),
                           (uint16_t)(link + 2));
    }
    for (size_t left = nodes - 2; order == 2 && left > 1; left--) {
        size_t i = left - 1, j = dice_below(dice, (uint32_t)left);
        uint16_t source = call.sources.at[i], drain = call.drains.at[i];
        network_transistor(&call, i, type, 1, call.sources.at[j], call.drains.at[j]);
        network_transistor(&call, j, type, 1, source, drain);
    }
    return call;
}

static void pass_chains(size_t nodes, struct dice *dice)
{
    for (int order = 0; order < 3; order++)
        for (uint8_t type = N_TYPE; type <= D_TYPE; type++) {
            struct call call = pass_chain(nodes, type, order, dice);
            expect(&call, DONE, 2, brute_step, dice);
            /* one unknown transistor somewhere: X beyond it, or not */
            call = pass_chain(nodes, type, order, dice);
            size_t doubted = dice_below(dice, (uint32_t)call.types.length);
            network_transistor(&call, doubted, N_TYPE, (uint16_t)(nodes - 1),
                               call.sources.at[doubted], call.drains.at[doubted]);
            call.states.at[nodes - 1] = UNKNOWN;
            expect(&call, DONE, 2, brute_step, dice);
            /* a pullup in the row, and the driving transistor shut */
            call = pass_chain(nodes, type, order, dice);
            call.kinds.at[nodes / 2] = PULLUP;
            call.states.at[0] = LOW;
            for (size_t i = 0; i < call.types.length; i++)
                if (call.sources.at[i] == 0)
                    network_transistor(&call, i, N_TYPE, 0, 0, call.drains.at[i]);
            expect(&call, DONE, 2, brute_step, dice);
        }
}

/* ---- tiles ---- */

enum { SHARED = 4, TILE_NODES = 7, TILE_TRANSISTORS = 10, MOST_TILES = MOST_NODES };

/* A tile: its nodes' numbers in the large network, the shared inputs first, and
   its own transistors. */
static struct tile {
    size_t nodes, transistors;
    uint16_t node[TILE_NODES];
    uint8_t types[TILE_TRANSISTORS], gates[TILE_TRANSISTORS], sources[TILE_TRANSISTORS],
        drains[TILE_TRANSISTORS];
} tiles[MOST_TILES];
static size_t tile_count;

/* The step of the large network, tile by tile. */
static void tiled_step(const struct call *network, const uint8_t *before, uint8_t *after)
{
    memcpy(after, before, network->kinds.length);
    for (size_t k = 0; k < tile_count; k++) {
        const struct tile *tile = &tiles[k];
        struct call alone = network_call(&tile_storage, tile->nodes, tile->transistors);
        uint8_t next[TILE_NODES];
        for (size_t v = 0; v < tile->nodes; v++) {
            alone.kinds.at[v] = network->kinds.at[tile->node[v]];
            alone.states.at[v] = before[tile->node[v]];
        }
        for (size_t i = 0; i < tile->transistors; i++)
            network_transistor(&alone, i, tile->types[i], tile->gates[i], tile->sources[i],
                               tile->drains[i]);
        brute_step(&alone, alone.states.at, next);
        for (size_t v = SHARED; v < tile->nodes; v++)
            after[tile->node[v]] = next[v];
    }
}

static void shuffle(uint16_t *numbers, size_t count, struct dice *dice)
{
    for (size_t i = 0; i < count; i++)
        numbers[i] = (uint16_t)i;
    for (size_t left = count; left > 1; left--) {
        size_t i = left - 1, j = dice_below(dice, (uint32_t)left);
        uint16_t kept = numbers[i];
        numbers[i] = numbers[j];
        numbers[j] = kept;
    }
}

/* One node in eight is an input or a rail, and of the others one in three a pullup. */
static uint8_t tile_kind(struct dice *dice)
{
    if (dice_below(dice, 8) == 0)
        return (uint8_t)(INPUT + dice_below(dice, 3));
    return dice_below(dice, 3) == 0 ? PULLUP : NORMAL;
}

/* Cuts a large network of exactly so many nodes and transistors into random tiles. */
static struct call tiled_network(size_t nodes, size_t transistors, struct dice *dice)
{
    static uint16_t node_numbers[MOST_NODES], wire_numbers[MOST_TRANSISTORS];
    struct call call = network_call(&storage, nodes, transistors);
    size_t next_node = SHARED, next_wire = 0;
    shuffle(node_numbers, nodes, dice);
    shuffle(wire_numbers, transistors, dice);
    for (size_t v = 0; v < SHARED; v++)
        call.kinds.at[node_numbers[v]] = (uint8_t)(v < 2 ? INPUT : v == 2 ? GROUND : POWER);
    for (tile_count = 0; next_node < nodes; tile_count++) {
        struct tile *tile = &tiles[tile_count];
        size_t own = 1 + dice_below(dice, TILE_NODES - SHARED);
        own = own < nodes - next_node ? own : nodes - next_node;
        size_t wires_left = transistors - next_wire;
        tile->nodes = SHARED + own;
        tile->transistors = wires_left < TILE_TRANSISTORS ? wires_left
                          : dice_below(dice, 7) + (wires_left > 2 * (nodes - next_node) ? 3 : 0);
        for (size_t v = 0; v < SHARED; v++)
            tile->node[v] = node_numbers[v];
        for (size_t v = SHARED; v < tile->nodes; v++) {
            tile->node[v] = node_numbers[next_node++];
            call.kinds.at[tile->node[v]] = tile_kind(dice);
        }
        for (size_t i = 0; i < tile->transistors; i++) {
            tile->types[i] = (uint8_t)(dice_below(dice, 8) == 0 ? D_TYPE : dice_below(dice, 2));
            tile->gates[i] = (uint8_t)dice_below(dice, (uint32_t)tile->nodes);
            tile->sources[i] = (uint8_t)dice_below(dice, (uint32_t)tile->nodes);
            tile->drains[i] = (uint8_t)dice_below(dice, (uint32_t)tile->nodes);
            network_transistor(&call, wire_numbers[next_wire++], tile->types[i],
                               tile->node[tile->gates[i]], tile->node[tile->sources[i]],
                               tile->node[tile->drains[i]]);
        }
    }
    /* what is left over links inputs, which has no effect */
    while (next_wire < transistors)
        network_transistor(&call, wire_numbers[next_wire++], (uint8_t)dice_below(dice, 3),
                           (uint16_t)dice_below(dice, (uint32_t)nodes), node_numbers[0],
                           node_numbers[dice_below(dice, SHARED)]);
    return call;
}

static void tiled(size_t nodes, size_t transistors, struct dice *dice)
{
    static uint8_t start[MOST_NODES];
    struct call call = tiled_network(nodes, transistors, dice);
    uint32_t answer[4];
    network_random_states(&call, dice);
    memcpy(start, call.states.at, nodes);

    static const enum entry entries[] = {ENTRY_STEP, ENTRY_UNIT_RUN, ENTRY_TERNARY_RUN};
    for (int settled = 0; settled < 2; settled++) {
        for (int k = 0; k < 3; k++) {
            call.entry = entries[k];
            call.limit = dice_below(dice, 30);
            network_random_changes(&call, dice);
            memcpy(call.states.at, start, nodes);
            network_random_work(&call, dice);
            door_now_checking("full", ++tried, "");
            door_compare_by(tiled_step, &call, answer);
        }
        /* from X everywhere but at the inputs every network settles */
        for (size_t v = 0; v < nodes; v++)
            if (!network_is_input(call.kinds.at[v]))
                start[v] = UNKNOWN;
        memcpy(call.states.at, start, nodes);
        call.entry = ENTRY_UNIT_RUN;
        call.limit = 0;
        call.change_nodes.length = call.change_states.length = 0;
        expect(&call, DONE, 0, tiled_step, dice);
        memcpy(start, call.states.at, nodes);
    }
}

void check_full_size(const struct options *options)
{
    struct dice dice = dice_for(options->seed, 2);
    for (enum entry entry = 0; entry < ENTRIES; entry++) {
        lengths_of_one_entry(entry, &dice);
        last_places(entry, &dice);
        if (entry_takes_work(entry))
            inputs_only(entry, &dice);
        if (entry_takes_changes(entry))
            change_lists(entry, &dice);
    }
    reset_of_every_kind(&dice);
    first_changed_nodes(&dice);
    limits(&dice);
    default_limit(&dice);
    inverter_chain(12, &dice);
    inverter_chain(102, &dice);
    inverter_chain(1002, &dice);
    pass_chains(200, &dice);
    pass_chains(1500, &dice);
    for (int k = 0; k < 6; k++) {
        tiled(MOST_NODES, MOST_TRANSISTORS, &dice);
        tiled(MOST_NODES - dice_below(&dice, 500), MOST_TRANSISTORS - dice_below(&dice, 500),
              &dice);
        tiled(100 + dice_below(&dice, 400), 200 + dice_below(&dice, 800), &dice);
    }
    printf("full size: %" PRIu64 " calls at both sides of each bound and on large networks\n",
           tried);
}
