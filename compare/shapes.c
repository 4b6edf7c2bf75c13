/* Networks made to measure: see shapes.h. */
#include "shapes.h"

#include <stdbool.h>
#include <stdio.h>
#include <stdlib.h>

#include "dice.h"

enum { NORMAL, PULLUP, INPUT, GROUND, POWER };
enum { LOW, HIGH, UNKNOWN };
enum { N_TYPE, P_TYPE, D_TYPE };

/* ---- building ---- */

static void begin(struct shape *shape, const char *name, size_t size)
{
    snprintf(shape->name, sizeof shape->name, name, size);
    shape->nodes = shape->transistors = 0;
}

static uint16_t node(struct shape *shape, uint8_t kind)
{
    if (shape->nodes == SHAPE_NODES) {
        fprintf(stderr, "%s: too many nodes\n", shape->name);
        exit(2);
    }
    shape->kinds[shape->nodes] = kind;
    shape->states[shape->nodes] = UNKNOWN;
    return (uint16_t)shape->nodes++;
}

static uint16_t node_at(struct shape *shape, uint8_t kind, uint8_t state)
{
    uint16_t made = node(shape, kind);
    shape->states[made] = state;
    return made;
}

static uint16_t input(struct shape *shape, uint8_t state)
{
    return node_at(shape, INPUT, state);
}

static uint16_t ground_rail(struct shape *shape)
{
    return node_at(shape, GROUND, LOW);
}

static uint16_t power_rail(struct shape *shape)
{
    return node_at(shape, POWER, HIGH);
}

/* An input, and the one that is to be changed. */
static uint16_t changed_input(struct shape *shape, uint8_t state)
{
    return shape->changed = input(shape, state);
}

static void transistor(struct shape *shape, uint8_t type, uint16_t gate, uint16_t source,
                       uint16_t drain)
{
    size_t i = shape->transistors++;
    if (i == SHAPE_TRANSISTORS) {
        fprintf(stderr, "%s: too many transistors\n", shape->name);
        exit(2);
    }
    shape->types[i] = type;
    shape->gates[i] = gate;
    shape->sources[i] = source;
    shape->drains[i] = drain;
}

/* An nMOS inverter: a pullup that the gate draws to ground. */
static uint16_t inverter(struct shape *shape, uint16_t ground, uint16_t gate)
{
    uint16_t out = node(shape, PULLUP);
    transistor(shape, N_TYPE, gate, ground, out);
    return out;
}

/* ---- shapes ---- */

void shape_inverter_chain(struct shape *shape, size_t inverters)
{
    begin(shape, "inverter chain %zu", inverters);
    uint16_t ground = ground_rail(shape), last = changed_input(shape, LOW);
    for (size_t k = 0; k < inverters; k++)
        last = inverter(shape, ground, last);
}

/* One long row of pass transistors from an input. */
void shape_pass_chain(struct shape *shape, size_t nodes)
{
    begin(shape, "pass chain %zu", nodes);
    uint16_t clock = input(shape, HIGH), last = changed_input(shape, LOW);
    while (shape->nodes < nodes) {
        uint16_t next = node(shape, NORMAL);
        transistor(shape, N_TYPE, clock, last, next);
        last = next;
    }
}

/* Dynamic, two phases: each stage has two inverters, each behind a pass gate. It
   holds a pattern of which every bit moves on when the first phase comes. */
void shape_shift_register(struct shape *shape, size_t stages)
{
    begin(shape, "shift register %zu stages", stages);
    uint16_t ground = ground_rail(shape), last = input(shape, HIGH);
    uint16_t phase[2] = {changed_input(shape, LOW), input(shape, LOW)};
    for (size_t k = 0; k < 2 * stages; k++) {
        uint16_t stored = node(shape, NORMAL);
        transistor(shape, N_TYPE, phase[k % 2], last, stored);
        shape->states[stored] = k % 2 == 0 ? !shape->states[last] : shape->states[last];
        last = inverter(shape, ground, stored);
        shape->states[last] = !shape->states[stored];
    }
}

/* A row is 1 where no line of its address draws it to ground. */
void shape_nor_decoder(struct shape *shape, size_t bits)
{
    uint16_t lines[16][2];
    begin(shape, "NOR decoder %zu bits", bits);
    uint16_t ground = ground_rail(shape);
    for (size_t bit = 0; bit < bits; bit++) {
        lines[bit][1] = bit == 0 ? changed_input(shape, LOW) : input(shape, LOW);
        lines[bit][0] = inverter(shape, ground, lines[bit][1]);
    }
    for (size_t row = 0; row < (size_t)1 << bits; row++) {
        uint16_t out = node(shape, PULLUP);
        for (size_t bit = 0; bit < bits; bit++)
            transistor(shape, N_TYPE, lines[bit][!(row >> bit & 1)], ground, out);
    }
}

/* A tree of pass transistors: at each fork the address bit or its complement
   lets the signal through to one of two branches. */
void shape_pass_tree(struct shape *shape, size_t bits)
{
    begin(shape, "pass-tree decoder %zu bits", bits);
    uint16_t ground = ground_rail(shape), root = power_rail(shape);
    size_t first = 0, count = 1;
    for (size_t bit = 0; bit < bits; bit++) {
        uint16_t line = bit == 0 ? changed_input(shape, LOW) : input(shape, LOW);
        uint16_t complement = inverter(shape, ground, line);
        size_t next = shape->nodes;
        for (size_t k = 0; k < count; k++) {
            uint16_t fork = bit == 0 ? root : (uint16_t)(first + k);
            transistor(shape, N_TYPE, complement, fork, node(shape, NORMAL));
            transistor(shape, N_TYPE, line, fork, node(shape, NORMAL));
        }
        first = next;
        count *= 2;
    }
}

/* A row decoder as on a display: ten address bits, two by two predecoded; a row
   is a NOR of five predecoded lines, an inverter, and a clocked pass gate to the
   row's line, whose far end lies behind a second pass gate. The far ends of the
   first `rested` rows are drawn to ground while the clock is low. */
void shape_row_decoder(struct shape *shape, size_t rows, size_t rested)
{
    enum { PAIRS = 5 };
    uint16_t lines[PAIRS][4];
    begin(shape, "row decoder %zu rows", rows);
    uint16_t ground = ground_rail(shape), clock = input(shape, HIGH);
    uint16_t resting = inverter(shape, ground, clock);
    for (size_t pair = 0; pair < PAIRS; pair++) {
        uint16_t low = pair == 0 ? changed_input(shape, LOW) : input(shape, LOW);
        uint16_t high = input(shape, LOW);
        uint16_t truth[2] = {low, high};
        uint16_t complement[2] = {inverter(shape, ground, low), inverter(shape, ground, high)};
        for (size_t value = 0; value < 4; value++) {
            uint16_t hit = node(shape, PULLUP);
            transistor(shape, N_TYPE, value & 1 ? complement[0] : truth[0], ground, hit);
            transistor(shape, N_TYPE, value & 2 ? complement[1] : truth[1], ground, hit);
            lines[pair][value] = inverter(shape, ground, hit);
        }
    }
    for (size_t row = 0; row < rows; row++) {
        uint16_t chosen = node(shape, PULLUP);
        for (size_t pair = 0; pair < PAIRS; pair++)
            transistor(shape, N_TYPE, lines[pair][row >> 2 * pair & 3], ground, chosen);
        uint16_t unchosen = inverter(shape, ground, chosen);
        uint16_t line = node(shape, NORMAL), far_end = node(shape, NORMAL);
        transistor(shape, N_TYPE, clock, unchosen, line);
        transistor(shape, N_TYPE, clock, line, far_end);
        if (row < rested)
            transistor(shape, N_TYPE, resting, far_end, ground);
    }
}

/* A static CMOS gate: NOT (a AND b). */
static uint16_t nand(struct shape *shape, uint16_t ground, uint16_t power, uint16_t a, uint16_t b)
{
    uint16_t out = node(shape, NORMAL), between = node(shape, NORMAL);
    transistor(shape, P_TYPE, a, power, out);
    transistor(shape, P_TYPE, b, power, out);
    transistor(shape, N_TYPE, a, out, between);
    transistor(shape, N_TYPE, b, between, ground);
    return out;
}

/* A ripple-carry adder of nine NAND gates a bit, set to 11..1 + 00..0, so that a
   carry coming in runs through all of it. */
void shape_adder(struct shape *shape, size_t bits)
{
    begin(shape, "static CMOS adder %zu bits", bits);
    uint16_t ground = ground_rail(shape), power = power_rail(shape);
    uint16_t carry = changed_input(shape, LOW);
    for (size_t bit = 0; bit < bits; bit++) {
        uint16_t a = input(shape, HIGH), b = input(shape, LOW);
        uint16_t both = nand(shape, ground, power, a, b);
        uint16_t half = nand(shape, ground, power, nand(shape, ground, power, a, both),
                             nand(shape, ground, power, b, both));
        uint16_t carried = nand(shape, ground, power, half, carry);
        nand(shape, ground, power, nand(shape, ground, power, half, carried),
             nand(shape, ground, power, carry, carried));
        carry = nand(shape, ground, power, both, carried);
    }
}

/* A row of transistors in series from a rail to `out`, and all of the other type
   side by side from the other rail: NAND or NOR, or an inverter where it is one. */
static void cmos_gate(struct shape *shape, uint8_t series_type, uint16_t series_rail,
                      uint16_t other_rail, const uint16_t *gates, size_t width, uint16_t out)
{
    uint16_t last = series_rail;
    for (size_t k = 0; k < width; k++) {
        uint16_t next = k + 1 == width ? out : node(shape, NORMAL);
        transistor(shape, series_type, gates[k], last, next);
        transistor(shape, series_type == N_TYPE ? P_TYPE : N_TYPE, gates[k], other_rail, out);
        last = next;
    }
}

/* Static CMOS logic at random: NANDs, NORs and inverters of up to three inputs,
   each taken from any of 32 inputs and of the gates before. */
void shape_cmos_block(struct shape *shape, size_t transistors, uint64_t seed)
{
    enum { INPUTS = 32, WIDEST = 3 };
    uint16_t signals[SHAPE_NODES], gates[WIDEST];
    struct dice dice = dice_for(seed, transistors);
    begin(shape, "static CMOS block %zu", transistors);
    uint16_t ground = ground_rail(shape), power = power_rail(shape);
    size_t count = 0;
    signals[count++] = changed_input(shape, LOW);
    while (count < INPUTS)
        signals[count++] = input(shape, (uint8_t)dice_below(&dice, 2));
    while (shape->transistors + 2 <= transistors) {
        size_t most = (transistors - shape->transistors) / 2;
        size_t width = 1 + dice_below(&dice, (uint32_t)(most < WIDEST ? most : WIDEST));
        for (size_t k = 0; k < width; k++)
            gates[k] = signals[dice_below(&dice, (uint32_t)count)];
        uint16_t out = node(shape, NORMAL);
        if (dice_below(&dice, 2) == 0)
            cmos_gate(shape, N_TYPE, ground, power, gates, width, out);
        else
            cmos_gate(shape, P_TYPE, power, ground, gates, width, out);
        signals[count++] = out;
    }
}

/* One of the kinds at random, an input or a rail in one case of twenty. */
static void random_node(struct shape *shape, struct dice *dice)
{
    uint32_t drawn = dice_below(dice, 60);
    if (drawn == 0)
        ground_rail(shape);
    else if (drawn == 1)
        power_rail(shape);
    else if (drawn == 2)
        input(shape, (uint8_t)dice_below(dice, 2));
    else
        node(shape, drawn < 15 ? PULLUP : NORMAL);
}

/* Kinds, types and wires at random, with inputs and rails at the gates more often
   than not: without them nearly everything is X. */
void shape_random(struct shape *shape, size_t nodes, size_t transistors, uint64_t seed)
{
    struct dice dice = dice_for(seed, nodes);
    begin(shape, "random %zu", nodes);
    uint32_t count = (uint32_t)nodes;
    changed_input(shape, LOW); /* the benchmark looks for a better one */
    while (shape->nodes < nodes)
        random_node(shape, &dice);
    while (shape->transistors < transistors) {
        uint8_t type = (uint8_t)(dice_below(&dice, 10) == 0 ? D_TYPE : dice_below(&dice, 2));
        uint16_t gate = (uint16_t)dice_below(&dice, count);
        bool from_input = dice_below(&dice, 4) > 0;
        while (from_input && shape->kinds[gate] < INPUT)
            gate = (uint16_t)dice_below(&dice, count);
        uint16_t source = (uint16_t)dice_below(&dice, count);
        transistor(shape, type, gate, source, (uint16_t)dice_below(&dice, count));
    }
}

/* ---- another order ---- */

/* The numbers below `count` in a random order. */
static void shuffle(uint16_t *numbers, size_t count, struct dice *dice)
{
    for (size_t i = 0; i < count; i++) {
        size_t j = dice_below(dice, (uint32_t)i + 1);
        numbers[i] = numbers[j];
        numbers[j] = (uint16_t)i;
    }
}

void shape_shuffle(struct shape *shape, uint64_t seed)
{
    static struct shape drawn;
    static uint16_t place[SHAPE_NODES], order[SHAPE_TRANSISTORS];
    struct dice dice = dice_for(seed, shape->nodes);
    drawn = *shape;
    shuffle(place, drawn.nodes, &dice);
    shuffle(order, drawn.transistors, &dice);
    snprintf(shape->name, sizeof shape->name, "%.36s, shuffled", drawn.name);
    shape->changed = place[drawn.changed];
    for (size_t v = 0; v < drawn.nodes; v++) {
        shape->kinds[place[v]] = drawn.kinds[v];
        shape->states[place[v]] = drawn.states[v];
    }
    for (size_t i = 0; i < drawn.transistors; i++) {
        size_t from = order[i];
        uint16_t source = place[drawn.sources[from]], drain = place[drawn.drains[from]];
        bool over = dice_below(&dice, 2) == 1;
        shape->types[i] = drawn.types[from];
        shape->gates[i] = place[drawn.gates[from]];
        shape->sources[i] = over ? drain : source;
        shape->drains[i] = over ? source : drain;
    }
}
