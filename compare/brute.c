/*
   The independent program: see brute.h. Written to be read beside the rules in
   words (docs/MODEL.md), and to be slow rather than clever.
*/
#include "brute.h"

#include <stdbool.h>
#include <stdio.h>
#include <stdlib.h>
#include <string.h>

enum { LOW, HIGH, UNKNOWN };
enum { NORMAL, PULLUP, INPUT, GROUND, POWER };
enum { N_TYPE, P_TYPE, D_TYPE };
enum { DONE, SIZE, LIMIT, KIND, WIRE, STATE, CHANGE, START, OSCILLATES };
enum { MOST_NODES = 4096, MOST_TRANSISTORS = 8192, MOST_CHANGES = 4096 };
enum { DEFAULT_LIMIT = 1000, MOST_LIMIT = 10000 };

/* ---- one step ---- */

static bool is_input(uint8_t kind)
{
    return kind == INPUT || kind == GROUND || kind == POWER;
}

enum standing { OPEN, CLOSED, EITHER };

static enum standing stands(uint8_t type, uint8_t gate)
{
    if (type == D_TYPE)
        return CLOSED;
    if (gate == UNKNOWN)
        return EITHER;
    if (type == N_TYPE)
        return gate == HIGH ? CLOSED : OPEN;
    return gate == LOW ? CLOSED : OPEN;
}

/* Every set has a name, the number of one of its nodes. */
static uint16_t set_of[MOST_NODES];

static void join_sets(const struct call *net, const bool *closed)
{
    for (size_t v = 0; v < net->kinds.length; v++)
        set_of[v] = (uint16_t)v;
    for (size_t i = 0; i < net->types.length; i++) {
        uint16_t a = net->sources.at[i], b = net->drains.at[i];
        if (!closed[i] || is_input(net->kinds.at[a]) || is_input(net->kinds.at[b]))
            continue;
        uint16_t kept = set_of[a], dropped = set_of[b];
        if (kept == dropped)
            continue;
        for (size_t v = 0; v < net->kinds.length; v++)
            if (set_of[v] == dropped)
                set_of[v] = kept;
    }
}

/* What is known of a set: the strongest kind of source met in it so far, a rail
   counting as an input, and whether sources of that kind with state 0, with 1 and
   with X were met. */
static struct sources {
    uint8_t kind;
    bool met[3];
} sources_of[MOST_NODES];

static void add_source(uint16_t set, uint8_t kind, uint8_t state)
{
    struct sources *sources = &sources_of[set];
    if (kind < sources->kind)
        return;
    if (kind > sources->kind)
        *sources = (struct sources){.kind = kind};
    sources->met[state] = true;
}

static void gather_sources(const struct call *net, const uint8_t *before, const bool *closed)
{
    memset(sources_of, 0, net->kinds.length * sizeof *sources_of);
    for (size_t v = 0; v < net->kinds.length; v++) {
        if (net->kinds.at[v] == NORMAL)
            add_source(set_of[v], NORMAL, before[v]);
        if (net->kinds.at[v] == PULLUP)
            add_source(set_of[v], PULLUP, HIGH);
    }
    for (size_t i = 0; i < net->types.length; i++) {
        uint16_t a = net->sources.at[i], b = net->drains.at[i];
        bool a_is_input = is_input(net->kinds.at[a]), b_is_input = is_input(net->kinds.at[b]);
        if (closed[i] && a_is_input && !b_is_input)
            add_source(set_of[b], INPUT, before[a]);
        if (closed[i] && b_is_input && !a_is_input)
            add_source(set_of[a], INPUT, before[b]);
    }
}

static uint8_t state_of_set(uint16_t set)
{
    const bool *met = sources_of[set].met;
    if (met[LOW] && !met[HIGH] && !met[UNKNOWN])
        return LOW;
    if (met[HIGH] && !met[LOW] && !met[UNKNOWN])
        return HIGH;
    return UNKNOWN;
}

void brute_step(const struct call *net, const uint8_t *before, uint8_t *after)
{
    static bool closed[MOST_TRANSISTORS];
    size_t unknown[BRUTE_MOST_UNKNOWN], unknowns = 0;

    for (size_t i = 0; i < net->types.length; i++) {
        enum standing standing = stands(net->types.at[i], before[net->gates.at[i]]);
        closed[i] = standing == CLOSED;
        if (standing != EITHER)
            continue;
        if (unknowns == BRUTE_MOST_UNKNOWN) {
            fprintf(stderr, "brute: too many unknown transistors to try every choice\n");
            exit(2);
        }
        unknown[unknowns++] = i;
    }

    memcpy(after, before, net->kinds.length);
    for (uint32_t choice = 0; choice < (uint32_t)1 << unknowns; choice++) {
        for (size_t k = 0; k < unknowns; k++)
            closed[unknown[k]] = (choice >> k) & 1;
        join_sets(net, closed);
        gather_sources(net, before, closed);
        for (size_t v = 0; v < net->kinds.length; v++) {
            if (is_input(net->kinds.at[v]))
                continue;
            uint8_t given = state_of_set(set_of[v]);
            if (choice == 0)
                after[v] = given;
            else if (after[v] != given)
                after[v] = UNKNOWN;
        }
    }
}

/* ---- refusals ---- */

static bool lengths_fit(const struct call *call)
{
    size_t nodes = call->kinds.length, transistors = call->types.length;
    if (nodes < 1 || nodes > MOST_NODES)
        return false;
    if (entry_takes_states(call->entry) && call->states.length != nodes)
        return false;
    if (entry_takes_transistors(call->entry)) {
        if (transistors > MOST_TRANSISTORS || call->gates.length != transistors
            || call->sources.length != transistors || call->drains.length != transistors)
            return false;
    }
    if (entry_takes_changes(call->entry)) {
        size_t changes = call->change_nodes.length;
        if (changes > MOST_CHANGES || call->change_states.length != changes)
            return false;
    }
    return !entry_takes_work(call->entry) || call->work.length >= 4 * nodes + 2 * transistors;
}

static bool wire_fits(const struct call *call, size_t i)
{
    size_t nodes = call->kinds.length;
    return call->types.at[i] <= D_TYPE && call->gates.at[i] < nodes
        && call->sources.at[i] < nodes && call->drains.at[i] < nodes;
}

static bool change_fits(const struct call *call, size_t i)
{
    uint16_t node = call->change_nodes.at[i];
    if (node >= call->kinds.length || !is_input(call->kinds.at[node])
        || call->change_states.at[i] > UNKNOWN)
        return false;
    for (size_t earlier = 0; earlier < i; earlier++)
        if (call->change_nodes.at[earlier] == node)
            return false;
    return true;
}

static bool settled(brute_stepper *step, const struct call *net, const uint8_t *states)
{
    static uint8_t after[MOST_NODES];
    step(net, states, after);
    return memcmp(states, after, net->kinds.length) == 0;
}

static uint32_t refuse(uint32_t number, size_t at, uint32_t *place)
{
    *place = (uint32_t)at;
    return number;
}

/* The lowest refusal that applies, with its first place; DONE if there is none. */
static uint32_t refusal(brute_stepper *step, const struct call *call, uint32_t *place)
{
    enum entry entry = call->entry;
    *place = 0;
    if (!lengths_fit(call))
        return SIZE;
    if (entry == ENTRY_UNIT_RUN && call->limit > MOST_LIMIT)
        return LIMIT;
    for (size_t v = 0; v < call->kinds.length; v++)
        if (call->kinds.at[v] > POWER)
            return refuse(KIND, v, place);
    for (size_t i = 0; entry_takes_transistors(entry) && i < call->types.length; i++)
        if (!wire_fits(call, i))
            return refuse(WIRE, i, place);
    for (size_t v = 0; entry_takes_work(entry) && v < call->states.length; v++)
        if (call->states.at[v] > UNKNOWN)
            return refuse(STATE, v, place);
    for (size_t i = 0; entry_takes_changes(entry) && i < call->change_nodes.length; i++)
        if (!change_fits(call, i))
            return refuse(CHANGE, i, place);
    if (entry == ENTRY_TERNARY_RUN && !settled(step, call, call->states.at))
        return START;
    return DONE;
}

/* ---- runs ---- */

/* Takes steps until settled, at most `limit`. Returns whether it settled. */
static bool settle(brute_stepper *step, struct call *call, uint32_t limit, uint32_t *count)
{
    uint8_t after[MOST_NODES];
    for (*count = 0;; ++*count) {
        step(call, call->states.at, after);
        if (memcmp(call->states.at, after, call->kinds.length) == 0)
            return true;
        if (*count == limit)
            return false;
        memcpy(call->states.at, after, call->kinds.length);
    }
}

/* The lowest node whose state differs, looked for from the top down; the number
   of nodes if there is none. */
static uint32_t first_changed(const uint8_t *before, const uint8_t *after, size_t nodes)
{
    size_t lowest = nodes;
    for (size_t v = nodes; v-- > 0;)
        if (before[v] != after[v])
            lowest = v;
    return (uint32_t)lowest;
}

static void reset(struct call *call)
{
    memset(call->states.at, UNKNOWN, call->states.length);
    for (size_t v = 0; v < call->kinds.length; v++) {
        if (call->kinds.at[v] == GROUND)
            call->states.at[v] = LOW;
        if (call->kinds.at[v] == POWER)
            call->states.at[v] = HIGH;
    }
}

static void one_step(brute_stepper *step, struct call *call, uint32_t answer[4])
{
    uint8_t after[MOST_NODES];
    step(call, call->states.at, after);
    answer[1] = first_changed(call->states.at, after, call->kinds.length);
    for (size_t v = 0; v < call->kinds.length; v++)
        if (call->states.at[v] != after[v])
            answer[2]++;
    memcpy(call->states.at, after, call->kinds.length);
}

static void enter_changes(struct call *call)
{
    for (size_t i = 0; i < call->change_nodes.length; i++)
        call->states.at[call->change_nodes.at[i]] = call->change_states.at[i];
}

static void unit_run(brute_stepper *step, struct call *call, uint32_t answer[4])
{
    enter_changes(call);
    if (settle(step, call, call->limit == 0 ? DEFAULT_LIMIT : call->limit, &answer[2]))
        return;
    uint8_t after[MOST_NODES]; /* one more step, which is not kept */
    step(call, call->states.at, after);
    answer[0] = OSCILLATES;
    answer[1] = first_changed(call->states.at, after, call->kinds.length);
}

static void ternary_run(brute_stepper *step, struct call *call, uint32_t answer[4])
{
    for (size_t i = 0; i < call->change_nodes.length; i++) {
        uint8_t *present = &call->states.at[call->change_nodes.at[i]];
        if (*present != call->change_states.at[i])
            *present = UNKNOWN;
    }
    bool first = settle(step, call, MOST_NODES, &answer[2]);
    enter_changes(call);
    bool second = settle(step, call, MOST_NODES, &answer[3]);
    if (!first || !second) {
        fprintf(stderr, "brute: a half of a ternary run does not settle\n");
        exit(2);
    }
}

void brute_answer_by(brute_stepper *step, struct call *call, uint32_t answer[4])
{
    memset(answer, 0, 4 * sizeof *answer);
    answer[0] = refusal(step, call, &answer[1]);
    if (answer[0] == DONE) {
        if (call->entry == ENTRY_RESET)
            reset(call);
        if (call->entry == ENTRY_STEP)
            one_step(step, call, answer);
        if (call->entry == ENTRY_UNIT_RUN)
            unit_run(step, call, answer);
        if (call->entry == ENTRY_TERNARY_RUN)
            ternary_run(step, call, answer);
    }
    bool worked = answer[0] == DONE || answer[0] == START || answer[0] == OSCILLATES;
    if (entry_takes_work(call->entry) && worked) {
        size_t used = 4 * call->kinds.length + 2 * call->types.length;
        memset(call->work.at, 0, used * sizeof *call->work.at);
    }
}

void brute_answer(struct call *call, uint32_t answer[4])
{
    brute_answer_by(brute_step, call, answer);
}
