/*
   A plain C simulator by joined sets: see plain.h.

   A step takes the nodes set by set. A set is what closed transistors join,
   never through an input. Its strongest sources are found while it is flooded;
   where no unknown transistor touches it, they decide all its nodes at once.

   The other sets are kept, and two tables of strengths are filled for their
   nodes, each by spreading from the strongest first:

   - against 0: the strongest source other than 0 that may reach a node, through
     transistors that are not open, where nothing certain on the way is stronger;
   - against 1: the same for sources other than 1.

   A node is 0 where nothing stands against 0, 1 where nothing stands against 1,
   and X otherwise. What is certain at a node is the strength of its set.
*/
#include "plain.h"

#include <stdio.h>
#include <stdlib.h>
#include <string.h>

enum { NORMAL, PULLUP, INPUT };
enum { LOW, HIGH, UNKNOWN };
enum { OPEN, MAYBE, CLOSED };
enum { WEAKEST = 1, STRONGEST = 3 };

/* Which states sources have: LOW's bit, HIGH's, or both. */
enum { SOME_LOW = 1, SOME_HIGH = 2 };

/* One way out of a node: through a transistor to another. */
struct way {
    uint16_t transistor, to;
};

struct plain {
    struct plain_network network;
    uint32_t *first_way;  /* of each node, and the end of the last one's: none of inputs */
    uint32_t *inputs_way; /* of each node: where its ways to inputs begin */
    struct way *ways;
    uint8_t *standing;                   /* of each transistor */
    uint8_t *seen;                       /* of each node */
    uint8_t *against_low, *against_high; /* of each node that is kept: see `cell` */
    uint16_t *members;                   /* those kept, and then the set being flooded */
    uint16_t *waiting;                   /* nodes to spread from */
    uint8_t *next;
};

static void *room(size_t count, size_t size)
{
    void *memory = calloc(count + 1, size);
    if (memory == NULL) {
        perror("plain");
        exit(2);
    }
    return memory;
}

/* ---- the network's lists ---- */

/* An input or a rail. */
static bool is_input(uint8_t kind)
{
    return kind >= INPUT;
}

static void count_way(struct plain *plain, uint16_t from)
{
    if (!is_input(plain->network.kinds[from]))
        plain->first_way[from + 1]++;
}

/* Enters the way where it leads to an input or not, as asked. */
static void enter_way(struct plain *plain, uint32_t *end, size_t transistor, uint16_t from,
                      uint16_t to, bool to_input)
{
    const uint8_t *kinds = plain->network.kinds;
    if (!is_input(kinds[from]) && is_input(kinds[to]) == to_input)
        plain->ways[end[from]++] = (struct way){(uint16_t)transistor, to};
}

static void list_ways(struct plain *plain)
{
    const struct plain_network *network = &plain->network;
    for (size_t i = 0; i < network->transistors; i++) {
        count_way(plain, network->sources[i]);
        count_way(plain, network->drains[i]);
    }
    for (size_t v = 0; v < network->nodes; v++)
        plain->first_way[v + 1] += plain->first_way[v];
    uint32_t *end = room(network->nodes, sizeof *end);
    memcpy(end, plain->first_way, network->nodes * sizeof *end);
    for (int to_input = 0; to_input < 2; to_input++) {
        for (size_t i = 0; i < network->transistors; i++) {
            enter_way(plain, end, i, network->sources[i], network->drains[i], to_input);
            enter_way(plain, end, i, network->drains[i], network->sources[i], to_input);
        }
        if (!to_input)
            memcpy(plain->inputs_way, end, network->nodes * sizeof *end);
    }
    free(end);
}

struct plain *plain_open(const struct plain_network *network)
{
    struct plain *plain = room(1, sizeof *plain);
    size_t nodes = network->nodes, transistors = network->transistors;
    plain->network = *network;
    plain->first_way = room(nodes, sizeof *plain->first_way);
    plain->inputs_way = room(nodes, sizeof *plain->inputs_way);
    plain->ways = room(2 * transistors, sizeof *plain->ways);
    plain->standing = room(transistors, 1);
    plain->seen = room(nodes, 1);
    plain->against_low = room(nodes, 1);
    plain->against_high = room(nodes, 1);
    plain->members = room(nodes, sizeof *plain->members);
    plain->waiting = room(nodes, sizeof *plain->waiting);
    plain->next = room(nodes, 1);
    list_ways(plain);
    return plain;
}

void plain_close(struct plain *plain)
{
    free(plain->first_way);
    free(plain->inputs_way);
    free(plain->ways);
    free(plain->standing);
    free(plain->seen);
    free(plain->against_low);
    free(plain->against_high);
    free(plain->members);
    free(plain->waiting);
    free(plain->next);
    free(plain);
}

/* ---- one step ---- */

/* By type, n, p or d, and gate. */
static const uint8_t standing_of[3][3] = {
    {OPEN, CLOSED, MAYBE}, {CLOSED, OPEN, MAYBE}, {CLOSED, CLOSED, CLOSED}};

static const uint8_t states_of[3] = {SOME_LOW, SOME_HIGH, SOME_LOW | SOME_HIGH};

/* The strongest sources of a set: how strong they are, and which states they have. */
struct sources {
    uint8_t strength, states;
    bool all_known; /* no unknown transistor touches the set */
};

static void count_source(struct sources *sources, uint8_t strength, uint8_t states)
{
    if (strength > sources->strength)
        sources->strength = strength, sources->states = states;
    else if (strength == sources->strength)
        sources->states |= states;
}

/* A cell has 2k + 1 for the strength k; 2k where there is none and nothing up to k may come. */
static uint8_t cell(bool there, uint8_t strength)
{
    return (uint8_t)(there ? 2 * strength + 1 : 2 * (strength - 1));
}

/* Floods the set of node v, whose members are put behind those kept; returns
   where they end. What inputs may bring to a node is left in `against_low`. */
static size_t flood(struct plain *plain, const uint8_t *states, uint16_t v, size_t kept,
                    struct sources *sources)
{
    const uint8_t *kinds = plain->network.kinds, *standing = plain->standing;
    const struct way *ways = plain->ways;
    uint8_t *seen = plain->seen;
    uint16_t *members = plain->members;
    size_t end = kept;
    members[end++] = v;
    seen[v] = true;
    for (size_t k = kept; k < end; k++) {
        uint16_t from = members[k];
        bool pullup = kinds[from] == PULLUP;
        struct sources own = {pullup ? 2 : 1, pullup ? SOME_HIGH : states_of[states[from]], true};
        uint8_t offered = 0;
        uint32_t w = plain->first_way[from], last = plain->first_way[from + 1];
        for (; w < plain->inputs_way[from]; w++) {
            uint8_t stands = standing[ways[w].transistor];
            uint16_t to = ways[w].to;
            if (stands == MAYBE)
                own.all_known = false;
            else if (stands == CLOSED && !seen[to])
                seen[to] = true, members[end++] = to;
        }
        for (; w < last; w++) {
            uint8_t stands = standing[ways[w].transistor];
            if (stands == CLOSED)
                count_source(&own, STRONGEST, states_of[states[ways[w].to]]);
            else if (stands == MAYBE)
                offered |= states_of[states[ways[w].to]];
        }
        plain->against_low[from] = offered;
        count_source(sources, own.strength, own.states);
        sources->all_known &= own.all_known && offered == 0;
    }
    return end;
}

/* Spreads the strengths of a table among the nodes kept, the strongest first. */
static void spread(struct plain *plain, uint8_t *table, size_t kept)
{
    const struct way *ways = plain->ways;
    uint16_t *waiting = plain->waiting;
    for (uint8_t strength = STRONGEST; strength >= WEAKEST; strength--) {
        uint8_t has = cell(true, strength);
        size_t end = 0;
        for (size_t k = 0; k < kept; k++)
            if (table[plain->members[k]] == has)
                waiting[end++] = plain->members[k];
        for (size_t k = 0; k < end; k++) {
            uint16_t from = waiting[k];
            for (uint32_t w = plain->first_way[from]; w < plain->inputs_way[from]; w++) {
                uint16_t to = ways[w].to;
                if (table[to] < has - 1 && plain->standing[ways[w].transistor] != OPEN) {
                    table[to] = has;
                    waiting[end++] = to;
                }
            }
        }
    }
}

/* The set of node v is decided, or its members are kept; returns how many are. */
static size_t take_set(struct plain *plain, const uint8_t *states, uint8_t *next, uint16_t v,
                       size_t kept)
{
    struct sources sources = {0, 0, true};
    size_t end = flood(plain, states, v, kept, &sources);
    if (sources.all_known) {
        for (size_t k = kept; k < end; k++)
            next[plain->members[k]] = (uint8_t)(sources.states - 1);
        return kept;
    }
    uint8_t low = cell(sources.states & SOME_HIGH, sources.strength);
    uint8_t high = cell(sources.states & SOME_LOW, sources.strength);
    for (size_t k = kept; k < end; k++) {
        uint16_t member = plain->members[k];
        uint8_t offered = plain->against_low[member];
        plain->against_low[member] = offered & SOME_HIGH ? cell(true, STRONGEST) : low;
        plain->against_high[member] = offered & SOME_LOW ? cell(true, STRONGEST) : high;
    }
    return end;
}

size_t plain_step(struct plain *plain, const uint8_t *states, uint8_t *next)
{
    const struct plain_network *network = &plain->network;
    for (size_t i = 0; i < network->transistors; i++)
        plain->standing[i] = standing_of[network->types[i]][states[network->gates[i]]];

    size_t kept = 0;
    memset(plain->seen, false, network->nodes);
    for (size_t v = 0; v < network->nodes; v++) {
        if (is_input(network->kinds[v]))
            next[v] = states[v];
        else if (!plain->seen[v])
            kept = take_set(plain, states, next, (uint16_t)v, kept);
    }
    if (kept > 0) {
        spread(plain, plain->against_low, kept);
        spread(plain, plain->against_high, kept);
        for (size_t k = 0; k < kept; k++) {
            uint16_t v = plain->members[k];
            next[v] = plain->against_low[v] % 2 == 0    ? LOW
                      : plain->against_high[v] % 2 == 0 ? HIGH
                                                        : UNKNOWN;
        }
    }
    size_t differing = 0;
    for (size_t v = 0; v < network->nodes; v++)
        differing += next[v] != states[v];
    return differing;
}

/* ---- runs ---- */

static bool settle(struct plain *plain, uint8_t *states, uint32_t limit, uint32_t *count)
{
    for (*count = 0; plain_step(plain, states, plain->next) > 0; ++*count) {
        if (*count == limit)
            return false;
        memcpy(states, plain->next, plain->network.nodes);
    }
    return true;
}

static void enter(uint8_t *states, const struct plain_changes *changes)
{
    for (size_t i = 0; i < changes->count; i++)
        states[changes->nodes[i]] = changes->states[i];
}

bool plain_unit_run(struct plain *plain, uint8_t *states, const struct plain_changes *changes,
                    uint32_t limit, uint32_t *count)
{
    enter(states, changes);
    return settle(plain, states, limit, count);
}

bool plain_ternary_run(struct plain *plain, uint8_t *states, const struct plain_changes *changes,
                       uint32_t counts[2])
{
    if (plain_step(plain, states, plain->next) > 0)
        return false;
    for (size_t i = 0; i < changes->count; i++)
        if (states[changes->nodes[i]] != changes->states[i])
            states[changes->nodes[i]] = UNKNOWN;
    uint32_t enough = (uint32_t)plain->network.nodes; /* no half takes more steps */
    settle(plain, states, enough, &counts[0]);
    enter(states, changes);
    settle(plain, states, enough, &counts[1]);
    return true;
}
