/*
   Malformed calls: every refusal at several places, every pair of refusals (the
   lowest number wins), random handfuls of them, every byte that a table must not
   hold and the node numbers. The number that each fault must be refused by is
   written here a second time, beside brute force.
*/
#include <inttypes.h>
#include <stdio.h>
#include <string.h>

#include "door.h"
#include "host.h"
#include "network.h"

enum { SIZE = 1, LIMIT, KIND, WIRE, STATE, CHANGE, START };
enum { NODES = 5, TRANSISTORS = 4, CHANGES = 2 };

static struct storage storage;

/* A settled network: node 0 ground, 1 an input, 2 the output of an inverter, 3 and 4
   behind a pass transistor and a p transistor. Whatever a fault may have altered
   is written anew; the tables' far parts are 0 and stay so. */
static struct call sound_call(enum entry entry)
{
    struct call call = network_call(&storage, NODES, TRANSISTORS);
    call.entry = entry;
    network_kinds(&call, "GIPNN");
    network_states(&call, "01000");
    network_transistor(&call, 0, N_TYPE, 1, 0, 2);
    network_transistor(&call, 1, N_TYPE, 1, 2, 3);
    network_transistor(&call, 2, P_TYPE, 1, 3, 4);
    network_transistor(&call, 3, D_TYPE, 4, 3, 3);
    network_change(&call, 1, LOW);
    network_change(&call, 0, LOW);
    return call;
}

/* ---- what can be wrong ---- */

enum { LENGTHS = 9 };

static size_t *length(struct call *call, uint32_t table)
{
    size_t *lengths[LENGTHS] = {
        &call->kinds.length, &call->states.length, &call->types.length, &call->gates.length,
        &call->sources.length, &call->drains.length, &call->change_nodes.length,
        &call->change_states.length, &call->work.length,
    };
    return lengths[table];
}

static const size_t odd_lengths[] = {0, 4096, 4097, 8192, 8193, 65535, 65536, 65537, 65541};
enum { ODD_LENGTHS = sizeof odd_lengths / sizeof *odd_lengths };

/* One table longer or shorter than it should be. */
static void wrong_length(struct call *call, uint32_t way)
{
    size_t *changed = length(call, way / 3);
    if (way / 3 == 8)
        *changed -= 1 + way % 3; /* a larger work area is no fault */
    else
        *changed = way % 3 == 0 ? *changed - 1 : way % 3 == 1 ? *changed + 1 : 65536 + *changed;
}

/* All tables of nodes too long together, or none at all. */
static void wrong_nodes(struct call *call, uint32_t way)
{
    static const size_t lengths[] = {0, 4097, 65535, 65536, 65537, 65536 + NODES};
    call->kinds.length = call->states.length = lengths[way];
    call->work.length = LONGEST;
}

/* All tables of transistors too long together. */
static void wrong_transistors(struct call *call, uint32_t way)
{
    static const size_t lengths[] = {8193, 65535, 65536, 65537, 65536 + TRANSISTORS};
    call->types.length = call->gates.length = lengths[way];
    call->sources.length = call->drains.length = lengths[way];
    call->work.length = LONGEST;
}

static void wrong_changes(struct call *call, uint32_t way)
{
    static const size_t lengths[] = {4097, 65535, 65536, 65537, 65536 + CHANGES};
    call->change_nodes.length = call->change_states.length = lengths[way];
}

static void wrong_limit(struct call *call, uint32_t way)
{
    static const uint32_t limits[] = {10001, 65536, 0x80000000u, UINT32_MAX};
    call->limit = limits[way];
}

static const uint8_t wrong_bytes[] = {3, 4, 128, 255}, wrong_kinds[] = {5, 6, 128, 255};

static void wrong_kind(struct call *call, uint32_t way)
{
    static const uint8_t nodes[] = {0, 2, 4};
    call->kinds.at[nodes[way % 3]] = wrong_kinds[way / 3 % 4];
    if (way >= 12)
        call->kinds.at[4] = 7;
}

static void wrong_state(struct call *call, uint32_t way)
{
    static const uint8_t nodes[] = {0, 2, 4};
    call->states.at[nodes[way % 3]] = wrong_bytes[way / 3 % 4];
    if (way >= 12)
        call->states.at[4] = 7;
}

static void wrong_wire(struct call *call, uint32_t way)
{
    static const uint16_t no_nodes[] = {NODES, NODES + 1, 4096, 65535};
    uint32_t transistor = way % 4;
    switch (way / 4 % 4) {
    case 0: call->types.at[transistor] = wrong_bytes[way % 4]; break;
    case 1: call->gates.at[transistor] = no_nodes[way % 4]; break;
    case 2: call->sources.at[transistor] = no_nodes[way % 4]; break;
    case 3: call->drains.at[transistor] = no_nodes[way % 4]; break;
    }
    if (way >= 16)
        call->gates.at[3] = 65535;
}

static void wrong_change(struct call *call, uint32_t way)
{
    switch (way) {
    case 0: call->change_nodes.at[0] = NODES; break;
    case 1: call->change_nodes.at[1] = NODES; break;
    case 2: call->change_nodes.at[1] = 65535; break;
    case 3: call->change_nodes.at[0] = 2; break;
    case 4: call->change_nodes.at[1] = 4; break;
    case 5: call->change_states.at[0] = 3; break;
    case 6: call->change_states.at[1] = 255; break;
    case 7: call->change_nodes.at[1] = 1; break;
    case 8: call->change_nodes.at[1] = 1; call->change_states.at[1] = HIGH; break;
    case 9: call->change_nodes.at[0] = 3; call->change_states.at[1] = 9; break;
    }
}

static void unsettled(struct call *call, uint32_t way)
{
    call->states.at[2 + way] = way == 0 ? UNKNOWN : HIGH;
}

enum {
    ANY = ~0u,
    LEND_STATES = 1u << ENTRY_RESET | 1u << ENTRY_STEP | 1u << ENTRY_UNIT_RUN
                | 1u << ENTRY_TERNARY_RUN,
    LEND_TRANSISTORS = ANY & ~(1u << ENTRY_RESET),
    LEND_CHANGES = 1u << ENTRY_UNIT_RUN | 1u << ENTRY_TERNARY_RUN,
    LEND_WORK = LEND_CHANGES | 1u << ENTRY_STEP
};

static const struct fault {
    uint32_t number; /* what it must be refused by */
    void (*plant)(struct call *call, uint32_t way);
    uint32_t ways;
    uint32_t entries; /* those that refuse it */
} faults[] = {
    {SIZE, wrong_length, 3 * LENGTHS, ANY},
    {SIZE, wrong_nodes, 6, ANY},
    {SIZE, wrong_transistors, 5, LEND_TRANSISTORS},
    {SIZE, wrong_changes, 5, LEND_CHANGES},
    {LIMIT, wrong_limit, 4, 1u << ENTRY_UNIT_RUN},
    {KIND, wrong_kind, 16, ANY},
    {WIRE, wrong_wire, 20, LEND_TRANSISTORS},
    {STATE, wrong_state, 16, LEND_WORK},
    {CHANGE, wrong_change, 10, LEND_CHANGES},
    {START, unsettled, 2, 1u << ENTRY_TERNARY_RUN},
};
enum { FAULTS = sizeof faults / sizeof *faults };

/* Whether the entry refuses the fault planted this way. */
static bool refused_by(const struct fault *fault, uint32_t way, enum entry entry)
{
    if (!(fault->entries >> entry & 1))
        return false;
    if (fault->plant != wrong_length)
        return true;
    static const uint32_t takers[LENGTHS] = {
        LEND_STATES, LEND_STATES, LEND_TRANSISTORS, LEND_TRANSISTORS, LEND_TRANSISTORS,
        LEND_TRANSISTORS, LEND_CHANGES, LEND_CHANGES, LEND_WORK,
    };
    return takers[way / 3] >> entry & 1;
}

/* ---- the calls ---- */

static uint64_t tried;

static void try_refused(struct call *call, uint32_t number, struct dice *dice)
{
    uint32_t answer[4];
    door_now_checking("refusals", ++tried, "");
    door_lend_null(tried % 2);
    network_random_work(call, dice);
    door_compare(call, answer);
    if (answer[0] != number)
        door_difference("brute force does not refuse by the number wanted");
}

static void singles_and_pairs(enum entry entry, struct dice *dice)
{
    for (int a = 0; a < FAULTS; a++)
        for (uint32_t way = 0; way < faults[a].ways; way++) {
            if (!refused_by(&faults[a], way, entry))
                continue;
            struct call call = sound_call(entry);
            faults[a].plant(&call, way);
            try_refused(&call, faults[a].number, dice);

            for (int b = a + 1; b < FAULTS; b++)
                for (uint32_t other = 0; other < faults[b].ways; other++) {
                    if (!refused_by(&faults[b], other, entry)
                        || faults[a].number == faults[b].number)
                        continue;
                    struct call both = sound_call(entry);
                    faults[b].plant(&both, other);
                    faults[a].plant(&both, way);
                    try_refused(&both, faults[a].number, dice);
                }
        }
}

/* Faults that the entry does not look at do not matter. */
static void unseen_faults(enum entry entry, struct dice *dice)
{
    for (int a = 0; a < FAULTS; a++)
        for (uint32_t way = 0; way < faults[a].ways; way++) {
            if (faults[a].entries >> entry & 1)
                continue;
            struct call call = sound_call(entry);
            call.limit = 0;
            faults[a].plant(&call, way);
            try_refused(&call, 0, dice);
        }
}

static void random_handfuls(enum entry entry, struct dice *dice)
{
    for (int turn = 0; turn < 2000; turn++) {
        struct call call = sound_call(entry);
        uint32_t number = 0;
        for (int a = FAULTS - 1; a >= 0; a--) {
            uint32_t way = dice_below(dice, faults[a].ways);
            if (!refused_by(&faults[a], way, entry) || dice_below(dice, 3) > 0
                || (faults[a].number == SIZE && number == SIZE))
                continue;
            faults[a].plant(&call, way);
            number = faults[a].number;
        }
        try_refused(&call, number, dice);
    }
}

static void compare_one(struct call *call, struct dice *dice)
{
    uint32_t answer[4];
    door_now_checking("refusals", ++tried, "");
    door_lend_null(tried % 2);
    network_random_work(call, dice);
    door_compare(call, answer);
}

/* Every byte at every place of every table of bytes. */
static void every_byte(enum entry entry, struct dice *dice)
{
    static const size_t lengths[4] = {NODES, NODES, TRANSISTORS, CHANGES};
    for (int table = 0; table < 4; table++)
        for (size_t place = 0; place < lengths[table]; place++)
            for (uint32_t byte = 0; byte <= 255; byte++) {
                struct call call = sound_call(entry);
                uint8_t *tables[4] = {call.kinds.at, call.states.at, call.types.at,
                                      call.change_states.at};
                tables[table][place] = (uint8_t)byte;
                compare_one(&call, dice);
            }
}

/* Node numbers in every table of node numbers: all near the bounds, and one in
   thirty-seven of those between. */
static void node_numbers(enum entry entry, struct dice *dice)
{
    for (uint32_t number = 0; number <= 65535; number += number < 4200 || number > 65000 ? 1 : 37)
        for (int table = 0; table < 4; table++) {
            struct call call = sound_call(entry);
            uint16_t *tables[4] = {call.gates.at, call.sources.at, call.drains.at,
                                   call.change_nodes.at};
            tables[table][number % (table == 3 ? CHANGES : TRANSISTORS)] = (uint16_t)number;
            compare_one(&call, dice);
        }
}

/* Every odd length of every single table. */
static void every_odd_length(enum entry entry, struct dice *dice)
{
    for (uint32_t table = 0; table < LENGTHS; table++)
        for (int k = 0; k < ODD_LENGTHS; k++) {
            struct call call = sound_call(entry);
            *length(&call, table) = odd_lengths[k];
            compare_one(&call, dice);
        }
}

void check_refusals(const struct options *options)
{
    struct dice dice = dice_for(options->seed, 1);
    for (enum entry entry = 0; entry < ENTRIES; entry++) {
        singles_and_pairs(entry, &dice);
        unseen_faults(entry, &dice);
        random_handfuls(entry, &dice);
        every_odd_length(entry, &dice);
        every_byte(entry, &dice);
        node_numbers(entry, &dice);
    }
    printf("refusals: %" PRIu64 " malformed calls and their neighbours\n", tried);
}
