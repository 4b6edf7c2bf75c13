/*
   A stand-in for the library: the five calls about a network over the plain C
   simulator of compare/, with refusals and work area of its own; the calls about a
   text stand in standin_text.c. It tests the outside check itself: sound, it must
   pass, and with a fault planted in it, it must be caught. Nothing else uses it.
*/
#include <stdbool.h>
#include <string.h>

#include "plain.h"
#include "twistdory.h"

struct transistors {
    const uint8_t *types;
    const uint16_t *gates, *sources, *drains;
    size_t lengths[4];
};

static void write_answer(uint32_t answer[4], uint32_t number, size_t place, uint32_t first,
                         uint32_t second)
{
    answer[TWISTDORY_ANSWER] = number;
    answer[TWISTDORY_PLACE] = (uint32_t)place;
    answer[TWISTDORY_FIRST_COUNT] = first;
    answer[TWISTDORY_SECOND_COUNT] = second;
}

/* ---- refusals: each answers whether it applies, and writes the answer if so ---- */

static bool nodes_refused(size_t kinds_length, size_t states_length, uint32_t answer[4])
{
    bool fits = kinds_length >= TWISTDORY_MIN_NODES && kinds_length <= TWISTDORY_MAX_NODES
             && states_length == kinds_length;
    if (!fits)
        write_answer(answer, TWISTDORY_SIZE, 0, 0, 0);
    return !fits;
}

static bool transistors_refused(const struct transistors *t, uint32_t answer[4])
{
    bool fits = t->lengths[0] <= TWISTDORY_MAX_TRANSISTORS && t->lengths[1] == t->lengths[0]
             && t->lengths[2] == t->lengths[0] && t->lengths[3] == t->lengths[0];
    if (!fits)
        write_answer(answer, TWISTDORY_SIZE, 0, 0, 0);
    return !fits;
}

static bool changes_refused(size_t nodes_length, size_t states_length, uint32_t answer[4])
{
    bool fits = nodes_length <= TWISTDORY_MAX_CHANGES && states_length == nodes_length;
    if (!fits)
        write_answer(answer, TWISTDORY_SIZE, 0, 0, 0);
    return !fits;
}

static bool work_refused(size_t nodes, size_t transistors, size_t cells, uint32_t answer[4])
{
    bool fits = cells >= TWISTDORY_WORK_CELLS(nodes, transistors);
    if (!fits)
        write_answer(answer, TWISTDORY_SIZE, 0, 0, 0);
    return !fits;
}

static bool limit_refused(uint32_t limit, uint32_t answer[4])
{
    bool fits = limit <= TWISTDORY_MAX_LIMIT;
    if (!fits)
        write_answer(answer, TWISTDORY_LIMIT, 0, 0, 0);
    return !fits;
}

/* Kinds and states are refused alike: a byte above the highest. */
static bool bytes_refused(const uint8_t *bytes, size_t length, uint8_t highest, uint32_t number,
                          uint32_t answer[4])
{
    size_t v = 0;
    while (v < length && bytes[v] <= highest)
        v++;
    if (v < length)
        write_answer(answer, number, v, 0, 0);
    return v < length;
}

static bool kinds_refused(const uint8_t *kinds, size_t length, uint32_t answer[4])
{
    return bytes_refused(kinds, length, TWISTDORY_POWER, TWISTDORY_KIND, answer);
}

static bool states_refused(const uint8_t *states, size_t length, uint32_t answer[4])
{
    return bytes_refused(states, length, TWISTDORY_X, TWISTDORY_STATE, answer);
}

static bool wires_refused(const struct transistors *t, size_t nodes, uint32_t answer[4])
{
    size_t i = 0, length = t->lengths[0];
    while (i < length && t->types[i] <= TWISTDORY_D && t->gates[i] < nodes
           && t->sources[i] < nodes && t->drains[i] < nodes)
        i++;
    if (i < length)
        write_answer(answer, TWISTDORY_WIRE, i, 0, 0);
    return i < length;
}

static bool list_refused(const struct plain_changes *changes, const uint8_t *kinds, size_t nodes,
                         uint32_t answer[4])
{
    bool named[TWISTDORY_MAX_NODES] = {false};
    size_t i = 0;
    for (; i < changes->count; i++) {
        uint16_t node = changes->nodes[i];
        if (node >= nodes || kinds[node] < TWISTDORY_INPUT || changes->states[i] > TWISTDORY_X)
            break;
        if (named[node])
            break;
        named[node] = true;
    }
    if (i < changes->count)
        write_answer(answer, TWISTDORY_CHANGE, i, 0, 0);
    return i < changes->count;
}

static struct plain *open_network(const uint8_t *kinds, size_t nodes, const struct transistors *t)
{
    struct plain_network network = {nodes, t->lengths[0], kinds, t->types,
                                    t->gates, t->sources, t->drains};
    return plain_open(&network);
}

static void clear_work(uint16_t *work, size_t nodes, size_t transistors)
{
    memset(work, 0, TWISTDORY_WORK_CELLS(nodes, transistors) * sizeof *work);
}

/* The lowest node whose state differs, or the number of nodes. */
static size_t first_changed(const uint8_t *states, const uint8_t *next, size_t nodes)
{
    size_t v = 0;
    while (v < nodes && states[v] == next[v])
        v++;
    return v;
}

/* ---- the five calls ---- */

void twistdory_check(const uint8_t *kinds, size_t kinds_length,
                     const uint8_t *types, size_t types_length,
                     const uint16_t *gates, size_t gates_length,
                     const uint16_t *sources, size_t sources_length,
                     const uint16_t *drains, size_t drains_length,
                     uint32_t answer[4])
{
    struct transistors t = {types, gates, sources, drains,
                            {types_length, gates_length, sources_length, drains_length}};
    if (nodes_refused(kinds_length, kinds_length, answer) || transistors_refused(&t, answer)
        || kinds_refused(kinds, kinds_length, answer)
        || wires_refused(&t, kinds_length, answer))
        return;
    write_answer(answer, TWISTDORY_DONE, 0, 0, 0);
}

void twistdory_reset(const uint8_t *kinds, size_t kinds_length,
                     uint8_t *states, size_t states_length,
                     uint32_t answer[4])
{
    if (nodes_refused(kinds_length, states_length, answer)
        || kinds_refused(kinds, kinds_length, answer))
        return;
    memset(states, TWISTDORY_X, states_length);
    for (size_t v = 0; v < states_length; v++)
        if (kinds[v] >= TWISTDORY_GROUND)
            states[v] = kinds[v] == TWISTDORY_POWER;
    write_answer(answer, TWISTDORY_DONE, 0, 0, 0);
}

void twistdory_step(const uint8_t *kinds, size_t kinds_length,
                    uint8_t *states, size_t states_length,
                    const uint8_t *types, size_t types_length,
                    const uint16_t *gates, size_t gates_length,
                    const uint16_t *sources, size_t sources_length,
                    const uint16_t *drains, size_t drains_length,
                    uint16_t *work, size_t work_length,
                    uint32_t answer[4])
{
    struct transistors t = {types, gates, sources, drains,
                            {types_length, gates_length, sources_length, drains_length}};
    if (nodes_refused(kinds_length, states_length, answer) || transistors_refused(&t, answer)
        || work_refused(kinds_length, types_length, work_length, answer)
        || kinds_refused(kinds, kinds_length, answer)
        || wires_refused(&t, kinds_length, answer)
        || states_refused(states, states_length, answer))
        return;
    uint8_t next[TWISTDORY_MAX_NODES];
    struct plain *plain = open_network(kinds, kinds_length, &t);
    size_t differing = plain_step(plain, states, next);
    size_t place = first_changed(states, next, states_length);
    memcpy(states, next, states_length);
    plain_close(plain);
    clear_work(work, kinds_length, types_length);
    write_answer(answer, TWISTDORY_DONE, place, (uint32_t)differing, 0);
}

void twistdory_unit_run(const uint8_t *kinds, size_t kinds_length,
                        uint8_t *states, size_t states_length,
                        const uint8_t *types, size_t types_length,
                        const uint16_t *gates, size_t gates_length,
                        const uint16_t *sources, size_t sources_length,
                        const uint16_t *drains, size_t drains_length,
                        const uint16_t *change_nodes, size_t change_nodes_length,
                        const uint8_t *change_states, size_t change_states_length,
                        uint32_t limit,
                        uint16_t *work, size_t work_length,
                        uint32_t answer[4])
{
    struct transistors t = {types, gates, sources, drains,
                            {types_length, gates_length, sources_length, drains_length}};
    struct plain_changes changes = {change_nodes_length, change_nodes, change_states};
    if (nodes_refused(kinds_length, states_length, answer) || transistors_refused(&t, answer)
        || changes_refused(change_nodes_length, change_states_length, answer)
        || work_refused(kinds_length, types_length, work_length, answer)
        || limit_refused(limit, answer)
        || kinds_refused(kinds, kinds_length, answer)
        || wires_refused(&t, kinds_length, answer)
        || states_refused(states, states_length, answer)
        || list_refused(&changes, kinds, kinds_length, answer))
        return;
    uint32_t in_force = limit == 0 ? TWISTDORY_DEFAULT_LIMIT : limit, count;
    struct plain *plain = open_network(kinds, kinds_length, &t);
    bool settled = plain_unit_run(plain, states, &changes, in_force, &count);
    uint8_t next[TWISTDORY_MAX_NODES];
    plain_step(plain, states, next);
    size_t place = settled ? 0 : first_changed(states, next, states_length);
    plain_close(plain);
    clear_work(work, kinds_length, types_length);
    write_answer(answer, settled ? TWISTDORY_DONE : TWISTDORY_OSCILLATES, place, count, 0);
}

void twistdory_ternary_run(const uint8_t *kinds, size_t kinds_length,
                           uint8_t *states, size_t states_length,
                           const uint8_t *types, size_t types_length,
                           const uint16_t *gates, size_t gates_length,
                           const uint16_t *sources, size_t sources_length,
                           const uint16_t *drains, size_t drains_length,
                           const uint16_t *change_nodes, size_t change_nodes_length,
                           const uint8_t *change_states, size_t change_states_length,
                           uint16_t *work, size_t work_length,
                           uint32_t answer[4])
{
    struct transistors t = {types, gates, sources, drains,
                            {types_length, gates_length, sources_length, drains_length}};
    struct plain_changes changes = {change_nodes_length, change_nodes, change_states};
    if (nodes_refused(kinds_length, states_length, answer) || transistors_refused(&t, answer)
        || changes_refused(change_nodes_length, change_states_length, answer)
        || work_refused(kinds_length, types_length, work_length, answer)
        || kinds_refused(kinds, kinds_length, answer)
        || wires_refused(&t, kinds_length, answer)
        || states_refused(states, states_length, answer)
        || list_refused(&changes, kinds, kinds_length, answer))
        return;
    uint32_t counts[2] = {0, 0};
    struct plain *plain = open_network(kinds, kinds_length, &t);
    bool done = plain_ternary_run(plain, states, &changes, counts);
    plain_close(plain);
    clear_work(work, kinds_length, types_length);
    write_answer(answer, done ? TWISTDORY_DONE : TWISTDORY_START, 0, counts[0], counts[1]);
}
