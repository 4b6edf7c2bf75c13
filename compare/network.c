/* Networks to lend: see network.h. */
#include "network.h"

#include <string.h>

struct call network_call(struct storage *storage, size_t nodes, size_t transistors)
{
    return (struct call){
        .kinds = {storage->kinds, nodes},
        .states = {storage->states, nodes},
        .types = {storage->types, transistors},
        .gates = {storage->gates, transistors},
        .sources = {storage->sources, transistors},
        .drains = {storage->drains, transistors},
        .change_nodes = {storage->change_nodes, 0},
        .change_states = {storage->change_states, 0},
        .work = {storage->work, 4 * nodes + 2 * transistors},
    };
}

bool network_is_input(uint8_t kind)
{
    return kind == INPUT || kind == GROUND || kind == POWER;
}

void network_kinds(struct call *call, const char *letters)
{
    static const char kinds[] = "NPIGV";
    for (size_t v = 0; letters[v]; v++)
        call->kinds.at[v] = (uint8_t)(strchr(kinds, letters[v]) - kinds);
}

void network_states(struct call *call, const char *letters)
{
    for (size_t v = 0; letters[v]; v++)
        call->states.at[v] = letters[v] == '0' ? LOW : letters[v] == '1' ? HIGH : UNKNOWN;
}

void network_transistor(struct call *call, size_t i, uint8_t type, uint16_t gate,
                        uint16_t source, uint16_t drain)
{
    call->types.at[i] = type;
    call->gates.at[i] = gate;
    call->sources.at[i] = source;
    call->drains.at[i] = drain;
}

void network_change(struct call *call, uint16_t node, uint8_t state)
{
    call->change_nodes.at[call->change_nodes.length++] = node;
    call->change_states.at[call->change_states.length++] = state;
}

/* One of the numbers below `count`, each as often as its weight says. */
static uint8_t weighed(struct dice *dice, const uint8_t *weights, uint8_t count)
{
    uint32_t all = 0;
    for (uint8_t k = 0; k < count; k++)
        all += weights[k];
    uint32_t drawn = dice_below(dice, all);
    uint8_t number = 0;
    while (drawn >= weights[number])
        drawn -= weights[number++];
    return number;
}

void network_random(struct call *call, struct dice *dice)
{
    static const uint8_t kind_weights[4][5] = {
        {3, 3, 1, 1, 1}, {8, 2, 2, 1, 1}, {10, 0, 2, 1, 1}, {4, 8, 2, 1, 1},
    };
    static const uint8_t type_weights[4][3] = {{1, 1, 1}, {6, 1, 1}, {4, 4, 1}, {1, 0, 0}};
    const uint8_t *kinds = kind_weights[dice_below(dice, 4)];
    const uint8_t *types = type_weights[dice_below(dice, 4)];
    uint32_t nodes = (uint32_t)call->kinds.length;

    for (size_t v = 0; v < call->kinds.length; v++)
        call->kinds.at[v] = weighed(dice, kinds, 5);
    for (size_t i = 0; i < call->types.length; i++)
        network_transistor(call, i, weighed(dice, types, 3), (uint16_t)dice_below(dice, nodes),
                           (uint16_t)dice_below(dice, nodes), (uint16_t)dice_below(dice, nodes));
}

void network_random_states(struct call *call, struct dice *dice)
{
    static const uint8_t state_weights[4][3] = {{1, 1, 1}, {4, 4, 1}, {1, 1, 0}, {1, 2, 4}};
    const uint8_t *states = state_weights[dice_below(dice, 4)];
    for (size_t v = 0; v < call->states.length; v++)
        call->states.at[v] = weighed(dice, states, 3);
}

void network_random_changes(struct call *call, struct dice *dice)
{
    call->change_nodes.length = call->change_states.length = 0;
    for (size_t v = 0; v < call->kinds.length; v++)
        if (network_is_input(call->kinds.at[v]) && dice_below(dice, 3) > 0)
            network_change(call, (uint16_t)v, (uint8_t)dice_below(dice, 3));
    for (size_t left = call->change_nodes.length; left > 1; left--) {
        size_t last = left - 1, other = dice_below(dice, (uint32_t)left);
        uint16_t node = call->change_nodes.at[last];
        call->change_nodes.at[last] = call->change_nodes.at[other];
        call->change_nodes.at[other] = node;
    }
}

void network_random_work(struct call *call, struct dice *dice)
{
    uint64_t drawn = 0;
    for (size_t k = 0; k < call->work.length; k++) {
        drawn = k % 4 == 0 ? dice_next(dice) : drawn >> 16;
        call->work.at[k] = (uint16_t)drawn;
    }
}
