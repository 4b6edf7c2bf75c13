/*
   A NAND gate from its text: the second example of include/twistdory.h. From the
   next line on this file is the same, byte for byte, as that example in the header.
*/
#include <stdio.h>
#include <string.h>

#include "twistdory.h"

// A NAND gate with a depletion load, as an extractor writes it.
static const uint8_t text[] = "| units: 250 tech: nmos\n"
                              "e a Gnd mid 2 4 10 8\n"
                              "e b mid out 2 4 10 16\n"
                              "d out out Vdd 8 2 10 24\n"
                              "C out Gnd 15.2\n";

// Room for every text that can be taken.
enum { LENGTH = sizeof text - 1, N = TWISTDORY_MAX_NODES, T = TWISTDORY_MAX_TRANSISTORS };
static uint8_t kinds[N], states[N], sizes[N], types[T];
static uint16_t starts[N], gates[T], sources[T], drains[T], work[TWISTDORY_WORK_CELLS(N, T)];
static size_t nodes, transistors;

// Makes the node of this name an input, and returns its number.
static uint16_t input(const char *name)
{
    for (size_t v = 0; v < nodes; v++)
        if (strlen(name) == sizes[v] && memcmp(name, text + starts[v], sizes[v]) == 0) {
            kinds[v] = TWISTDORY_INPUT;
            return (uint16_t)v;
        }
    return UINT16_MAX; // no node: the run refuses a change of it
}

int main(void)
{
    uint32_t answer[4];
    twistdory_read_sim(text, LENGTH, kinds, N, types, T, gates, T, sources, T, drains, T, answer);
    if (answer[TWISTDORY_ANSWER] != TWISTDORY_DONE) {
        printf("answer %u, line %u\n", (unsigned)answer[TWISTDORY_ANSWER],
               (unsigned)answer[TWISTDORY_PLACE] + 1);
        return 1;
    }
    nodes = answer[TWISTDORY_FIRST_COUNT];
    transistors = answer[TWISTDORY_SECOND_COUNT];
    twistdory_node_names(text, LENGTH, starts, N, sizes, N, answer);

    // The rails are inputs by their names. Which other nodes are, the caller says.
    const uint16_t change_nodes[2] = {input("a"), input("b")};
    const uint8_t change_states[2] = {TWISTDORY_1, TWISTDORY_1};

    // From here on the lengths are the two counts, not the room.
    twistdory_reset(kinds, nodes, states, nodes, answer);
    twistdory_unit_run(kinds, nodes, states, nodes, types, transistors, gates, transistors,
                       sources, transistors, drains, transistors,
                       change_nodes, 2, change_states, 2, 0,
                       work, TWISTDORY_WORK_CELLS(nodes, transistors), answer);
    if (answer[TWISTDORY_ANSWER] != TWISTDORY_DONE)
        return 1;
    for (size_t v = 0; v < nodes; v++)
        printf("%.*s %c\n", (int)sizes[v], (const char *)text + starts[v], "01X"[states[v]]);
    return 0;
}
