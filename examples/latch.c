/*
   The tap latch: a pass gate shuts while the line behind it rises.

   A unit run lets every transistor take the same time, so the gate shuts just
   before the line has risen and the latch keeps its 0. On silicon either may
   come first. A ternary run does not take sides: it answers X, and the race is
   seen before the masks are paid for.
*/
#include <stdio.h>

#include "twistdory.h"

/* Node 0 is the pass gate's clock, node 1 the line, node 2 the latch. */
enum { CLOCK, LINE, LATCH, NODES };

static const uint8_t kinds[NODES] = {TWISTDORY_INPUT, TWISTDORY_INPUT, TWISTDORY_NORMAL};

/* One n transistor: the pass gate between line and latch. */
static const uint8_t types[1] = {TWISTDORY_N};
static const uint16_t gates[1] = {CLOCK};
static const uint16_t sources[1] = {LINE};
static const uint16_t drains[1] = {LATCH};

/* The clock falls, the line rises. */
static const uint16_t change_nodes[2] = {CLOCK, LINE};
static const uint8_t change_states[2] = {TWISTDORY_0, TWISTDORY_1};

static void tell(const char *what, const uint8_t states[NODES])
{
    printf("%-24s clock %c, line %c, latch %c\n", what, "01X"[states[CLOCK]],
           "01X"[states[LINE]], "01X"[states[LATCH]]);
}

int main(void)
{
    uint8_t unit[NODES] = {TWISTDORY_1, TWISTDORY_0, TWISTDORY_0};
    uint8_t ternary[NODES] = {TWISTDORY_1, TWISTDORY_0, TWISTDORY_0};
    uint16_t work[TWISTDORY_WORK_CELLS(NODES, 1)];
    const size_t cells = TWISTDORY_WORK_CELLS(NODES, 1);
    uint32_t answer[4];

    tell("before", unit);

    twistdory_unit_run(kinds, NODES, unit, NODES, types, 1, gates, 1, sources, 1, drains, 1,
                       change_nodes, 2, change_states, 2, 0, work, cells, answer);
    if (answer[TWISTDORY_ANSWER] != TWISTDORY_DONE)
        return 1;
    tell("after a unit run", unit);

    twistdory_ternary_run(kinds, NODES, ternary, NODES, types, 1, gates, 1, sources, 1, drains, 1,
                          change_nodes, 2, change_states, 2, work, cells, answer);
    if (answer[TWISTDORY_ANSWER] != TWISTDORY_DONE)
        return 1;
    tell("after a ternary run", ternary);

    if (unit[LATCH] != ternary[LATCH])
        printf("The latch depends on which of the two comes first.\n");
    return 0;
}
