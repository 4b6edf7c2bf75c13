/*
   Hunting a loop: a NAND gate and two inverters in a ring, which is still as
   long as `enable` is 0 and never settles once it is 1. A third inverter leads
   out of it.

   The unit run stops at its limit and names a node that is still moving: the
   lowest that the next step would change. Single steps from there name the
   nodes that the change passes, until the states have come round.
*/
#include <stdio.h>
#include <string.h>

#include "twistdory.h"

/* `middle` is the node between the NAND's two transistors. */
enum { GROUND, ENABLE, NAND, MIDDLE, SECOND, THIRD, OUT, NODES };
static const char *const names[NODES] = {"ground", "enable", "nand", "middle",
                                         "second", "third",  "out"};

static const uint8_t kinds[NODES] = {TWISTDORY_GROUND, TWISTDORY_INPUT,  TWISTDORY_PULLUP,
                                     TWISTDORY_NORMAL, TWISTDORY_PULLUP, TWISTDORY_PULLUP,
                                     TWISTDORY_PULLUP};

enum { TRANSISTORS = 5 };
static const uint8_t types[TRANSISTORS] = {TWISTDORY_N, TWISTDORY_N, TWISTDORY_N, TWISTDORY_N,
                                           TWISTDORY_N};
static const uint16_t gates[TRANSISTORS] = {ENABLE, THIRD, NAND, SECOND, NAND};
static const uint16_t sources[TRANSISTORS] = {GROUND, MIDDLE, GROUND, GROUND, GROUND};
static const uint16_t drains[TRANSISTORS] = {MIDDLE, NAND, SECOND, THIRD, OUT};

static uint16_t work[TWISTDORY_WORK_CELLS(NODES, TRANSISTORS)];
enum { CELLS = sizeof work / sizeof *work };

/* A unit run in which `enable` takes this state. */
static void run(uint8_t states[NODES], uint8_t enable, uint32_t answer[4])
{
    const uint16_t change_nodes[1] = {ENABLE};
    twistdory_unit_run(kinds, NODES, states, NODES, types, TRANSISTORS, gates, TRANSISTORS,
                       sources, TRANSISTORS, drains, TRANSISTORS, change_nodes, 1, &enable, 1, 0,
                       work, CELLS, answer);
}

int main(void)
{
    uint8_t states[NODES];
    uint32_t answer[4];

    /* Up from power-on, with `enable` at 0: that settles. Then `enable` rises. */
    twistdory_reset(kinds, NODES, states, NODES, answer);
    run(states, TWISTDORY_0, answer);
    if (answer[TWISTDORY_ANSWER] != TWISTDORY_DONE)
        return 1;
    run(states, TWISTDORY_1, answer);
    if (answer[TWISTDORY_ANSWER] != TWISTDORY_OSCILLATES)
        return 1;
    printf("not settled after %u steps; the next moves %s\n",
           (unsigned)answer[TWISTDORY_FIRST_COUNT], names[answer[TWISTDORY_PLACE]]);

    /* Once round the loop, a step at a time. */
    uint8_t start[NODES];
    memcpy(start, states, sizeof start);
    do {
        twistdory_step(kinds, NODES, states, NODES, types, TRANSISTORS, gates, TRANSISTORS,
                       sources, TRANSISTORS, drains, TRANSISTORS, work, CELLS, answer);
        if (answer[TWISTDORY_ANSWER] != TWISTDORY_DONE || answer[TWISTDORY_PLACE] == NODES)
            return 1;
        printf("%s to %c", names[answer[TWISTDORY_PLACE]],
               "01X"[states[answer[TWISTDORY_PLACE]]]);
        if (answer[TWISTDORY_FIRST_COUNT] > 1)
            printf(", and %u more with it", (unsigned)answer[TWISTDORY_FIRST_COUNT] - 1);
        printf("\n");
    } while (memcmp(start, states, sizeof start) != 0);
    return 0;
}
