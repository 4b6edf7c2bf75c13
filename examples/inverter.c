/*
   An inverter between its rails: the example of include/twistdory.h. From the
   next line on this file is the same, byte for byte, as the example in the header.
*/
#include <stdio.h>

#include "twistdory.h"

int main(void)
{
    // Four nodes: 0 is ground, 1 power, 2 the inverter's input, 3 its output.
    const uint8_t kinds[4] = {TWISTDORY_GROUND, TWISTDORY_POWER, TWISTDORY_INPUT,
                              TWISTDORY_NORMAL};

    // Two transistors with node 2 at their gates: the n transistor's channel
    // links ground and the output, the p transistor's power and the output.
    const uint8_t types[2] = {TWISTDORY_N, TWISTDORY_P};
    const uint16_t gates[2] = {2, 2};
    const uint16_t sources[2] = {0, 1};
    const uint16_t drains[2] = {3, 3};

    uint8_t states[4];
    uint16_t work[TWISTDORY_WORK_CELLS(4, 2)];
    uint32_t answer[4];

    // The rails come up live: ground at 0, power at 1. All else is X.
    twistdory_reset(kinds, 4, states, 4, answer);

    // The input takes 1; steps follow until nothing moves.
    const uint16_t change_nodes[1] = {2};
    const uint8_t change_states[1] = {TWISTDORY_1};
    twistdory_unit_run(kinds, 4, states, 4, types, 2, gates, 2, sources, 2, drains, 2,
                       change_nodes, 1, change_states, 1, 0,
                       work, TWISTDORY_WORK_CELLS(4, 2), answer);

    if (answer[TWISTDORY_ANSWER] != TWISTDORY_DONE) {
        printf("answer %u, place %u\n", (unsigned)answer[TWISTDORY_ANSWER],
               (unsigned)answer[TWISTDORY_PLACE]);
        return 1;
    }
    printf("DONE after %u step: in %c, out %c\n", (unsigned)answer[TWISTDORY_FIRST_COUNT],
           "01X"[states[2]], "01X"[states[3]]);
    return 0;
}
