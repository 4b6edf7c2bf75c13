/*
   A plain C simulator, written for comparison: a strong one. It lists each
   node's ways once, decides a joined set at once where no unknown transistor
   touches it, and spreads from the strongest sources first in the others. It
   looks at each end of a transistor a fixed number of times a step, and trusts
   its tables.
*/
#ifndef COMPARE_PLAIN_H
#define COMPARE_PLAIN_H

#include <stdbool.h>
#include <stddef.h>
#include <stdint.h>

struct plain_network {
    size_t nodes, transistors;
    const uint8_t *kinds, *types;
    const uint16_t *gates, *sources, *drains;
};

struct plain_changes {
    size_t count;
    const uint16_t *nodes;
    const uint8_t *states;
};

/* Lists each node's neighbours once, for all later steps of the same network. */
struct plain *plain_open(const struct plain_network *network);
void plain_close(struct plain *plain);

/* One step from `states` to `next`. Returns the number of nodes that differ. */
size_t plain_step(struct plain *plain, const uint8_t *states, uint8_t *next);

/* Enters the changes and steps until settled, at most `limit` times. Returns
   whether it settled; `count` is the number of steps taken. */
bool plain_unit_run(struct plain *plain, uint8_t *states, const struct plain_changes *changes,
                    uint32_t limit, uint32_t *count);

/* Changed inputs at X until settled, then at their new states until settled.
   Returns false, and alters nothing, where the start is not settled. */
bool plain_ternary_run(struct plain *plain, uint8_t *states, const struct plain_changes *changes,
                       uint32_t counts[2]);

#endif
