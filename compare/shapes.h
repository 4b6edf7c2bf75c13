/*
   Networks of the shapes that people simulate, made to measure: each within the
   bounds of the library, each with states to start from, and with one input to
   change.
*/
#ifndef COMPARE_SHAPES_H
#define COMPARE_SHAPES_H

#include <stddef.h>
#include <stdint.h>

enum { SHAPE_NODES = 4096, SHAPE_TRANSISTORS = 8192 };

struct shape {
    char name[48];
    size_t nodes, transistors;
    uint8_t kinds[SHAPE_NODES], types[SHAPE_TRANSISTORS];
    uint16_t gates[SHAPE_TRANSISTORS], sources[SHAPE_TRANSISTORS], drains[SHAPE_TRANSISTORS];
    uint8_t states[SHAPE_NODES]; /* to start from: inputs and rails 0 or 1, most others X */
    uint16_t changed;            /* the input to change */
};

void shape_inverter_chain(struct shape *shape, size_t inverters);
void shape_pass_chain(struct shape *shape, size_t nodes);
void shape_shift_register(struct shape *shape, size_t stages);
void shape_nor_decoder(struct shape *shape, size_t bits);
void shape_pass_tree(struct shape *shape, size_t bits);
void shape_row_decoder(struct shape *shape, size_t rows, size_t rested);
void shape_adder(struct shape *shape, size_t bits);
void shape_cmos_block(struct shape *shape, size_t transistors, uint64_t seed);
void shape_random(struct shape *shape, size_t nodes, size_t transistors, uint64_t seed);

/* The same network listed in another order: nodes and transistors are numbered
   anew, and sources and drains change over at random. */
void shape_shuffle(struct shape *shape, uint64_t seed);

#endif
