/*
   A plain C reader of texts with a hash table, written for comparison: one pass
   over the bytes, names hashed as they are passed over and found by chains. It
   trusts its caller for the lengths.
*/
#ifndef COMPARE_HASHED_H
#define COMPARE_HASHED_H

#include <stdbool.h>
#include <stddef.h>
#include <stdint.h>

enum {
    HASHED_BYTES = 65535,
    HASHED_NODES = 4096,
    HASHED_TRANSISTORS = 8192,
    HASHED_CHAINS = 4096 /* a power of two */
};

/* What was read, and the table that it was read with. */
struct hashed {
    size_t nodes, transistors;
    size_t line; /* the one refused */
    uint8_t kinds[HASHED_NODES], sizes[HASHED_NODES];
    uint16_t starts[HASHED_NODES];
    uint8_t types[HASHED_TRANSISTORS];
    uint16_t gates[HASHED_TRANSISTORS], sources[HASHED_TRANSISTORS], drains[HASHED_TRANSISTORS];

    size_t most_nodes, most_transistors;
    uint32_t hashes[HASHED_NODES];
    uint16_t next[HASHED_NODES];   /* in its chain, plus 1; 0 ends it */
    uint16_t first[HASHED_CHAINS]; /* likewise */
};

/* Reads a text of at most HASHED_BYTES bytes, with room for so many nodes and
   transistors. False if a line is refused; what was read before it is of no use. */
bool hashed_read(struct hashed *hashed, const uint8_t *text, size_t length, size_t most_nodes,
                 size_t most_transistors);

#endif
