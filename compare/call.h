/*
   One call of the library as data: which entry, and the tables that it lends.
   The brute-force program answers such a call, and the outside check's door
   makes it.
*/
#ifndef COMPARE_CALL_H
#define COMPARE_CALL_H

#include <stddef.h>
#include <stdint.h>

enum entry { ENTRY_CHECK, ENTRY_RESET, ENTRY_STEP, ENTRY_UNIT_RUN, ENTRY_TERNARY_RUN, ENTRIES };

/* A lent table of bytes, and one of 16-bit cells, with the length that is passed. */
struct bytes {
    uint8_t *at;
    size_t length;
};
struct cells {
    uint16_t *at;
    size_t length;
};

/* Tables that the entry does not take are ignored. */
struct call {
    enum entry entry;
    struct bytes kinds, states, types;
    struct cells gates, sources, drains;
    struct cells change_nodes;
    struct bytes change_states;
    uint32_t limit;
    struct cells work;
};

static inline int entry_takes_states(enum entry entry)
{
    return entry != ENTRY_CHECK;
}

static inline int entry_takes_transistors(enum entry entry)
{
    return entry != ENTRY_RESET;
}

static inline int entry_takes_changes(enum entry entry)
{
    return entry == ENTRY_UNIT_RUN || entry == ENTRY_TERNARY_RUN;
}

static inline int entry_takes_work(enum entry entry)
{
    return entry == ENTRY_STEP || entry_takes_changes(entry);
}

#endif
