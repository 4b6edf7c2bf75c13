/*
   One call about a text as data: which entry, and what it lends. The plain
   reader answers such a call, and the outside check's door makes it.
*/
#ifndef COMPARE_TEXT_CALL_H
#define COMPARE_TEXT_CALL_H

#include "call.h"

enum text_entry { TEXT_READ, TEXT_NAME, TEXT_NAMES, TEXT_ENTRIES };

/* Tables that the entry does not take are ignored. */
struct text_call {
    enum text_entry entry;
    struct bytes text;
    struct bytes kinds, types;           /* room for a reading */
    struct cells gates, sources, drains;
    uint32_t number;                     /* of the node whose name is asked for */
    struct cells starts;                 /* room for all names */
    struct bytes sizes;
};

/* How many numbers the entry writes: a part of the text is two, an answer four. */
static inline size_t text_numbers(enum text_entry entry)
{
    return entry == TEXT_NAME ? 2 : 4;
}

#endif
