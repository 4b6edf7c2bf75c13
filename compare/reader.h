/*
   The independent reader of texts: the rules taken at their word. It splits the
   text into lines and a line into fields, and looks for a name among all earlier
   ones, one after the other. It shares no code and no idea with the library.
*/
#ifndef COMPARE_READER_H
#define COMPARE_READER_H

#include <stdbool.h>

#include "text_call.h"

enum { READER_NODES = 4096, READER_TRANSISTORS = 8192 };

/* A part of a text. */
struct part {
    size_t start, length;
};

/* What a text says. The line that is one too many may have entered its names and
   its transistor, so each table has room for those. */
struct reading {
    bool taken;  /* no line offends */
    size_t line; /* the first that does */
    size_t nodes, transistors;
    struct part names[READER_NODES + 3]; /* where each first appears */
    uint8_t kinds[READER_NODES + 3];
    uint8_t types[READER_TRANSISTORS + 1];
    uint16_t gates[READER_TRANSISTORS + 1], sources[READER_TRANSISTORS + 1],
        drains[READER_TRANSISTORS + 1];
};

/* Reads with room for so many nodes and transistors, at most those above. */
void reader_read(struct bytes text, size_t most_nodes, size_t most_transistors,
                 struct reading *reading);

/* Answers the call: writes its numbers, and alters the call's own tables as the
   library must alter those that it is lent. */
void reader_answer(struct text_call *call, uint32_t numbers[4]);

#endif
