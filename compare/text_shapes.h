/*
   Texts in the form that an extractor writes, each as long as a text may be or
   nearly so: to time their reading by. Every one can be taken.
*/
#ifndef COMPARE_TEXT_SHAPES_H
#define COMPARE_TEXT_SHAPES_H

#include <stddef.h>
#include <stdint.h>

enum { TEXT_BYTES = 65535 };

struct text_shape {
    const char *name;
    size_t length, lines;
    uint8_t bytes[TEXT_BYTES];
};

void text_short_names(struct text_shape *text, uint64_t seed);
void text_extracted(struct text_shape *text, uint64_t seed);
void text_few_names(struct text_shape *text, uint64_t seed);
void text_one_chain(struct text_shape *text, uint64_t seed);

#endif
