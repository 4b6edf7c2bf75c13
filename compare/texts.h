/*
   Texts to lend: written piece by piece, or drawn at random. Sound ones are of the
   shapes that extractors write; others are damaged, or made of few words and
   letters, so that each of them matters.
*/
#ifndef COMPARE_TEXTS_H
#define COMPARE_TEXTS_H

#include <stdbool.h>

#include "dice.h"
#include "text_call.h"

enum { TEXT_ROOM = 70000 };

struct text {
    uint8_t at[TEXT_ROOM];
    size_t length;
};

/* Adds bytes or words. What does not fit ends the program. */
void text_add(struct text *text, const void *bytes, size_t length);
void text_say(struct text *text, const char *format, ...);

/* A text that full tables take, of inverters, gates and pass chains: so many cells,
   or as many as fit so many bytes, which are at most 65,535. */
void text_sound(struct text *text, struct dice *dice, size_t cells, size_t most_bytes);

/* Alters a text at one to three places. */
void text_damage(struct text *text, struct dice *dice);

/* A few lines of few words; a few letters in any order. */
void text_of_words(struct text *text, struct dice *dice);
void text_of_letters(struct text *text, struct dice *dice);

/* One of the sorts above, most of them short. Says whether full tables take it
   for certain. */
bool text_random(struct text *text, struct dice *dice);

/* Room for the tables of the longest calls. */
struct text_storage {
    uint8_t kinds[TEXT_ROOM], types[TEXT_ROOM], sizes[TEXT_ROOM];
    uint16_t gates[TEXT_ROOM], sources[TEXT_ROOM], drains[TEXT_ROOM], starts[TEXT_ROOM];
};

/* A call of the text over the storage with room for so many nodes and transistors. */
struct text_call text_read_call(struct text_storage *storage, struct bytes text, size_t nodes,
                                size_t transistors);
struct text_call text_name_call(struct bytes text, uint32_t number);
struct text_call text_names_call(struct text_storage *storage, struct bytes text, size_t starts,
                                 size_t sizes);

/* The same call with copies of its tables in the storage. */
struct text_call text_copied(struct text_storage *storage, const struct text_call *call);

/* Random bytes in the tables that the call lends, so that a stray write shows. */
void text_random_tables(struct text_call *call, struct dice *dice);

#endif
