/*
   The reader with a hash table against the plain one, on random texts, read with
   full tables, with exact ones, with those one short and with a few entries: the
   benchmark compares the library with a reader that gives the right answers.
*/
#include <stdio.h>
#include <string.h>

#include "hashed.h"
#include "reader.h"
#include "texts.h"

enum { TEXTS = 20000 };

static struct text text;
static struct reading reading;
static struct hashed hashed;
static int taken, readings;

static bool same_names(void)
{
    for (size_t v = 0; v < reading.nodes; v++)
        if (reading.names[v].start != hashed.starts[v]
            || reading.names[v].length != hashed.sizes[v])
            return false;
    return true;
}

static bool same_reading(size_t nodes, size_t transistors)
{
    struct bytes lent = {text.at, text.length};
    reader_read(lent, nodes, transistors, &reading);
    bool done = hashed_read(&hashed, text.at, text.length, nodes, transistors);
    readings++;
    if (done != reading.taken || hashed.line != reading.line)
        return false;
    if (!done)
        return true;
    size_t cells = reading.transistors * sizeof(uint16_t);
    return hashed.nodes == reading.nodes && hashed.transistors == reading.transistors
        && memcmp(hashed.kinds, reading.kinds, reading.nodes) == 0
        && memcmp(hashed.types, reading.types, reading.transistors) == 0
        && memcmp(hashed.gates, reading.gates, cells) == 0
        && memcmp(hashed.sources, reading.sources, cells) == 0
        && memcmp(hashed.drains, reading.drains, cells) == 0 && same_names();
}

static bool same_text(struct dice *dice)
{
    bool sound = text_random(&text, dice);
    if (text.length > HASHED_BYTES)
        return true;
    size_t few_nodes = 1 + dice_below(dice, 9), few_transistors = dice_below(dice, 9);
    if (!same_reading(few_nodes, few_transistors)
        || !same_reading(HASHED_NODES, HASHED_TRANSISTORS))
        return false;
    if (!reading.taken)
        return !sound;
    size_t nodes = reading.nodes, transistors = reading.transistors;
    taken++;
    return same_reading(nodes, transistors)
        && (nodes == 0 || same_reading(nodes - 1, transistors))
        && (transistors == 0 || same_reading(nodes, transistors - 1));
}

int main(void)
{
    int differences = 0;
    for (uint64_t number = 0; number < TEXTS; number++) {
        struct dice dice = dice_for(7, number);
        differences += !same_text(&dice);
    }
    printf("reader with a hash table against the plain reader: %d texts, %d of them taken, "
           "%d readings, %d differences\n", TEXTS, taken, readings, differences);
    return differences == 0 ? 0 : 1;
}
