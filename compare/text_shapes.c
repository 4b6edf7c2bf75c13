/* Texts to time reading by: see text_shapes.h. */
#include "text_shapes.h"

#include <stdarg.h>
#include <stdbool.h>
#include <stdio.h>
#include <stdlib.h>
#include <string.h>

#include "dice.h"

enum { MOST_NAMES = 4095 }; /* three a line; with one more a text has as many as it may */

static void begin(struct text_shape *text, const char *name)
{
    text->name = name;
    text->length = text->lines = 0;
}

/* Adds a line, and answers whether there was room for it. Line feeds stand between
   lines: the last one ends with the text. */
static bool line(struct text_shape *text, const char *format, ...)
{
    char made[256];
    va_list values;
    va_start(values, format);
    size_t size = (size_t)vsnprintf(made, sizeof made, format, values);
    va_end(values);
    size_t feed = text->lines > 0;
    if (text->length + feed + size > TEXT_BYTES)
        return false;
    if (feed)
        text->bytes[text->length++] = '\n';
    memcpy(text->bytes + text->length, made, size);
    text->length += size;
    text->lines++;
    return true;
}

/* Mostly n devices. */
static char type(struct dice *dice)
{
    return "eeeeennppd"[dice_below(dice, 10)];
}

/* Devices that have all names in turn, three each, and then devices that draw from the first
   `again` of them. */
static void devices_of(struct text_shape *text, char names[][8], uint32_t count, uint32_t again,
                       struct dice *dice)
{
    uint32_t named = 0;
    bool room = true;
    while (room) {
        uint32_t three[3];
        for (int k = 0; k < 3; k++)
            three[k] = named < count ? named++ : dice_below(dice, again);
        char letter = type(dice);
        room = line(text, "%c %s %s %s", letter, names[three[0]], names[three[1]],
                    names[three[2]]);
    }
}

/* Nodes that have numbers for names, as an extractor gives them where the layout has no label. */
void text_short_names(struct text_shape *text, uint64_t seed)
{
    static char names[MOST_NAMES][8];
    struct dice dice = dice_for(seed, 1);
    begin(text, "4095 short names");
    for (uint32_t k = 0; k < MOST_NAMES; k++)
        snprintf(names[k], sizeof names[k], "%u", k + 1);
    devices_of(text, names, MOST_NAMES, MOST_NAMES, &dice);
}

void text_few_names(struct text_shape *text, uint64_t seed)
{
    enum { FEW = 26 };
    static char names[FEW][8];
    struct dice dice = dice_for(seed, 2);
    begin(text, "26 names, 8192 lines");
    for (uint32_t k = 0; k < FEW; k++)
        names[k][0] = (char)('a' + k);
    devices_of(text, names, FEW, FEW, &dice);
}

/*
   Names of four bytes that all fall into one chain of the library's hash table,
   which takes h = (h * 31 + byte) % 4096 for each byte, from 0, and then the first three
   of them again and again, which lie deepest in the chain: the worst case of its
   reading. Should the library find names in another way, this is a text like others.
*/
void text_one_chain(struct text_shape *text, uint64_t seed)
{
    enum { FIRST = '0', LAST = 'z', WHOLE = (('a' * 31 + 'a') * 31 + 'a') * 31 + 'a' };
    static char names[MOST_NAMES][8];
    struct dice dice = dice_for(seed, 3);
    uint32_t count = 0;
    begin(text, "4095 names in one chain");
    for (int a = FIRST; a <= LAST; a++)
        for (int b = FIRST; b <= LAST; b++)
            for (int c = FIRST; c <= LAST; c++)
                for (int d = FIRST; d <= LAST && count < MOST_NAMES; d++)
                    if ((((a * 31 + b) * 31 + c) * 31 + d - WHOLE) % 4096 == 0)
                        snprintf(names[count++], sizeof names[0], "%c%c%c%c", a, b, c, d);
    if (count < MOST_NAMES) {
        fprintf(stderr, "%s: too few\n", text->name);
        exit(2);
    }
    devices_of(text, names, MOST_NAMES, 3, &dice);
}

/*
   NAND gates in cells of a few units, written as from a layout: names that are paths,
   of 12 to 22 bytes, sizes, positions and attributes behind them, and lines of
   capacitances, areas and comments. A gate's inputs are outputs of earlier ones.
*/
void text_extracted(struct text_shape *text, uint64_t seed)
{
    static const char *const units[] = {"alu", "shift", "regfile", "control", "io_north"};
    static const char *const outputs[] = {"out", "q_b", "carry_n", "load#2", "sel_wr"};
    enum { MOST_GATES = 1000 };
    static char out[MOST_GATES + 1][32];
    struct dice dice = dice_for(seed, 4);
    begin(text, "extracted, long names");
    strcpy(out[0], "io_north/data_in");
    bool room = line(text, "| units: 250 tech: nmos format: MIT");
    for (uint32_t gate = 0; room && gate < MOST_GATES; gate++) {
        uint32_t x = 24 * (gate % 40), y = 36 * (gate / 40), cell = gate / 4;
        char path[16], middle[32], *made = out[gate + 1];
        snprintf(path, sizeof path, "%s/b%u", units[cell % 5], cell / 5);
        snprintf(middle, sizeof middle, "%s/a_%u_%u#", path, x + 8, y + 14);
        snprintf(made, sizeof out[0], "%s/%s_%u", path, outputs[dice_below(&dice, 5)], gate % 4);
        const char *far_off = out[dice_below(&dice, gate + 1)];
        const char *nearby = out[gate - dice_below(&dice, gate < 8 ? gate + 1 : 8)];
        uint32_t tenths = 100 + dice_below(&dice, 400);
        if (gate % 4 == 0)
            room = line(text, "| cell %s at %u %u", path, x, y);
        room = room
            && line(text, "e %s Gnd %s 2 4 %u %u g=S_Gnd s=A_24,P_20 d=A_12,P_8", far_off, middle,
                    x + 8, y + 8)
            && line(text, "e %s %s %s 2 4 %u %u s=A_12,P_8 d=A_28,P_22", nearby, middle, made,
                    x + 8, y + 16)
            && line(text, "d %s %s Vdd 8 2 %u %u s=A_28,P_22 d=A_16,P_14", made, made, x + 8,
                    y + 28)
            && line(text, "C %s Gnd %u.%u", made, tenths / 10, tenths % 10)
            && line(text, "N %s %u %u 40 36 16 20 0 0", made, x + 6, y + 18);
    }
}
