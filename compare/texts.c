/* Texts to lend: see texts.h. */
#include "texts.h"

#include <stdarg.h>
#include <stdio.h>
#include <stdlib.h>
#include <string.h>

enum { MOST_BYTES = 65535 };

/* ---- writing ---- */

void text_add(struct text *text, const void *bytes, size_t length)
{
    if (length > TEXT_ROOM - text->length) {
        fprintf(stderr, "a text of more than %d bytes does not fit its room\n", TEXT_ROOM);
        exit(2);
    }
    memcpy(text->at + text->length, bytes, length);
    text->length += length;
}

void text_say(struct text *text, const char *format, ...)
{
    char words[256];
    va_list arguments;
    va_start(arguments, format);
    int length = vsnprintf(words, sizeof words, format, arguments);
    va_end(arguments);
    text_add(text, words, (size_t)length < sizeof words ? (size_t)length : sizeof words - 1);
}

static const char *one_of(struct dice *dice, const char *const *words, uint32_t count)
{
    return words[dice_below(dice, count)];
}

static bool one_in(struct dice *dice, uint32_t number)
{
    return dice_below(dice, number) == 0;
}

/* ---- sound texts ---- */

/* Nets are fewer than nodes may be: a carriage return makes another name of one. */
enum { MOST_NETS = 3500, RAIL_VDD = 0, RAIL_GND = 1, CELL_BYTES = 2500 };

/* The naming whose names may be of 63 bytes, alone or among others. */
enum { LONG_NAMES = 5 };

/* How one text is written. */
struct hand {
    struct text *text;
    struct dice *dice;
    uint64_t salt;   /* of its names */
    uint32_t naming; /* one style for all names, or a mixture */
    bool cmos, tabs, tidy;
    bool returns;      /* some lines end in a carriage return, perhaps as part of a name */
    uint32_t trailing; /* how many fields follow the names */
    uint32_t nets;     /* numbered from 0; the first two are the rails */
};

/* A net's name, as extractors write them: always the same in one text. */
static void say_name(struct hand *hand, uint32_t net)
{
    static const char *const odd[] = {"vdd", "VDD", "gnd", "GND", "Vdd!", "Gnd!", "Vd", "Gn",
                                      "e", "n", "p", "d", "N", "C", "R", "A", "|", "|x"};
    struct dice dice = dice_for(hand->salt, net);
    uint32_t style = hand->naming <= LONG_NAMES ? hand->naming : dice_below(&dice, 7);
    int x = (int)dice_below(&dice, 2000) - 400, y = (int)dice_below(&dice, 2000) - 400;
    if (net == RAIL_VDD || net == RAIL_GND) {
        text_say(hand->text, net == RAIL_VDD ? "Vdd" : "Gnd");
        return;
    }
    switch (style) {
    case 0: text_say(hand->text, "%u", net); break;
    case 1: text_say(hand->text, "out_%u", net); break;
    case 2: text_say(hand->text, "a_%d_%d#", x, y); break;
    case 3: text_say(hand->text, "alu_%u/bit[%u]/n%u#", net / 64, net / 8 % 8, net); break;
    case 4: text_say(hand->text, "%c%c", 'a' + (int)(net % 26), '0' + (int)(net / 26 % 70)); break;
    case LONG_NAMES: { /* up to the longest; alike at the head, at the tail or for the most part */
        int length = one_in(&dice, 3) ? 63 : 20 + (int)dice_below(&dice, 44);
        int zeros = (int)dice_below(&dice, (uint32_t)(length - 10));
        text_say(hand->text, "%0*u%0*u", zeros + 5, net, length - zeros - 5, net % 7);
        break;
    }
    case 6: text_say(hand->text, "%s", odd[net % (sizeof odd / sizeof *odd)]); break;
    }
}

static void say_blanks(struct hand *hand)
{
    static const char *const blanks[] = {" ", "\t", "  ", " \t", "\t\t", "     "};
    bool plain = hand->tidy || !one_in(hand->dice, 4);
    text_say(hand->text, "%s", plain ? (hand->tabs ? "\t" : " ") : one_of(hand->dice, blanks, 6));
}

/* One number is drawn at a time: C leaves the order of a call's arguments open. */
static void say_number(struct hand *hand, const char *format, uint32_t bound)
{
    text_say(hand->text, format, dice_below(hand->dice, bound));
}

static void say_place(struct hand *hand)
{
    for (int k = 0; k < 2; k++) {
        say_blanks(hand);
        say_number(hand, one_in(hand->dice, 4) ? "-%u" : "%u", 4000);
    }
}

static void device(struct hand *hand, char type, uint32_t gate, uint32_t source, uint32_t drain)
{
    if (type == 'n' && one_in(hand->dice, 2))
        type = 'e';
    if (one_in(hand->dice, 2)) {
        uint32_t kept = source;
        source = drain;
        drain = kept;
    }
    if (!hand->tidy && one_in(hand->dice, 8))
        say_blanks(hand);
    text_say(hand->text, "%c", type);
    uint32_t names[3] = {gate, source, drain};
    for (int k = 0; k < 3; k++) {
        say_blanks(hand);
        say_name(hand, names[k]);
    }
    if (hand->trailing > 0) {
        say_blanks(hand);
        say_number(hand, "%u.5", 9);
        say_blanks(hand);
        say_number(hand, "%u", 40);
    }
    if (hand->trailing > 1)
        say_place(hand);
    if (hand->trailing > 2) {
        say_number(hand, " g=S_Gate s=A_%u", 99);
        say_number(hand, ",P_%u d=A_12,P_14", 99);
    }
    if (!hand->tidy && one_in(hand->dice, 6))
        say_blanks(hand);
    if (hand->returns && one_in(hand->dice, 12))
        text_say(hand->text, "\r");
    text_say(hand->text, "\n");
}

static uint32_t new_net(struct hand *hand)
{
    return hand->nets < MOST_NETS ? hand->nets++ : 2 + dice_below(hand->dice, MOST_NETS - 2);
}

/* A net that is there already, a late one rather than an early one. */
static uint32_t old_net(struct hand *hand)
{
    uint32_t back = dice_below(hand->dice, one_in(hand->dice, 4) ? hand->nets - 2 : 6);
    return back + 2 < hand->nets ? hand->nets - 1 - back : 2;
}

static void inverter(struct hand *hand, uint32_t in, uint32_t out)
{
    if (hand->cmos)
        device(hand, 'p', in, RAIL_VDD, out);
    else
        device(hand, 'd', out, RAIL_VDD, out);
    device(hand, 'n', in, RAIL_GND, out);
}

static void nand(struct hand *hand, uint32_t a, uint32_t b, uint32_t out)
{
    uint32_t between = new_net(hand);
    if (hand->cmos) {
        device(hand, 'p', a, RAIL_VDD, out);
        device(hand, 'p', b, RAIL_VDD, out);
    } else {
        device(hand, 'd', out, out, RAIL_VDD);
    }
    device(hand, 'n', a, between, RAIL_GND);
    device(hand, 'n', b, out, between);
}

static void nor(struct hand *hand, uint32_t a, uint32_t b, uint32_t out)
{
    if (hand->cmos) {
        uint32_t between = new_net(hand);
        device(hand, 'p', a, RAIL_VDD, between);
        device(hand, 'p', b, between, out);
    } else {
        device(hand, 'd', out, out, RAIL_VDD);
    }
    device(hand, 'n', a, out, RAIL_GND);
    device(hand, 'n', b, out, RAIL_GND);
}

static void pass_chain(struct hand *hand)
{
    uint32_t clock = old_net(hand), from = old_net(hand);
    for (uint32_t left = 1 + dice_below(hand->dice, 6); left > 0; left--) {
        uint32_t to = new_net(hand);
        device(hand, 'n', clock, from, to);
        from = to;
    }
}

/* Depletion devices that are no loads, or only almost. */
static void odd_depletion(struct hand *hand)
{
    uint32_t a = old_net(hand), b = old_net(hand);
    switch (dice_below(hand->dice, 6)) {
    case 0: device(hand, 'd', RAIL_VDD, RAIL_VDD, a); break;
    case 1: device(hand, 'd', a, b, RAIL_VDD); break;
    case 2: device(hand, 'd', a, a, b); break;
    case 3: device(hand, 'd', RAIL_GND, RAIL_GND, RAIL_VDD); break;
    case 4: device(hand, 'd', a, RAIL_GND, a); break;
    case 5: device(hand, 'd', a, RAIL_VDD, RAIL_VDD); break;
    }
}

/* A line to skip. */
static void skipped_line(struct hand *hand)
{
    static const char *const others[] = {"| units: 100", "|", "||", "|e a b", "| e in Gnd out", "",
                                         " ", "\t \t", "N", "C", "R", "A"};
    if (!hand->tidy && one_in(hand->dice, 6))
        say_blanks(hand);
    switch (dice_below(hand->dice, 5)) {
    case 0:
        text_say(hand->text, "N ");
        say_name(hand, old_net(hand));
        say_place(hand);
        say_number(hand, " %u 0 0", 900);
        break;
    case 1:
        text_say(hand->text, "C ");
        say_name(hand, old_net(hand));
        say_blanks(hand);
        say_name(hand, RAIL_GND);
        say_number(hand, " %u.4", 99);
        break;
    case 2:
        text_say(hand->text, "R ");
        say_name(hand, old_net(hand));
        say_number(hand, " %u", 5000);
        break;
    case 3:
        text_say(hand->text, "A ");
        say_name(hand, old_net(hand));
        say_number(hand, " alias_%u", 100);
        break;
    case 4: text_say(hand->text, "%s", one_of(hand->dice, others, 12)); break;
    }
    text_say(hand->text, "\n");
}

static void one_cell(struct hand *hand)
{
    uint32_t a = old_net(hand), b = old_net(hand), c = old_net(hand);
    switch (dice_below(hand->dice, 8)) {
    case 0:
    case 1:
    case 2: inverter(hand, a, new_net(hand)); break;
    case 3: nand(hand, a, b, new_net(hand)); break;
    case 4: nor(hand, a, b, new_net(hand)); break;
    case 5: pass_chain(hand); break;
    case 6: odd_depletion(hand); break;
    case 7: device(hand, one_in(hand->dice, 2) ? 'n' : 'p', a, b, c); break;
    }
}

void text_sound(struct text *text, struct dice *dice, size_t cells, size_t most_bytes)
{
    struct hand hand = {.text = text, .dice = dice, .nets = 3};
    hand.salt = dice_next(dice);
    hand.naming = dice_below(dice, 12);
    hand.cmos = one_in(dice, 2);
    hand.tabs = one_in(dice, 4);
    hand.tidy = one_in(dice, 2);
    hand.trailing = dice_below(dice, 4);
    hand.returns = !hand.tidy && (hand.trailing > 0 || hand.naming < LONG_NAMES);
    bool heading = one_in(dice, 2), telling = one_in(dice, 2);

    text->length = 0;
    if (heading && most_bytes > CELL_BYTES)
        text_say(text, "| units: 100 tech: %s format: MIT\n", hand.cmos ? "scmos" : "nmos");
    for (; cells > 0 && text->length + CELL_BYTES <= most_bytes; cells--) {
        one_cell(&hand);
        if (telling && one_in(dice, 3))
            skipped_line(&hand);
    }
    /* a text as long as may be: a comment fills it */
    while (cells > 0 && text->length < most_bytes)
        text_add(text, "|", 1);
    if (text->length > 0 && text->at[text->length - 1] == '\n' && one_in(dice, 3))
        text->length--;
}

/* ---- damage ---- */

static void insert(struct text *text, size_t at, const void *bytes, size_t length)
{
    if (text->length + length > TEXT_ROOM)
        return;
    memmove(text->at + at + length, text->at + at, text->length - at);
    memcpy(text->at + at, bytes, length);
    text->length += length;
}

static void cut(struct text *text, size_t at, size_t length)
{
    memmove(text->at + at, text->at + at + length, text->length - at - length);
    text->length -= length;
}

/* The line around a place: where it begins, and its length with the line feed. */
static size_t line_around(const struct text *text, size_t at, size_t *length)
{
    size_t start = at, end = at;
    while (start > 0 && text->at[start - 1] != '\n')
        start--;
    while (end < text->length && text->at[end] != '\n')
        end++;
    *length = end - start + (end < text->length);
    return start;
}

static void damage_once(struct text *text, struct dice *dice)
{
    static const uint8_t telling[] = " \t\n\r\0|endpNCRAVG\v\f\x7f\x80\xff";
    uint8_t byte = telling[dice_below(dice, sizeof telling - 1)];
    uint8_t copy[512];
    size_t at = dice_below(dice, (uint32_t)text->length), start, length;
    switch (dice_below(dice, 10)) {
    case 0: text->at[at] ^= (uint8_t)(1u << dice_below(dice, 8)); break;
    case 1: text->at[at] = byte; break;
    case 2: text->at[at] = (uint8_t)dice_below(dice, 256); break;
    case 3: cut(text, at, 1); break;
    case 4: insert(text, at, &byte, 1); break;
    case 5: text->length = one_in(dice, 2) ? at : text->length - 1; break;
    case 6: /* a line once more, somewhere else */
        start = line_around(text, at, &length);
        if (length <= sizeof copy) {
            memcpy(copy, text->at + start, length);
            start = line_around(text, dice_below(dice, (uint32_t)text->length), &(size_t){0});
            insert(text, start, copy, length);
        }
        break;
    case 7: /* a line less */
        start = line_around(text, at, &length);
        cut(text, start, length);
        break;
    case 8: /* a name that is longer, perhaps too long */
        memset(copy, 'x', sizeof copy);
        length = 55 + dice_below(dice, 12);
        insert(text, at, copy, length + (one_in(dice, 4) ? 256 : 0));
        break;
    case 9: /* a letter where a line begins */
        start = line_around(text, at, &length);
        if (length > 0)
            text->at[start] = byte;
        break;
    }
}

void text_damage(struct text *text, struct dice *dice)
{
    for (uint32_t left = 1 + dice_below(dice, 3); left > 0 && text->length > 0; left--)
        damage_once(text, dice);
}

/* ---- few words, few letters ---- */

void text_of_words(struct text *text, struct dice *dice)
{
    static const char *const devices[] = {"d", "d", "d", "d", "e", "e", "n", "p", "p"};
    static const char *const other[] = {"N", "C", "R", "A", "|", "|d", "||", "N d"};
    static const char *const wrong[] = {"dd", "D", "E", "P", "NN", "c", "r", "a", "Vdd", "d|",
                                        "e\r", "=", "\r", "en", "d\v", "x"};
    static const char *const names[] = {"Vdd", "a", "Gnd", "b", "vdd", "ab", "Vd", "a\r", "A", "d"};
    static const char *const blanks[] = {" ", " ", " ", "\t", "  ", "\t \t"};
    uint32_t known = 2 + dice_below(dice, 9); /* how many of the names are used */
    uint32_t error = one_in(dice, 2) ? 1000 : 4 + dice_below(dice, 40); /* one word in so many */
    bool tidy = one_in(dice, 2);
    text->length = 0;
    for (uint32_t lines = 1 + dice_below(dice, 9); lines > 0; lines--) {
        if (!tidy && one_in(dice, 8)) {
            text_say(text, "%s", one_of(dice, blanks, 6));
            if (one_in(dice, 3))
                text_say(text, "\n");
        }
        if (one_in(dice, error))
            text_say(text, "%s", one_of(dice, wrong, 16));
        else if (one_in(dice, 5))
            text_say(text, "%s", one_of(dice, other, 8));
        else
            text_say(text, "%s", one_of(dice, devices, 9));
        uint32_t count = tidy ? 3 : 3 + dice_below(dice, 3);
        if (one_in(dice, error))
            count = dice_below(dice, 3);
        for (; count > 0; count--) {
            text_say(text, "%s", tidy ? " " : one_of(dice, blanks, 6));
            text_say(text, "%s", one_of(dice, names, known));
        }
        if (!tidy && one_in(dice, 8))
            text_say(text, "%s", one_of(dice, blanks, 6));
        if (lines > 1 || one_in(dice, 2))
            text_say(text, "\n");
    }
}

void text_of_letters(struct text *text, struct dice *dice)
{
    static const uint8_t letters[] = "  \t\needa|N\r";
    uint32_t used = 7 + dice_below(dice, sizeof letters - 7); /* at least up to a device's */
    text->length = 0;
    for (uint32_t left = dice_below(dice, 40); left > 0; left--)
        text_add(text, &letters[dice_below(dice, used)], 1);
}

bool text_random(struct text *text, struct dice *dice)
{
    uint32_t sort = dice_below(dice, 8);
    if (sort == 0) {
        text_of_letters(text, dice);
        return false;
    }
    if (sort <= 3) {
        text_of_words(text, dice);
        return false;
    }
    size_t cells = 1 + dice_below(dice, 6);
    if (one_in(dice, 20))
        cells = dice_below(dice, 100);
    if (one_in(dice, 400))
        cells = one_in(dice, 2) ? 4000 : dice_below(dice, 1000);
    text_sound(text, dice, cells, MOST_BYTES);
    if (sort > 5)
        text_damage(text, dice);
    return sort <= 5;
}

/* ---- calls ---- */

struct text_call text_read_call(struct text_storage *storage, struct bytes text, size_t nodes,
                                size_t transistors)
{
    return (struct text_call){
        .entry = TEXT_READ,
        .text = text,
        .kinds = {storage->kinds, nodes},
        .types = {storage->types, transistors},
        .gates = {storage->gates, transistors},
        .sources = {storage->sources, transistors},
        .drains = {storage->drains, transistors},
    };
}

struct text_call text_name_call(struct bytes text, uint32_t number)
{
    return (struct text_call){.entry = TEXT_NAME, .text = text, .number = number};
}

struct text_call text_names_call(struct text_storage *storage, struct bytes text, size_t starts,
                                 size_t sizes)
{
    return (struct text_call){
        .entry = TEXT_NAMES,
        .text = text,
        .starts = {storage->starts, starts},
        .sizes = {storage->sizes, sizes},
    };
}

static void move_bytes(struct bytes *table, uint8_t *room)
{
    if (table->length > 0)
        memcpy(room, table->at, table->length);
    table->at = room;
}

static void move_cells(struct cells *table, uint16_t *room)
{
    if (table->length > 0)
        memcpy(room, table->at, table->length * sizeof *room);
    table->at = room;
}

struct text_call text_copied(struct text_storage *storage, const struct text_call *call)
{
    struct text_call copy = *call;
    move_bytes(&copy.kinds, storage->kinds);
    move_bytes(&copy.types, storage->types);
    move_cells(&copy.gates, storage->gates);
    move_cells(&copy.sources, storage->sources);
    move_cells(&copy.drains, storage->drains);
    move_cells(&copy.starts, storage->starts);
    move_bytes(&copy.sizes, storage->sizes);
    return copy;
}

static void random_bytes(void *table, size_t bytes, struct dice *dice)
{
    for (size_t at = 0; at < bytes; at += 8) {
        uint64_t drawn = dice_next(dice);
        memcpy((uint8_t *)table + at, &drawn, bytes - at < 8 ? bytes - at : 8);
    }
}

void text_random_tables(struct text_call *call, struct dice *dice)
{
    random_bytes(call->kinds.at, call->kinds.length, dice);
    random_bytes(call->types.at, call->types.length, dice);
    random_bytes(call->gates.at, 2 * call->gates.length, dice);
    random_bytes(call->sources.at, 2 * call->sources.length, dice);
    random_bytes(call->drains.at, 2 * call->drains.length, dice);
    random_bytes(call->starts.at, 2 * call->starts.length, dice);
    random_bytes(call->sizes.at, call->sizes.length, dice);
}
