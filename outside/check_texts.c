/*
   Texts: those of texts/texts.txt, whose lines are written out by hand; texts and
   tables at both sides of each bound; random ones, sound, damaged, and of few words.
   Each is read with room that is enough, just enough, one short or drawn; its names
   are asked for one by one and all at once. Tables come filled with random bytes,
   so that an entry that must stay shows. What was read goes on to twistdory_check,
   which must accept it.
*/
#include <inttypes.h>
#include <stdio.h>
#include <string.h>

#include "door.h"
#include "host.h"
#include "reader.h"
#include "text_door.h"
#include "texts.h"

enum { DONE = 0, SIZE = 1, TEXT = 9 };
enum { MOST_BYTES = 65535, MOST_NODES = 4096, MOST_TRANSISTORS = 8192, MOST_NAME = 63 };

static struct text_storage storage;
static struct text text;
static uint64_t tried;

static struct {
    uint64_t taken, refused, too_long, checked;
} counts;

static struct bytes whole_text(void)
{
    return (struct bytes){text.at, text.length};
}

/* ---- one call ---- */

static struct text_call compare_read(struct bytes lent, size_t nodes, size_t transistors,
                                     struct dice *dice, uint32_t numbers[4])
{
    struct text_call call = text_read_call(&storage, lent, nodes, transistors);
    text_random_tables(&call, dice);
    text_door_compare(&call, numbers);
    return call;
}

/* Of the numbers the first two are the part. */
static void compare_name(struct bytes lent, uint32_t number, uint32_t numbers[4])
{
    struct text_call call = text_name_call(lent, number);
    text_door_compare(&call, numbers);
}

static struct text_call compare_names(struct bytes lent, size_t starts, size_t sizes,
                                      struct dice *dice, uint32_t numbers[4])
{
    struct text_call call = text_names_call(&storage, lent, starts, sizes);
    text_random_tables(&call, dice);
    text_door_compare(&call, numbers);
    return call;
}

/* What was read is a network that the library accepts. */
static void accept_tables(const struct text_call *read, const uint32_t numbers[4])
{
    size_t nodes = numbers[2], transistors = numbers[3];
    if (numbers[0] != DONE || nodes == 0)
        return;
    struct call call = {
        .entry = ENTRY_CHECK,
        .kinds = {read->kinds.at, nodes},
        .types = {read->types.at, transistors},
        .gates = {read->gates.at, transistors},
        .sources = {read->sources.at, transistors},
        .drains = {read->drains.at, transistors},
    };
    door_try(&call, &(struct outcome){.answer = {DONE, 0, 0, 0}});
    counts.checked++;
}

/* ---- all calls on one text ---- */

static size_t within(size_t least, size_t number, size_t most)
{
    return number < least ? least : number > most ? most : number;
}

static void compare_rooms(struct bytes lent, size_t nodes, size_t transistors, struct dice *dice)
{
    uint32_t numbers[4];
    struct text_call exact = compare_read(lent, within(1, nodes, MOST_NODES), transistors, dice,
                                          numbers);
    accept_tables(&exact, numbers);
    if (nodes > 1)
        compare_read(lent, nodes - 1, transistors, dice, numbers);
    if (transistors > 0)
        compare_read(lent, within(1, nodes, MOST_NODES), transistors - 1, dice, numbers);

    size_t few_nodes = 1 + dice_below(dice, 9), few_transistors = dice_below(dice, 9);
    compare_read(lent, few_nodes, few_transistors, dice, numbers);
    size_t more_nodes = nodes + dice_below(dice, 30);
    size_t more_transistors = transistors + dice_below(dice, 30);
    compare_read(lent, within(1, more_nodes, MOST_NODES),
                 within(0, more_transistors, MOST_TRANSISTORS), dice, numbers);
    if (dice_below(dice, 8) == 0)
        compare_read(lent, MOST_NODES, MOST_TRANSISTORS, dice, numbers);
    if (dice_below(dice, 8) == 0) {
        struct text_call call = text_read_call(&storage, lent, few_nodes, few_transistors);
        size_t *lengths[4] = {&call.types.length, &call.gates.length, &call.sources.length,
                              &call.drains.length};
        size_t *unequal = lengths[dice_below(dice, 4)];
        *unequal += 1 + dice_below(dice, 3);
        text_random_tables(&call, dice);
        text_door_compare(&call, numbers);
    }
}

static void compare_all_names(struct bytes lent, size_t nodes, struct dice *dice)
{
    uint32_t numbers[4], count = (uint32_t)nodes;
    compare_name(lent, dice_below(dice, count + 1), numbers);
    if (count > 0)
        compare_name(lent, count - 1, numbers);
    compare_name(lent, count, numbers);
    compare_name(lent, count + 1 + dice_below(dice, 5000), numbers);
    compare_name(lent, 65536 + dice_below(dice, count + 1), numbers);
    compare_name(lent, UINT32_MAX - dice_below(dice, 2), numbers);

    size_t starts = nodes + dice_below(dice, 9), sizes = nodes + dice_below(dice, 9);
    compare_names(lent, nodes, nodes, dice, numbers);
    compare_names(lent, starts, sizes, dice, numbers);
    if (nodes > 0) {
        compare_names(lent, nodes - 1, sizes, dice, numbers);
        compare_names(lent, starts, nodes - 1, dice, numbers);
    }
}

/* Gives whether the largest tables take the text. */
static bool compare_text(struct bytes lent, struct dice *dice)
{
    static struct reading reading;
    bool too_long = lent.length > MOST_BYTES, taken = false;
    if (!too_long) {
        reader_read(lent, MOST_NODES, MOST_TRANSISTORS, &reading);
        taken = reading.taken;
    }
    size_t nodes = taken ? reading.nodes : dice_below(dice, 9);
    size_t transistors = taken ? reading.transistors : dice_below(dice, 9);
    compare_rooms(lent, nodes, transistors, dice);
    compare_all_names(lent, nodes, dice);
    counts.taken += taken;
    counts.refused += !taken && !too_long;
    counts.too_long += too_long;
    return taken;
}

/* ---- texts written out ---- */

static const struct {
    const char *what;
    size_t nodes, transistors;
    const char *text;
    size_t length;
    const char *line;
} written[] = {
#define CASE(what, nodes, transistors, text, line) \
    {what, nodes, transistors, text, sizeof text - 1, line},
#include "texts/texts.txt"
#undef CASE
};
enum { WRITTEN = sizeof written / sizeof *written };

/* A call's outcome in the notation of texts.txt. */
static void say_line(struct text *line, const struct text_call *read,
                     const struct text_call *names, const uint32_t numbers[4])
{
    line->length = 0;
    text_say(line, "%u %u %u %u", numbers[0], numbers[1], numbers[2], numbers[3]);
    if (numbers[0] == DONE && numbers[2] > 0) {
        text_say(line, " ");
        for (size_t v = 0; v < numbers[2]; v++)
            text_say(line, "%c", read->kinds.at[v] <= 4 ? "NPIGV"[read->kinds.at[v]] : '?');
        for (size_t i = 0; i < numbers[3]; i++)
            text_say(line, " %c(%u;%u,%u)",
                     read->types.at[i] <= 2 ? "npd"[read->types.at[i]] : '?', read->gates.at[i],
                     read->sources.at[i], read->drains.at[i]);
        for (size_t v = 0; v < numbers[2]; v++)
            text_say(line, " %u:%u", names->starts.at[v], names->sizes.at[v]);
    }
    text_say(line, "%c", '\0');
}

static void written_texts(struct dice *dice)
{
    static struct text line;
    static char told[1000];
    for (int k = 0; k < WRITTEN; k++) {
        door_now_checking("texts", ++tried, "");
        door_lend_null(tried % 2);
        text.length = 0;
        text_add(&text, written[k].text, written[k].length);

        uint32_t numbers[4], of_names[4];
        struct text_call names = compare_names(whole_text(), 50, 50, dice, of_names);
        struct text_call read = compare_read(whole_text(), written[k].nodes,
                                             written[k].transistors, dice, numbers);
        say_line(&line, &read, &names, numbers);
        if (strcmp((const char *)line.at, written[k].line) != 0) {
            snprintf(told, sizeof told, "%s: the plain reader does not give the line %s but %.500s",
                     written[k].what, written[k].line, (const char *)line.at);
            door_difference(told);
        }
        compare_text(whole_text(), dice);
    }
}

/* ---- bounds ---- */

/* Reads, and holds the numbers against those written here. */
static void expect(size_t nodes, size_t transistors, uint32_t answer, uint32_t place,
                   uint32_t first, uint32_t second, struct dice *dice)
{
    uint32_t numbers[4];
    door_now_checking("texts", ++tried, "");
    door_lend_null(tried % 2);
    struct text_call call = compare_read(whole_text(), nodes, transistors, dice, numbers);
    accept_tables(&call, numbers);
    if (numbers[0] != answer || numbers[1] != place || numbers[2] != first
        || numbers[3] != second)
        door_difference("the plain reader does not give the numbers wanted");
}

static void expect_name(uint32_t number, uint32_t start, uint32_t length)
{
    uint32_t part[4];
    door_now_checking("texts", ++tried, "");
    compare_name(whole_text(), number, part);
    if (part[0] != start || part[1] != length)
        door_difference("the plain reader does not give the name wanted");
}

static void expect_names(size_t starts, size_t sizes, uint32_t answer, uint32_t place,
                         struct dice *dice)
{
    uint32_t numbers[4];
    door_now_checking("texts", ++tried, "");
    door_lend_null(tried % 2);
    compare_names(whole_text(), starts, sizes, dice, numbers);
    if (numbers[0] != answer || numbers[1] != place)
        door_difference("the plain reader does not give the answer for names wanted");
}

/* A text of one byte again and again, with words at its end. */
static void fill(char byte, size_t count, const char *end)
{
    memset(text.at, byte, count);
    text.length = count;
    text_say(&text, "%s", end);
}

static void lengths_of_texts(struct dice *dice)
{
    static const struct {
        char byte;
        uint32_t answer; /* of a text of it alone */
    } sorts[] = {{'\n', DONE}, {' ', DONE}, {'\t', DONE}, {'|', DONE}, {'x', TEXT}, {'e', TEXT},
                 {'\0', TEXT}, {'\r', TEXT}};
    for (int k = 0; k < 8; k++) {
        fill(sorts[k].byte, 0, "");
        expect(1, 0, DONE, 0, 0, 0, dice);
        fill(sorts[k].byte, 1, "");
        expect(1, 0, sorts[k].answer, 0, 0, 0, dice);
        fill(sorts[k].byte, 65535, "");
        expect(1, 0, sorts[k].answer, 0, 0, 0, dice);
        expect_name(0, 0, 0);
        expect_names(0, 0, sorts[k].answer, 0, dice);
        fill(sorts[k].byte, 65536, "");
        expect(1, 0, SIZE, 0, 0, 0, dice);
        expect_name(0, 0, 0);
        expect_names(0, 0, SIZE, 0, dice);
    }
    /* the last line, and the last bytes */
    fill('\n', 65534, "x");
    expect(9, 9, TEXT, 65534, 0, 0, dice);
    expect_names(0, 0, TEXT, 65534, dice);
    fill('\n', 65533, "x\n");
    expect(9, 9, TEXT, 65533, 0, 0, dice);
    fill('\n', 65528, "e a b c");
    expect(3, 1, DONE, 0, 3, 1, dice);
    expect(2, 1, TEXT, 65528, 0, 0, dice);
    expect(3, 0, TEXT, 65528, 0, 0, dice);
    expect_name(2, 65534, 1);
    expect_names(3, 3, DONE, 0, dice);
    fill('\n', 65529, "e a b c");
    expect(3, 1, SIZE, 0, 0, 0, dice);
    expect_name(2, 0, 0);
    /* the front of a text that is too long is a sound one */
    static const size_t tails[] = {0, 1, 8, 16, 1000};
    for (int k = 0; k < 5; k++) {
        fill('\n', 65536 + tails[k], "");
        memcpy(text.at, "e a b c\ne a b c\n", 16);
        expect(9, 9, SIZE, 0, 0, 0, dice);
        expect_name(0, 0, 0);
        expect_names(9, 9, SIZE, 0, dice);
    }
    /* a later field may be as long as it likes, and so may a comment */
    fill('y', 65000, "\n| z\n");
    memcpy(text.at, "e a b c ", 8);
    expect(9, 9, DONE, 0, 3, 1, dice);
    fill(' ', 65000, "c\n");
    memcpy(text.at, "e a b ", 6);
    expect(9, 9, DONE, 0, 3, 1, dice);
    expect_name(2, 65000, 1);
    fill('|', 65000, " \nN\n");
    expect(9, 9, DONE, 0, 0, 0, dice);
}

/* Names of every length up to 330 bytes and longer, in each place. */
static void lengths_of_names(struct dice *dice)
{
    for (uint32_t length = 1; length < 65000; length = length < 330 ? length + 1 : 5 * length)
        for (uint32_t place = 0; place < 3; place++) {
            text.length = 0;
            text_say(&text, "| x\n%c", "enpd"[length % 4]);
            for (uint32_t k = 0; k < 3; k++) {
                text_say(&text, k == place ? " " : " a");
                for (uint32_t left = length; k == place && left > 0; left--)
                    text_add(&text, "z", 1);
            }
            bool fits = length <= MOST_NAME;
            expect(2, 1, fits ? DONE : TEXT, fits ? 0 : 1, fits ? 2 : 0, fits ? 1 : 0, dice);
            expect_name(place == 0 ? 0 : 1, fits ? 6 + 2 * place : 0, fits ? length : 0);
            expect_names(2, 2, fits ? DONE : TEXT, fits ? 0 : 1, dice);
        }
}

/* Devices of three new names each, until there are so many nodes. */
static void many_nodes(size_t nodes)
{
    text.length = 0;
    for (size_t v = 0; v < nodes; v += 3)
        text_say(&text, "e %zx %zx %zx\n", v, v + 1 < nodes ? v + 1 : v, v + 2 < nodes ? v + 2 : v);
}

static void numbers_of_nodes(struct dice *dice)
{
    many_nodes(4096);
    expect(4096, 1366, DONE, 0, 4096, 1366, dice);
    expect(4095, 1366, TEXT, 1365, 0, 0, dice);
    expect(4094, 8192, TEXT, 1364, 0, 0, dice);
    expect(4096, 1365, TEXT, 1365, 0, 0, dice);
    expect_name(0, 2, 1);
    expect_name(4095, (uint32_t)text.length - 12, 3);
    expect_name(4096, 0, 0);
    expect_name(65535, 0, 0);
    expect_name(65536, 0, 0);
    expect_name(65536 + 4095, 0, 0);
    expect_name(0x80000000u, 0, 0);
    expect_name(UINT32_MAX, 0, 0);
    expect_names(4096, 4096, DONE, 0, dice);
    expect_names(4097, 70000, DONE, 0, dice);
    expect_names(4095, 4096, SIZE, 0, dice);
    expect_names(4096, 4095, SIZE, 0, dice);
    expect_names(65536, 4095, SIZE, 0, dice);
    text_say(&text, "e 0 %x 5\n", 4095);
    expect(4096, 1367, DONE, 0, 4096, 1367, dice);
    for (int k = 0; k < 3; k++) {
        many_nodes(4096);
        text_say(&text, "|\ne %s %s %s", k == 0 ? "new" : "0", k == 1 ? "new" : "1",
                 k == 2 ? "new" : "2");
        expect(4096, 8192, TEXT, 1367, 0, 0, dice);
        expect_name(0, 0, 0);
        expect_name(4096, 0, 0);
        expect_names(0, 0, TEXT, 1367, dice);
        expect_names(4097, 4097, TEXT, 1367, dice);
    }
    many_nodes(4098);
    expect(4096, 8192, TEXT, 1365, 0, 0, dice);
    /* as many lookups as a text can ask for, among all nodes */
    uint32_t devices = 1366;
    many_nodes(4096);
    for (; text.length + 14 <= MOST_BYTES; devices++)
        text_say(&text, "e fff ffe %x\n", 256 + dice_below(dice, 3840));
    expect(4096, 8192, DONE, 0, 4096, devices, dice);
}

/* A device line has 8 bytes at least: 8,192 of them, the last without its line feed,
   are 65,535 bytes, and a text of 8,193 is too long. */
static void numbers_of_transistors(struct dice *dice)
{
    text.length = 0;
    for (int i = 0; i < 8192; i++)
        text_say(&text, "%c a %c b\n", "enpd"[i % 4], "ab"[i % 2]);
    text.length--;
    expect(2, 8192, DONE, 0, 2, 8192, dice);
    expect(4096, 8192, DONE, 0, 2, 8192, dice);
    expect(2, 8191, TEXT, 8191, 0, 0, dice);
    expect(1, 8192, TEXT, 0, 0, 0, dice);
    expect(2, 0, TEXT, 0, 0, 0, dice);
    expect_names(2, 2, DONE, 0, dice);
    text_say(&text, "\ne a b b");
    expect(2, 8192, SIZE, 0, 0, 0, dice);
    expect_name(0, 0, 0);

    text.length = 0;
    for (int i = 0; i < 6553; i++)
        text_say(&text, i % 2 ? "d a a Vdd\n" : "d a Vdd a\n");
    expect(2, 0, DONE, 0, 2, 0, dice);
    expect(1, 0, TEXT, 0, 0, 0, dice);
    text.length--;
    text_say(&text, "\nd");
    expect(2, 0, TEXT, 6553, 0, 0, dice);
}

/* Lengths of tables out of bounds, alone and together: SIZE, whatever the text. */
static void lengths_of_tables(struct dice *dice)
{
    static const char *const texts[] = {"", "e a b c\n", "e a b c\nx\n", "x"};
    static const size_t odd[] = {0, 1, 2, 4, 8191, 8192, 8193, 65535, 65536, 65537, 65539};
    for (int t = 0; t < 4; t++) {
        fill(' ', 0, texts[t]);
        static const size_t nodes[] = {0, 4097, 8192, 65535, 65536, 65537, 65539};
        for (int k = 0; k < 7; k++)
            expect(nodes[k], 3, SIZE, 0, 0, 0, dice);
        static const size_t transistors[] = {8193, 65535, 65536, 65537, 65539};
        for (int k = 0; k < 5; k++)
            expect(5, transistors[k], SIZE, 0, 0, 0, dice);
        for (int table = 0; table < 4; table++)
            for (int k = 0; k < 11; k++) {
                uint32_t numbers[4];
                struct text_call call = text_read_call(&storage, whole_text(), 5, 3);
                size_t *lengths[4] = {&call.types.length, &call.gates.length, &call.sources.length,
                                      &call.drains.length};
                *lengths[table] = odd[k];
                text_random_tables(&call, dice);
                door_now_checking("texts", ++tried, "");
                door_lend_null(tried % 2);
                text_door_compare(&call, numbers);
                if (numbers[0] != SIZE)
                    door_difference("the plain reader accepts tables of unequal length");
            }
        /* names: the text is judged before its tables are too short */
        uint32_t answers[] = {DONE, SIZE, TEXT, TEXT}, place = t == 2 ? 1 : 0;
        expect_names(0, 0, answers[t], place, dice);
        expect_names(2, 3, answers[t], place, dice);
        expect_names(3, 2, answers[t], place, dice);
        expect_names(65536, 2, answers[t], place, dice);
        expect_names(65538, 65536, t == 1 ? DONE : answers[t], place, dice);
        expect_names(3, 3, t == 1 ? DONE : answers[t], place, dice);
        expect_names(3, 70000, t == 1 ? DONE : answers[t], place, dice);
    }
}

/* ---- the whole check ---- */

static void one_text(const struct options *options, uint64_t number)
{
    struct dice dice = dice_for(options->seed, number);
    door_now_checking("texts", number, options->replay);
    door_lend_null(dice_below(&dice, 2));
    bool sound = text_random(&text, &dice);
    if (!compare_text(whole_text(), &dice) && sound)
        door_difference("the plain reader does not take a text that was written soundly");
}

void check_texts(const struct options *options)
{
    struct dice dice = dice_for(options->seed, 3);
    written_texts(&dice);
    uint64_t fixed = tried;
    lengths_of_texts(&dice);
    lengths_of_names(&dice);
    numbers_of_nodes(&dice);
    numbers_of_transistors(&dice);
    lengths_of_tables(&dice);

    door_cases_option = "--texts";
    memset(&counts, 0, sizeof counts);
    for (uint64_t k = 0; k < options->texts; k++) {
        one_text(options, options->from + k);
        if (k % 1024 == 0)
            progress("random texts", k, options->texts);
    }
    door_cases_option = "--networks";
    printf("texts: %" PRIu64 " written out, %" PRIu64 " calls at both sides of each bound; %" PRIu64
           " random ones (numbers from %" PRIu64 "): %" PRIu64 " taken, %" PRIu64
           " refused for a line, %" PRIu64 " too long; %" PRIu64 " networks read and accepted\n",
           fixed, tried - fixed, options->texts, options->from, counts.taken, counts.refused,
           counts.too_long, counts.checked);
}
