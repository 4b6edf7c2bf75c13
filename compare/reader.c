/*
   The independent reader: see reader.h. Written to be read beside the rules in
   words, and to be slow rather than clever.
*/
#include "reader.h"

#include <string.h>

enum { DONE = 0, SIZE = 1, TEXT = 9 };
enum { NORMAL = 0, PULLUP = 1, GROUND = 3, POWER = 4 };
enum { N_TYPE = 0, P_TYPE = 1, D_TYPE = 2 };
enum { TAB = 9, LINE_FEED = 10, SPACE = 32 };
enum { MOST_BYTES = 65535, MOST_NAME_BYTES = 63 };

/* ---- parts of the text ---- */

static bool is_word(struct bytes text, struct part part, const char *word)
{
    return part.length == strlen(word) && memcmp(text.at + part.start, word, part.length) == 0;
}

static bool same_name(struct bytes text, struct part a, struct part b)
{
    return a.length == b.length && memcmp(text.at + a.start, text.at + b.start, a.length) == 0;
}

static bool is_power(struct bytes text, struct part name)
{
    return is_word(text, name, "Vdd");
}

static bool is_ground(struct bytes text, struct part name)
{
    return is_word(text, name, "Gnd");
}

/* ---- one line ---- */

enum { FIRST, GATE, SOURCE, DRAIN, FIELDS };

/* Splits a line at spaces and tabs. Gives the number of its fields, four at most:
   what follows the drain goes unread. */
static size_t split(struct bytes text, struct part line, struct part fields[FIELDS])
{
    size_t count = 0, at = line.start, end = line.start + line.length;
    while (count < FIELDS) {
        while (at < end && (text.at[at] == SPACE || text.at[at] == TAB))
            at++;
        if (at == end)
            break;
        size_t start = at;
        while (at < end && text.at[at] != SPACE && text.at[at] != TAB)
            at++;
        fields[count++] = (struct part){start, at - start};
    }
    return count;
}

enum line_kind { SKIPPED, DEVICE, OTHER };

static enum line_kind line_is(struct bytes text, const struct part fields[FIELDS], size_t count,
                              uint8_t *type)
{
    if (count == 0)
        return SKIPPED;
    struct part first = fields[FIRST];
    if (text.at[first.start] == '|')
        return SKIPPED;
    if (is_word(text, first, "N") || is_word(text, first, "C") || is_word(text, first, "R")
        || is_word(text, first, "A"))
        return SKIPPED;
    if (is_word(text, first, "e") || is_word(text, first, "n"))
        *type = N_TYPE;
    else if (is_word(text, first, "p"))
        *type = P_TYPE;
    else if (is_word(text, first, "d"))
        *type = D_TYPE;
    else
        return OTHER;
    return DEVICE;
}

/* ---- devices ---- */

/* The number of the node of this name, which is the next one if the name is new. */
static uint16_t number_of(struct reading *reading, struct bytes text, struct part name)
{
    for (size_t v = 0; v < reading->nodes; v++)
        if (same_name(text, reading->names[v], name))
            return (uint16_t)v;
    size_t v = reading->nodes++;
    reading->names[v] = name;
    reading->kinds[v] = is_power(text, name) ? POWER : is_ground(text, name) ? GROUND : NORMAL;
    return (uint16_t)v;
}

/* Whether a d device with this gate makes a pullup of `end`, its end at `other`. */
static bool is_load(struct bytes text, struct part gate, struct part end, struct part other)
{
    return is_power(text, other) && same_name(text, gate, end) && !is_power(text, end)
        && !is_ground(text, end);
}

static void take_device(struct reading *reading, struct bytes text, uint8_t type,
                        const struct part fields[FIELDS])
{
    uint16_t gate = number_of(reading, text, fields[GATE]);
    uint16_t source = number_of(reading, text, fields[SOURCE]);
    uint16_t drain = number_of(reading, text, fields[DRAIN]);

    if (type == D_TYPE && is_load(text, fields[GATE], fields[SOURCE], fields[DRAIN])) {
        reading->kinds[source] = PULLUP;
    } else if (type == D_TYPE && is_load(text, fields[GATE], fields[DRAIN], fields[SOURCE])) {
        reading->kinds[drain] = PULLUP;
    } else {
        size_t i = reading->transistors++;
        reading->types[i] = type;
        reading->gates[i] = gate;
        reading->sources[i] = source;
        reading->drains[i] = drain;
    }
}

static bool measures(const struct part fields[FIELDS])
{
    return fields[GATE].length <= MOST_NAME_BYTES && fields[SOURCE].length <= MOST_NAME_BYTES
        && fields[DRAIN].length <= MOST_NAME_BYTES;
}

/* Takes or skips a line. False if it offends. */
static bool take_line(struct reading *reading, struct bytes text, struct part line,
                      size_t most_nodes, size_t most_transistors)
{
    struct part fields[FIELDS];
    uint8_t type;
    size_t count = split(text, line, fields);
    enum line_kind kind = line_is(text, fields, count, &type);
    if (kind != DEVICE)
        return kind == SKIPPED;
    if (count < FIELDS || !measures(fields))
        return false;
    take_device(reading, text, type, fields);
    return reading->nodes <= most_nodes && reading->transistors <= most_transistors;
}

void reader_read(struct bytes text, size_t most_nodes, size_t most_transistors,
                 struct reading *reading)
{
    reading->nodes = reading->transistors = reading->line = 0;
    reading->taken = true;
    size_t start = 0;
    while (start < text.length) {
        size_t end = start;
        while (end < text.length && text.at[end] != LINE_FEED)
            end++;
        struct part line = {start, end - start};
        if (!take_line(reading, text, line, most_nodes, most_transistors)) {
            reading->taken = false;
            return;
        }
        start = end + 1;
        reading->line++;
    }
}

/* ---- the three calls ---- */

static void write_answer(uint32_t numbers[4], uint32_t answer, size_t place, size_t first,
                         size_t second)
{
    numbers[0] = answer;
    numbers[1] = (uint32_t)place;
    numbers[2] = (uint32_t)first;
    numbers[3] = (uint32_t)second;
}

static struct reading reading;

/* Reads as the largest tables would. False where none could take the text. */
static bool read_at_large(struct bytes text)
{
    if (text.length > MOST_BYTES)
        return false;
    reader_read(text, READER_NODES, READER_TRANSISTORS, &reading);
    return reading.taken;
}

static void answer_read(struct text_call *call, uint32_t numbers[4])
{
    size_t nodes = call->kinds.length, transistors = call->types.length;
    if (call->text.length > MOST_BYTES || nodes < 1 || nodes > READER_NODES
        || transistors > READER_TRANSISTORS || call->gates.length != transistors
        || call->sources.length != transistors || call->drains.length != transistors) {
        write_answer(numbers, SIZE, 0, 0, 0);
        return;
    }
    reader_read(call->text, nodes, transistors, &reading);
    if (!reading.taken) {
        write_answer(numbers, TEXT, reading.line, 0, 0);
        return;
    }
    for (size_t v = 0; v < reading.nodes; v++)
        call->kinds.at[v] = reading.kinds[v];
    for (size_t i = 0; i < reading.transistors; i++) {
        call->types.at[i] = reading.types[i];
        call->gates.at[i] = reading.gates[i];
        call->sources.at[i] = reading.sources[i];
        call->drains.at[i] = reading.drains[i];
    }
    write_answer(numbers, DONE, 0, reading.nodes, reading.transistors);
}

static void answer_name(const struct text_call *call, uint32_t part[2])
{
    part[0] = part[1] = 0;
    if (read_at_large(call->text) && call->number < reading.nodes) {
        part[0] = (uint32_t)reading.names[call->number].start;
        part[1] = (uint32_t)reading.names[call->number].length;
    }
}

static void answer_names(struct text_call *call, uint32_t numbers[4])
{
    if (call->text.length > MOST_BYTES) {
        write_answer(numbers, SIZE, 0, 0, 0);
    } else if (!read_at_large(call->text)) {
        write_answer(numbers, TEXT, reading.line, 0, 0);
    } else if (reading.nodes > call->starts.length || reading.nodes > call->sizes.length) {
        write_answer(numbers, SIZE, 0, 0, 0);
    } else {
        for (size_t v = 0; v < reading.nodes; v++) {
            call->starts.at[v] = (uint16_t)reading.names[v].start;
            call->sizes.at[v] = (uint8_t)reading.names[v].length;
        }
        write_answer(numbers, DONE, 0, reading.nodes, reading.transistors);
    }
}

void reader_answer(struct text_call *call, uint32_t numbers[4])
{
    switch (call->entry) {
    case TEXT_READ: answer_read(call, numbers); break;
    case TEXT_NAME: answer_name(call, numbers); break;
    case TEXT_NAMES: answer_names(call, numbers); break;
    case TEXT_ENTRIES: break;
    }
}
