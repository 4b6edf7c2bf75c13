/* The door of the calls about a text: see text_door.h. */
#include "text_door.h"

#include <ctype.h>
#include <inttypes.h>
#include <stdio.h>
#include <stdlib.h>
#include <string.h>

#include "lend.h"
#include "reader.h"
#include "texts.h"
#include "twistdory.h"

enum table { NUMBERS, KINDS, TYPES, GATES, SOURCES, DRAINS, STARTS, SIZES, TABLES };

static const char *const table_names[TABLES] = {"numbers", "kinds", "types", "gates", "sources",
                                                "drains", "starts", "sizes"};
static const char *const entry_names[TEXT_ENTRIES] = {"read a text", "name of a node",
                                                      "names of all nodes"};

static struct rooms text_rooms, rooms[TABLES];

void text_door_open(void)
{
    rooms_open(&text_rooms, false);
    for (int table = 0; table < TABLES; table++)
        rooms_open(&rooms[table], true);
}

/* ---- lending ---- */

/* One table of a call, whatever it is made of. A table that the entry does not take
   has no bytes. */
struct memory {
    const void *at;
    size_t length, width;
};

static struct memory table_of(const struct text_call *call, enum table table)
{
    bool read = call->entry == TEXT_READ, names = call->entry == TEXT_NAMES;
    if (read && table == KINDS)
        return (struct memory){call->kinds.at, call->kinds.length, 1};
    if (read && table == TYPES)
        return (struct memory){call->types.at, call->types.length, 1};
    if (read && table == GATES)
        return (struct memory){call->gates.at, call->gates.length, 2};
    if (read && table == SOURCES)
        return (struct memory){call->sources.at, call->sources.length, 2};
    if (read && table == DRAINS)
        return (struct memory){call->drains.at, call->drains.length, 2};
    if (names && table == STARTS)
        return (struct memory){call->starts.at, call->starts.length, 2};
    if (names && table == SIZES)
        return (struct memory){call->sizes.at, call->sizes.length, 1};
    return (struct memory){NULL, 0, 1};
}

/* A call and what it is lent. */
struct lent_call {
    const struct text_call *call;
    struct lent text, tables[TABLES];
};

static void lend_all(struct lent_call *made, const struct text_call *call, enum flush flush)
{
    static const uint32_t unwritten[4] = {0xdeadbeef, 0xdeadbeef, 0xdeadbeef, 0xdeadbeef};
    made->call = call;
    made->text = lend(&text_rooms, call->text.at, call->text.length, flush);
    made->tables[NUMBERS] = lend(&rooms[NUMBERS], unwritten,
                                 text_numbers(call->entry) * sizeof *unwritten, flush);
    for (enum table table = KINDS; table < TABLES; table++) {
        struct memory memory = table_of(call, table);
        made->tables[table] = lend(&rooms[table], memory.at, memory.length * memory.width, flush);
    }
}

static void call_library(const void *lent_call)
{
    const struct lent_call *made = lent_call;
    const struct text_call *call = made->call;
    const struct lent *tables = made->tables;
    const uint8_t *text = made->text.pointer;
    uint32_t *numbers = tables[NUMBERS].pointer;

    switch (call->entry) {
    case TEXT_READ:
        twistdory_read_sim(text, call->text.length,
                           tables[KINDS].pointer, call->kinds.length,
                           tables[TYPES].pointer, call->types.length,
                           tables[GATES].pointer, call->gates.length,
                           tables[SOURCES].pointer, call->sources.length,
                           tables[DRAINS].pointer, call->drains.length, numbers);
        break;
    case TEXT_NAME:
        twistdory_node_name(text, call->text.length, call->number, numbers);
        break;
    case TEXT_NAMES:
        twistdory_node_names(text, call->text.length,
                             tables[STARTS].pointer, call->starts.length,
                             tables[SIZES].pointer, call->sizes.length, numbers);
        break;
    case TEXT_ENTRIES:
        abort();
    }
}

/* ---- reports ---- */

static void print_text(struct bytes text)
{
    enum { SHOWN = 500 };
    printf("  text \"");
    for (size_t k = 0; k < text.length && k < SHOWN; k++) {
        uint8_t byte = text.at[k];
        if (byte == '\n')
            printf("\\n");
        else if (byte == '"' || byte == '\\')
            printf("\\%c", byte);
        else if (byte < 128 && isprint(byte))
            putchar(byte);
        else
            printf("\\%03o", byte);
    }
    printf(text.length > SHOWN ? "\"..\n" : "\"\n");
}

static void print_call(const struct text_call *call, enum flush flush)
{
    printf("  %s; tables %s an untouchable page; lengths: text %zu", entry_names[call->entry],
           flush == FLUSH_END ? "end at" : "begin at", call->text.length);
    if (call->entry == TEXT_READ)
        printf(", kinds %zu, types %zu, gates %zu, sources %zu, drains %zu", call->kinds.length,
               call->types.length, call->gates.length, call->sources.length,
               call->drains.length);
    if (call->entry == TEXT_NAME)
        printf("; number %" PRIu32, call->number);
    if (call->entry == TEXT_NAMES)
        printf(", starts %zu, sizes %zu", call->starts.length, call->sizes.length);
    printf("\n");
    print_text(call->text);
}

static void print_numbers(const char *what, const uint32_t *numbers, size_t count)
{
    printf("  %s", what);
    for (size_t k = 0; k < count; k++)
        printf(" %" PRIu32, numbers[k]);
    printf("\n");
}

/* The first entry of a table that is not as wanted. */
static void print_entry(const struct lent *lent, const struct memory *wanted, const char *name)
{
    const uint8_t *got = lent_now(lent), *want = wanted->at;
    size_t at = 0;
    while (got[at] == want[at])
        at++;
    at = at / wanted->width * wanted->width;
    uint16_t cells[2] = {0, 0}; /* the processor keeps the low byte first */
    memcpy(&cells[0], want + at, wanted->width);
    memcpy(&cells[1], got + at, wanted->width);
    printf("  %s: entry %zu wanted %u, got %u\n", name, at / wanted->width, cells[0], cells[1]);
}

static void report_trap(const struct text_call *call, enum flush flush, int trapped)
{
    if (guard_tells_trap(trapped))
        print_call(call, flush);
    guard_found(&door_counts.traps);
}

static void report_stray(const struct text_call *call, enum flush flush, const char *table)
{
    if (guard_tells("STRAY WRITE")) {
        printf("  beside the %s\n", table);
        print_call(call, flush);
    }
    guard_found(&door_counts.stray);
}

static void report_difference(const struct lent_call *made, enum flush flush, enum table differing,
                              const struct text_call *left, const uint32_t numbers[4])
{
    if (guard_tells("DIFFERENCE")) {
        size_t count = text_numbers(made->call->entry);
        printf("  in the %s\n", table_names[differing]);
        print_call(made->call, flush);
        print_numbers("numbers wanted", numbers, count);
        print_numbers("numbers got   ", lent_now(&made->tables[NUMBERS]), count);
        if (differing != NUMBERS) {
            struct memory wanted = table_of(left, differing);
            print_entry(&made->tables[differing], &wanted, table_names[differing]);
        }
    }
    guard_found(&door_counts.differences);
}

/* ---- comparing ---- */

/* The first table that is not as wanted, or none of them. */
static enum table first_differing(const struct lent_call *made, const struct text_call *left,
                                  const uint32_t numbers[4])
{
    if (!lent_same(&made->tables[NUMBERS], numbers))
        return NUMBERS;
    enum table table = KINDS;
    while (table < TABLES && lent_same(&made->tables[table], table_of(left, table).at))
        table++;
    return table;
}

/* Whether nothing was written beside the tables. */
static bool kept_within(const struct lent_call *made, enum flush flush)
{
    const char *strayed = NULL;
    for (int table = 0; table < TABLES; table++) {
        const struct lent *lent = &made->tables[table];
        if (room_strayed(lent->room, lent->place, lent->bytes))
            strayed = table_names[table];
    }
    if (strayed)
        report_stray(made->call, flush, strayed);
    return strayed == NULL;
}

static bool try_flush(const struct text_call *call, const struct text_call *left,
                      const uint32_t numbers[4], enum flush flush)
{
    struct lent_call made;
    lend_all(&made, call, flush);
    door_counts.calls++;
    int trapped = guard_call(call_library, &made);

    enum table differing = first_differing(&made, left, numbers);
    if (trapped)
        report_trap(call, flush, trapped);
    else if (differing != TABLES)
        report_difference(&made, flush, differing, left, numbers);
    bool within = kept_within(&made, flush);
    return !trapped && differing == TABLES && within;
}

bool text_door_try(const struct text_call *call, const struct text_call *left,
                   const uint32_t numbers[4])
{
    bool at_end = try_flush(call, left, numbers, FLUSH_END);
    bool at_begin = try_flush(call, left, numbers, FLUSH_BEGIN);
    return at_end && at_begin;
}

bool text_door_compare(struct text_call *call, uint32_t numbers[4])
{
    static struct text_storage storage;
    struct text_call as_lent = text_copied(&storage, call);
    reader_answer(call, numbers);
    return text_door_try(&as_lent, call, numbers);
}
