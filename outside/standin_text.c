/*
   The stand-in's three calls about a text, over the reader with a hash table of
   compare/, with refusals of their own: see standin.c.
*/
#include <stdbool.h>
#include <string.h>

#include "hashed.h"
#include "twistdory.h"

static struct hashed hashed;

static void write_answer(uint32_t answer[4], uint32_t number, size_t place, size_t first,
                         size_t second)
{
    answer[TWISTDORY_ANSWER] = number;
    answer[TWISTDORY_PLACE] = (uint32_t)place;
    answer[TWISTDORY_FIRST_COUNT] = (uint32_t)first;
    answer[TWISTDORY_SECOND_COUNT] = (uint32_t)second;
}

/* ---- refusals: each answers whether it applies, and writes the answer if so ---- */

static bool size_refused(bool fits, uint32_t answer[4])
{
    if (!fits)
        write_answer(answer, TWISTDORY_SIZE, 0, 0, 0);
    return !fits;
}

static bool length_refused(size_t text_length, uint32_t answer[4])
{
    return size_refused(text_length <= TWISTDORY_MAX_TEXT, answer);
}

static bool room_refused(size_t nodes, size_t types, size_t gates, size_t sources, size_t drains,
                         uint32_t answer[4])
{
    return size_refused(nodes >= TWISTDORY_MIN_NODES && nodes <= TWISTDORY_MAX_NODES
                        && types <= TWISTDORY_MAX_TRANSISTORS && gates == types
                        && sources == types && drains == types, answer);
}

static bool text_refused(const uint8_t *text, size_t text_length, size_t nodes,
                         size_t transistors, uint32_t answer[4])
{
    bool taken = hashed_read(&hashed, text, text_length, nodes, transistors);
    if (!taken)
        write_answer(answer, TWISTDORY_TEXT, hashed.line, 0, 0);
    return !taken;
}

/* A text that no tables could take. */
static bool whole_refused(const uint8_t *text, size_t text_length, uint32_t answer[4])
{
    return length_refused(text_length, answer)
        || text_refused(text, text_length, TWISTDORY_MAX_NODES, TWISTDORY_MAX_TRANSISTORS,
                        answer);
}

/* ---- the three calls ---- */

static void copy_out(void *table, const void *read, size_t count, size_t width)
{
    if (count > 0)
        memcpy(table, read, count * width);
}

void twistdory_read_sim(const uint8_t *text, size_t text_length,
                        uint8_t *kinds, size_t kinds_length,
                        uint8_t *types, size_t types_length,
                        uint16_t *gates, size_t gates_length,
                        uint16_t *sources, size_t sources_length,
                        uint16_t *drains, size_t drains_length,
                        uint32_t answer[4])
{
    if (length_refused(text_length, answer)
        || room_refused(kinds_length, types_length, gates_length, sources_length, drains_length,
                        answer)
        || text_refused(text, text_length, kinds_length, types_length, answer))
        return;
    copy_out(kinds, hashed.kinds, hashed.nodes, sizeof *kinds);
    copy_out(types, hashed.types, hashed.transistors, sizeof *types);
    copy_out(gates, hashed.gates, hashed.transistors, sizeof *gates);
    copy_out(sources, hashed.sources, hashed.transistors, sizeof *sources);
    copy_out(drains, hashed.drains, hashed.transistors, sizeof *drains);
    write_answer(answer, TWISTDORY_DONE, 0, hashed.nodes, hashed.transistors);
}

void twistdory_node_name(const uint8_t *text, size_t text_length,
                         uint32_t number,
                         uint32_t part[2])
{
    uint32_t answer[4];
    bool used = !whole_refused(text, text_length, answer) && number < hashed.nodes;
    part[0] = used ? hashed.starts[number] : 0;
    part[1] = used ? hashed.sizes[number] : 0;
}

void twistdory_node_names(const uint8_t *text, size_t text_length,
                          uint16_t *starts, size_t starts_length,
                          uint8_t *sizes, size_t sizes_length,
                          uint32_t answer[4])
{
    if (whole_refused(text, text_length, answer)
        || size_refused(hashed.nodes <= starts_length && hashed.nodes <= sizes_length, answer))
        return;
    copy_out(starts, hashed.starts, hashed.nodes, sizeof *starts);
    copy_out(sizes, hashed.sizes, hashed.nodes, sizeof *sizes);
    write_answer(answer, TWISTDORY_DONE, 0, hashed.nodes, hashed.transistors);
}
