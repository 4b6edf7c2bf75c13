/*
   Reads a .sim file, runs the network that it describes and prints states by name:

       readsim FILE [NAME=STATE | NAME]...

   A node that is given a state (0, 1 or X) is made an input and takes it. Printed
   are the nodes that are named alone, or all if none is. A line that can't be
   taken is shown with its number, from 1 as editors count, and what is wrong with it.
*/
#include <ctype.h>
#include <errno.h>
#include <stdbool.h>
#include <stdio.h>
#include <stdlib.h>
#include <string.h>

#include "twistdory.h"

/* Room for every text that can be taken, and a byte more by which a longer file shows. */
enum { N = TWISTDORY_MAX_NODES, T = TWISTDORY_MAX_TRANSISTORS };
static uint8_t text[TWISTDORY_MAX_TEXT + 1];
static uint8_t kinds[N], states[N], sizes[N], types[T], change_states[N];
static uint16_t starts[N], gates[T], sources[T], drains[T], change_nodes[N];
static uint16_t work[TWISTDORY_WORK_CELLS(N, T)];
static size_t length, nodes, transistors, changes;

static void fail(const char *what, const char *why)
{
    fprintf(stderr, "readsim: %s: %s\n", what, why);
    exit(1);
}

/* The size of the line's next field, 0 if there is none; `at` goes behind it. */
static size_t next_field(const uint8_t **at, const uint8_t *end)
{
    while (*at < end && (**at == ' ' || **at == '\t'))
        ++*at;
    const uint8_t *field = *at;
    while (*at < end && **at != ' ' && **at != '\t')
        ++*at;
    return (size_t)(*at - field);
}

/* What is wrong with a line that was refused. */
static const char *fault_of(const uint8_t *at, const uint8_t *end)
{
    if (next_field(&at, end) != 1 || memchr("enpd", at[-1], 4) == NULL)
        return "no device (e, n, p, d) and no line to skip (|, N, C, R, A)";
    for (int name = 0; name < 3; name++) {
        size_t size = next_field(&at, end);
        if (size == 0)
            return "a device has three names: gate, source, drain";
        if (size > TWISTDORY_MAX_NAME)
            return "a name has more than 63 bytes";
    }
    return "more than 4096 nodes"; /* no text has more than 8,192 lines of devices */
}

static void refuse_line(const char *path, uint32_t line)
{
    size_t begin = 0, end;
    for (uint32_t passed = 0; passed < line; begin++)
        passed += text[begin] == '\n';
    for (end = begin; end < length && text[end] != '\n'; end++)
        ;
    fprintf(stderr, "%s:%u: %s\n    ", path, (unsigned)line + 1,
            fault_of(text + begin, text + end));
    for (size_t at = begin; at < end && at < begin + 80; at++)
        fprintf(stderr, isprint(text[at]) ? "%c" : "\\x%02x", text[at]);
    fprintf(stderr, "%s\n", end > begin + 80 ? "..." : "");
    exit(1);
}

static void read_network(const char *path)
{
    uint32_t answer[4];
    FILE *file = fopen(path, "rb");
    if (file == NULL)
        fail(path, strerror(errno));
    length = fread(text, 1, sizeof text, file);
    if (ferror(file))
        fail(path, strerror(errno));
    fclose(file);
    twistdory_read_sim(text, length, kinds, N, types, T, gates, T, sources, T, drains, T, answer);
    if (answer[TWISTDORY_ANSWER] == TWISTDORY_SIZE)
        fail(path, "more than 65535 bytes");
    if (answer[TWISTDORY_ANSWER] == TWISTDORY_TEXT)
        refuse_line(path, answer[TWISTDORY_PLACE]);
    nodes = answer[TWISTDORY_FIRST_COUNT];
    transistors = answer[TWISTDORY_SECOND_COUNT];
    if (nodes == 0)
        fail(path, "no devices");
    twistdory_node_names(text, length, starts, N, sizes, N, answer);
}

static uint16_t number_of(const char *name)
{
    for (size_t v = 0; v < nodes; v++)
        if (strlen(name) == sizes[v] && memcmp(name, text + starts[v], sizes[v]) == 0)
            return (uint16_t)v;
    fail(name, "no node has this name");
    return 0;
}

static void make_input(const char *name, char state)
{
    uint16_t node = number_of(name);
    if (kinds[node] == TWISTDORY_GROUND || kinds[node] == TWISTDORY_POWER)
        fail(name, "a rail, which comes up by itself");
    if (kinds[node] == TWISTDORY_INPUT)
        fail(name, "given a state twice");
    kinds[node] = TWISTDORY_INPUT;
    change_nodes[changes] = node;
    change_states[changes++] = (uint8_t)(state == 'X' ? TWISTDORY_X : state - '0');
}

int main(int count, char **words)
{
    static bool wanted[N];
    bool all = true;
    uint32_t answer[4];
    if (count < 2)
        fail("usage", "readsim FILE [NAME=STATE | NAME]...");
    read_network(words[1]);
    for (int at = 2; at < count; at++) {
        char *end = words[at] + strlen(words[at]);
        if (end - words[at] > 2 && end[-2] == '=' && strchr("01X", end[-1]) != NULL) {
            end[-2] = '\0';
            make_input(words[at], end[-1]);
        } else {
            wanted[number_of(words[at])] = true;
            all = false;
        }
    }

    twistdory_reset(kinds, nodes, states, nodes, answer);
    twistdory_unit_run(kinds, nodes, states, nodes, types, transistors, gates, transistors,
                       sources, transistors, drains, transistors,
                       change_nodes, changes, change_states, changes, 0,
                       work, TWISTDORY_WORK_CELLS(nodes, transistors), answer);
    bool settled = answer[TWISTDORY_ANSWER] == TWISTDORY_DONE;
    printf("%u nodes, %u transistors, %s at step %u\n", (unsigned)nodes, (unsigned)transistors,
           settled ? "settled" : "NOT SETTLED", (unsigned)answer[TWISTDORY_FIRST_COUNT]);
    for (size_t v = 0; v < nodes; v++)
        if (all || wanted[v])
            printf("%.*s %c\n", (int)sizes[v], (const char *)text + starts[v], "01X"[states[v]]);
    return settled ? 0 : 1;
}
