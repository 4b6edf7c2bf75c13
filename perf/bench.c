/*
   The benchmark: the library beside a strong plain C simulator (compare/plain.c),
   on real shapes (compare/shapes.c), each as drawn and listed in a shuffled
   order, in one run. For each: the time of one step, of an input change by a unit
   run and by a ternary run, and the ratio; a reset; then how a step's cost grows
   with the network. Then reading a text (compare/texts.c), beside a plain C reader with a
   hash table (compare/hashed.c). What the two answer is compared: they must agree.

       bench [--seed S] [--emulated] [--shapes]

   With --shapes the first table alone is made.

   Times are the best of several repeats, taken in turn. The library's time
   includes its checks of everything lent and the clearing of the work area; the
   plain simulator trusts its tables and lists each node's ways once, outside the
   times: what that takes is told beside them. A library that is handed tables at
   each call and keeps nothing makes its lists in every step.
   The plain reader refuses what the library does, but fills the tables as it goes.
*/
#define _POSIX_C_SOURCE 200809L
#include <stdio.h>
#include <stdlib.h>
#include <string.h>
#include <time.h>

#include "hashed.h"
#include "plain.h"
#include "shapes.h"
#include "text_shapes.h"
#include "twistdory.h"

enum { LIMIT = 5000 }; /* of unit runs: more steps than any shape needs to settle */

static struct shape shape;
static uint16_t work[TWISTDORY_WORK_CELLS(SHAPE_NODES, SHAPE_TRANSISTORS)];
static struct plain *plain;
static bool all_agree = true;

static double now(void)
{
    struct timespec time;
    clock_gettime(CLOCK_MONOTONIC, &time);
    return (double)time.tv_sec + 1e-9 * (double)time.tv_nsec;
}

/* ---- the two simulators, called alike ---- */

struct result {
    uint8_t states[SHAPE_NODES];
    uint32_t answer, counts[2];
};

/* The one input that is changed. */
struct change {
    uint16_t node[1];
    uint8_t state[1];
};

typedef void simulate(struct result *result, const struct change *change);

static void finish(struct result *result, const uint32_t answer[4])
{
    result->answer = answer[TWISTDORY_ANSWER];
    result->counts[0] = answer[TWISTDORY_FIRST_COUNT];
    result->counts[1] = answer[TWISTDORY_SECOND_COUNT];
}

static void library_reset(struct result *result, const struct change *change)
{
    (void)change;
    uint32_t answer[4];
    twistdory_reset(shape.kinds, shape.nodes, result->states, shape.nodes, answer);
    finish(result, answer);
}

static void library_step(struct result *result, const struct change *change)
{
    (void)change;
    uint32_t answer[4];
    size_t n = shape.nodes, t = shape.transistors;
    twistdory_step(shape.kinds, n, result->states, n, shape.types, t, shape.gates, t,
                   shape.sources, t, shape.drains, t, work, TWISTDORY_WORK_CELLS(n, t), answer);
    finish(result, answer);
}

static void library_unit(struct result *result, const struct change *change)
{
    uint32_t answer[4];
    size_t n = shape.nodes, t = shape.transistors;
    twistdory_unit_run(shape.kinds, n, result->states, n, shape.types, t, shape.gates, t,
                       shape.sources, t, shape.drains, t, change->node, 1, change->state, 1,
                       LIMIT, work, TWISTDORY_WORK_CELLS(n, t), answer);
    finish(result, answer);
}

static void library_ternary(struct result *result, const struct change *change)
{
    uint32_t answer[4];
    size_t n = shape.nodes, t = shape.transistors;
    twistdory_ternary_run(shape.kinds, n, result->states, n, shape.types, t, shape.gates, t,
                          shape.sources, t, shape.drains, t, change->node, 1, change->state, 1,
                          work, TWISTDORY_WORK_CELLS(n, t), answer);
    finish(result, answer);
}

static void plain_reset(struct result *result, const struct change *change)
{
    (void)change;
    for (size_t v = 0; v < shape.nodes; v++)
        result->states[v] = shape.kinds[v] == TWISTDORY_GROUND  ? TWISTDORY_0
                            : shape.kinds[v] == TWISTDORY_POWER ? TWISTDORY_1
                                                                : TWISTDORY_X;
    result->answer = TWISTDORY_DONE;
    result->counts[0] = result->counts[1] = 0;
}

static void plain_one_step(struct result *result, const struct change *change)
{
    (void)change;
    static uint8_t next[SHAPE_NODES];
    result->counts[0] = (uint32_t)plain_step(plain, result->states, next);
    result->answer = TWISTDORY_DONE;
    result->counts[1] = 0;
    memcpy(result->states, next, shape.nodes);
}

static void plain_unit(struct result *result, const struct change *change)
{
    struct plain_changes changes = {1, change->node, change->state};
    bool settled = plain_unit_run(plain, result->states, &changes, LIMIT, &result->counts[0]);
    result->answer = settled ? TWISTDORY_DONE : TWISTDORY_OSCILLATES;
    result->counts[1] = 0;
}

static void plain_ternary(struct result *result, const struct change *change)
{
    struct plain_changes changes = {1, change->node, change->state};
    bool done = plain_ternary_run(plain, result->states, &changes, result->counts);
    result->answer = done ? TWISTDORY_DONE : TWISTDORY_START;
}

/* ---- measuring ---- */

/* Repeats are made while they take little time, and the best one counts. */
struct repeats {
    double began, best;
    int count;
};

static struct repeats first_repeat(void)
{
    return (struct repeats){now(), 1e9, 0};
}

static bool once_more(const struct repeats *repeats)
{
    return repeats->count < 1000 && now() - repeats->began < (repeats->count < 3 ? 2 : 0.3);
}

static void repeated(struct repeats *repeats, double taken)
{
    repeats->best = taken < repeats->best ? taken : repeats->best;
    repeats->count++;
}

/* Seconds of one call from the states of `start`; `result` is what it gives. */
static double seconds(simulate *call, const struct result *start, const struct change *change,
                      struct result *result)
{
    *result = *start;
    double before = now();
    call(result, change);
    return now() - before;
}

struct times {
    double library, plain;
    struct result result;
};

/* The best of both, called in turn. */
static struct times measure(simulate *library, simulate *other, const struct result *start,
                            const struct change *change)
{
    static struct result from_plain;
    struct times times;
    struct repeats of_library = first_repeat(), of_plain = first_repeat();
    while (once_more(&of_library)) {
        repeated(&of_library, seconds(library, start, change, &times.result));
        repeated(&of_plain, seconds(other, start, change, &from_plain));
    }
    times.library = of_library.best;
    times.plain = of_plain.best;
    if (memcmp(times.result.states, from_plain.states, shape.nodes) != 0
        || times.result.answer != from_plain.answer
        || memcmp(times.result.counts, from_plain.counts, sizeof from_plain.counts) != 0) {
        printf("%s: THE TWO SIMULATORS DIFFER\n", shape.name);
        all_agree = false;
    }
    return times;
}

/* Opens the shape for the plain simulator and settles it with its inputs in place.
   Returns the seconds that the lists take. */
static double open_shape(struct result *settled)
{
    struct plain_network network = {shape.nodes, shape.transistors, shape.kinds, shape.types,
                                    shape.gates, shape.sources, shape.drains};
    struct plain_changes nothing = {0, NULL, NULL};
    struct repeats repeats = first_repeat();
    plain = NULL;
    while (repeats.count < 20) {
        if (plain != NULL)
            plain_close(plain);
        double before = now();
        plain = plain_open(&network);
        repeated(&repeats, now() - before);
    }
    memcpy(settled->states, shape.states, shape.nodes);
    plain_unit_run(plain, settled->states, &nothing, LIMIT, &settled->counts[0]);
    return repeats.best;
}

static struct change change_of(uint16_t node)
{
    return (struct change){{node}, {shape.states[node] == TWISTDORY_0}};
}

/* In a random network most inputs move nothing: takes the one whose change runs
   longest and yet settles. */
static void choose_changed(const struct result *settled)
{
    uint32_t longest = 0;
    for (uint16_t v = 0; v < shape.nodes; v++) {
        if (shape.kinds[v] != TWISTDORY_INPUT)
            continue;
        static struct result tried;
        struct change change = change_of(v);
        struct plain_changes changes = {1, change.node, change.state};
        tried = *settled;
        if (plain_unit_run(plain, tried.states, &changes, 100, &tried.counts[0])
            && tried.counts[0] > longest) {
            longest = tried.counts[0];
            shape.changed = v;
        }
    }
}

/* The steps that were taken, and whether a unit run came to its limit. */
static void print_steps(const struct result *result, bool ternary)
{
    char text[32];
    if (ternary)
        snprintf(text, sizeof text, "%u+%u", result->counts[0], result->counts[1]);
    else
        snprintf(text, sizeof text, "%u%s", result->counts[0],
                 result->answer == TWISTDORY_OSCILLATES ? " (loop)" : "");
    printf(" %11s", text);
}

static void print_times(const struct times *times, double unit)
{
    printf(" %9.4f %9.4f %7.2f", times->library * unit, times->plain * unit,
           times->library / times->plain);
}

static void bench_shape(bool choose)
{
    static struct result settled;
    double lists = open_shape(&settled);
    if (choose)
        choose_changed(&settled);
    struct change change = change_of(shape.changed);

    struct times step = measure(library_step, plain_one_step, &settled, &change);
    struct times unit = measure(library_unit, plain_unit, &settled, &change);
    struct times ternary = measure(library_ternary, plain_ternary, &settled, &change);
    printf("%-37s %5zu %5zu | %7.4f |", shape.name, shape.nodes, shape.transistors, lists * 1e3);
    print_times(&step, 1e3);
    printf(" |");
    print_steps(&unit.result, false);
    print_times(&unit, 1e3);
    printf(" |");
    print_steps(&ternary.result, true);
    print_times(&ternary, 1e3);
    printf("\n");
    fflush(stdout);
    plain_close(plain);
}

/* The shape as drawn, and listed in a shuffled order. */
static void bench_both(bool choose, uint64_t seed)
{
    bench_shape(choose);
    shape_shuffle(&shape, seed);
    bench_shape(choose);
}

static void bench_shapes(uint64_t seed)
{
    printf("\nMilliseconds: the lists of plain C, made once; one step; an input change by a unit run; "
           "the same by a ternary run.\n");
    printf("%-37s %5s %5s | %7s | %9s %9s %7s | %11s %9s %9s %7s | %11s %9s %9s %7s\n", "shape",
           "nodes", "trans", "lists", "step: lib", "plain C", "ratio", "unit: steps", "lib",
           "plain C", "ratio", "tern: steps", "lib", "plain C", "ratio");
    shape_inverter_chain(&shape, 300);
    bench_both(false, seed);
    shape_shift_register(&shape, 1000);
    bench_both(false, seed);
    shape_nor_decoder(&shape, 8);
    bench_both(false, seed);
    shape_pass_tree(&shape, 10);
    bench_both(false, seed);
    shape_row_decoder(&shape, 920, 518);
    bench_both(false, seed);
    shape_adder(&shape, 128);
    bench_both(false, seed);
    shape_cmos_block(&shape, 5106, seed);
    bench_both(false, seed);
    shape_random(&shape, 1000, 2000, seed);
    bench_both(true, seed);
    shape_random(&shape, 4000, 8000, seed);
    bench_both(true, seed);
}

static void bench_reset(uint64_t seed)
{
    static struct result start;
    const struct change none = {{0}, {0}};
    shape_random(&shape, SHAPE_NODES, SHAPE_TRANSISTORS, seed);
    memset(start.states, TWISTDORY_0, sizeof start.states);
    struct times reset = measure(library_reset, plain_reset, &start, &none);
    printf("\nMicroseconds: reset of %zu nodes.\n%9s %9s %7s\n", shape.nodes, "lib", "plain C",
           "ratio");
    print_times(&reset, 1e6);
    printf("\n");
}

/* ---- growth ---- */

static void inverters_of(size_t nodes, uint64_t seed)
{
    (void)seed;
    shape_inverter_chain(&shape, nodes - 2);
}

static void passes_of(size_t nodes, uint64_t seed)
{
    (void)seed;
    shape_pass_chain(&shape, nodes);
}

static void rows_of(size_t nodes, uint64_t seed)
{
    (void)seed;
    shape_row_decoder(&shape, (nodes - 63) / 4, 0); /* 63 nodes beside the rows */
}

static void blocks_of(size_t nodes, uint64_t seed)
{
    shape_cmos_block(&shape, 2 * (nodes - 34), seed); /* 34 nodes beside the gates */
}

static void random_of(size_t nodes, uint64_t seed)
{
    shape_random(&shape, nodes, 2 * nodes, seed);
}

struct growth {
    const char *name;
    void (*make)(size_t nodes, uint64_t seed);
};

static void grow(const struct growth *growth, bool shuffled, uint64_t seed)
{
    static const size_t sizes[] = {500, 1000, 2000, 4000};
    double first[2] = {0, 0}, last[2] = {0, 0};
    printf("%-28s %-9s |", growth->name, shuffled ? "shuffled" : "as drawn");
    for (int k = 0; k < 4; k++) {
        static struct result settled;
        growth->make(sizes[k], seed);
        if (shuffled)
            shape_shuffle(&shape, seed);
        open_shape(&settled);
        if (growth->make == random_of)
            choose_changed(&settled);
        struct change change = change_of(shape.changed);
        struct times times = measure(library_ternary, plain_ternary, &settled, &change);
        /* three steps more are evaluated: one at the start, one at each half's end */
        double steps = times.result.counts[0] + times.result.counts[1] + 3.0;
        last[0] = times.library / steps;
        last[1] = times.plain / steps;
        if (k == 0)
            memcpy(first, last, sizeof first);
        printf(" %7.4f %7.4f %5.2f |", last[0] * 1e3, last[1] * 1e3, last[0] / last[1]);
        fflush(stdout);
        plain_close(plain);
    }
    printf(" %5.1f | %5.1f\n", last[0] / first[0], last[1] / first[1]);
}

static void bench_growth(uint64_t seed)
{
    static const struct growth growths[] = {{"inverter chain", inverters_of},
                                            {"pass chain", passes_of},
                                            {"row decoder", rows_of},
                                            {"static CMOS block", blocks_of},
                                            {"random, 2 transistors a node", random_of}};
    printf("\nGrowth: milliseconds a step, averaged over an input change by a ternary run, at 500, 1000, "
           "2000 and 4000 nodes: library, plain C, ratio;\nand 4000 against 500: library | plain C.\n");
    for (size_t k = 0; k < sizeof growths / sizeof *growths; k++) {
        grow(&growths[k], false, seed);
        grow(&growths[k], true, seed);
    }
}

/* ---- reading a text ---- */

/* What a reader makes of it. */
struct reading {
    bool taken;
    uint32_t nodes, transistors;
    uint8_t kinds[SHAPE_NODES], types[SHAPE_TRANSISTORS];
    uint16_t gates[SHAPE_TRANSISTORS], sources[SHAPE_TRANSISTORS], drains[SHAPE_TRANSISTORS];
};

typedef void read_text(const struct text_shape *text, struct reading *reading);

static void library_read(const struct text_shape *text, struct reading *reading)
{
    const size_t n = SHAPE_NODES, t = SHAPE_TRANSISTORS;
    uint32_t answer[4];
    twistdory_read_sim(text->bytes, text->length, reading->kinds, n, reading->types, t,
                       reading->gates, t, reading->sources, t, reading->drains, t, answer);
    reading->taken = answer[TWISTDORY_ANSWER] == TWISTDORY_DONE;
    reading->nodes = answer[TWISTDORY_FIRST_COUNT];
    reading->transistors = answer[TWISTDORY_SECOND_COUNT];
}

static void library_names(const struct text_shape *text, struct reading *reading)
{
    static uint16_t starts[SHAPE_NODES];
    static uint8_t sizes[SHAPE_NODES];
    uint32_t answer[4];
    twistdory_node_names(text->bytes, text->length, starts, SHAPE_NODES, sizes, SHAPE_NODES,
                         answer);
    reading->taken = answer[TWISTDORY_ANSWER] == TWISTDORY_DONE;
    reading->nodes = answer[TWISTDORY_FIRST_COUNT];
    reading->transistors = answer[TWISTDORY_SECOND_COUNT];
}

/* The same task: what is read is handed over when the text is taken. */
static void plain_read(const struct text_shape *text, struct reading *reading)
{
    static struct hashed hashed;
    reading->taken = hashed_read(&hashed, text->bytes, text->length, SHAPE_NODES,
                                 SHAPE_TRANSISTORS);
    reading->nodes = (uint32_t)hashed.nodes;
    reading->transistors = (uint32_t)hashed.transistors;
    if (!reading->taken)
        return;
    size_t cells = hashed.transistors * sizeof hashed.gates[0];
    memcpy(reading->kinds, hashed.kinds, hashed.nodes);
    memcpy(reading->types, hashed.types, hashed.transistors);
    memcpy(reading->gates, hashed.gates, cells);
    memcpy(reading->sources, hashed.sources, cells);
    memcpy(reading->drains, hashed.drains, cells);
}

static double reading_seconds(read_text *call, const struct text_shape *text,
                              struct reading *reading)
{
    struct repeats repeats = first_repeat();
    while (once_more(&repeats)) {
        double before = now();
        call(text, reading);
        repeated(&repeats, now() - before);
    }
    return repeats.best;
}

static bool same_counts(const struct reading *one, const struct reading *other)
{
    return one->taken && other->taken && one->nodes == other->nodes
        && one->transistors == other->transistors;
}

static bool same_tables(const struct reading *one, const struct reading *other)
{
    size_t n = one->nodes, t = one->transistors, cells = t * sizeof one->gates[0];
    return memcmp(one->kinds, other->kinds, n) == 0 && memcmp(one->types, other->types, t) == 0
        && memcmp(one->gates, other->gates, cells) == 0
        && memcmp(one->sources, other->sources, cells) == 0
        && memcmp(one->drains, other->drains, cells) == 0;
}

static void bench_text(void (*make)(struct text_shape *text, uint64_t seed), uint64_t seed)
{
    static struct text_shape text;
    static struct reading from_library, from_names, from_plain;
    make(&text, seed);
    double plain_time = reading_seconds(plain_read, &text, &from_plain);
    struct times read = {.library = reading_seconds(library_read, &text, &from_library),
                         .plain = plain_time};
    struct times names = {.library = reading_seconds(library_names, &text, &from_names),
                          .plain = plain_time};
    printf("%-28s %5zu %5zu %5u %5u |", text.name, text.length, text.lines, from_library.nodes,
           from_library.transistors);
    print_times(&read, 1e3);
    printf(" | ");
    print_times(&names, 1e3);
    printf("\n");
    if (!same_counts(&from_library, &from_plain) || !same_counts(&from_names, &from_plain)
        || !same_tables(&from_library, &from_plain)) {
        printf("%s: THE TWO READERS DIFFER\n", text.name);
        all_agree = false;
    }
    fflush(stdout);
}

static void bench_texts(uint64_t seed)
{
    printf("\nMilliseconds: reading a text; the names of its nodes, beside the same plain C.\n");
    printf("%-28s %5s %5s %5s %5s | %9s %9s %7s | %10s %9s %7s\n", "text", "bytes", "lines",
           "nodes", "trans", "read: lib", "plain C", "ratio", "names: lib", "plain C", "ratio");
    bench_text(text_short_names, seed);
    bench_text(text_extracted, seed);
    bench_text(text_few_names, seed);
    bench_text(text_one_chain, seed);
}

int main(int count, char **words)
{
    uint64_t seed = 1;
    bool shapes_alone = false;
    for (int at = 1; at < count; at++) {
        if (strcmp(words[at], "--seed") == 0 && at + 1 < count)
            seed = strtoull(words[++at], NULL, 10);
        else if (strcmp(words[at], "--shapes") == 0)
            shapes_alone = true;
        else if (strcmp(words[at], "--emulated") == 0)
            printf("UNDER AN EMULATOR: times mean nothing by themselves, ratios little.\n");
        else {
            fprintf(stderr, "bench: %s is no option\n", words[at]);
            return 2;
        }
    }
    double began = now();
    bench_shapes(seed);
    if (!shapes_alone) {
        bench_reset(seed);
        bench_growth(seed);
        bench_texts(seed);
    }
    printf("\n%s; %.0f s in all\n",
           all_agree ? "library and plain C agree on every state, count and table read"
                     : "THEY DIFFER",
           now() - began);
    return all_agree ? 0 : 1;
}
