/* The door: see door.h. */
#include "door.h"

#include <inttypes.h>
#include <stdio.h>
#include <stdlib.h>
#include <string.h>

#include "lend.h"
#include "twistdory.h"

enum table { KINDS, STATES, TYPES, GATES, SOURCES, DRAINS, CHANGE_NODES, CHANGE_STATES, WORK,
             ANSWER, TABLES };

static struct rooms rooms[TABLES];

static const char *const entry_names[ENTRIES] = {"check", "reset", "step", "unit run",
                                                 "ternary run"};

void door_open(void)
{
    for (int table = 0; table < TABLES; table++) {
        bool may_write = table == STATES || table == WORK || table == ANSWER;
        rooms_open(&rooms[table], may_write);
    }
    guard_open();
}

/* ---- lending ---- */

void door_lend_null(bool null)
{
    lend_null(null);
}

static void lend_all(struct lent lent[TABLES], const struct call *call, enum flush flush)
{
    static const uint32_t unwritten[4] = {0xdeadbeef, 0xdeadbeef, 0xdeadbeef, 0xdeadbeef};
    lent[KINDS] = lend(&rooms[KINDS], call->kinds.at, call->kinds.length, flush);
    lent[STATES] = lend(&rooms[STATES], call->states.at, call->states.length, flush);
    lent[TYPES] = lend(&rooms[TYPES], call->types.at, call->types.length, flush);
    lent[GATES] = lend(&rooms[GATES], call->gates.at, 2 * call->gates.length, flush);
    lent[SOURCES] = lend(&rooms[SOURCES], call->sources.at, 2 * call->sources.length, flush);
    lent[DRAINS] = lend(&rooms[DRAINS], call->drains.at, 2 * call->drains.length, flush);
    lent[CHANGE_NODES] = lend(&rooms[CHANGE_NODES], call->change_nodes.at,
                              2 * call->change_nodes.length, flush);
    lent[CHANGE_STATES] = lend(&rooms[CHANGE_STATES], call->change_states.at,
                               call->change_states.length, flush);
    lent[WORK] = lend(&rooms[WORK], call->work.at, 2 * call->work.length, flush);
    lent[ANSWER] = lend(&rooms[ANSWER], unwritten, sizeof unwritten, flush);
}

/* A call and what it is lent, for the guard. */
struct lent_call {
    const struct call *call;
    struct lent *lent;
};

static void call_library(const void *made)
{
    const struct call *call = ((const struct lent_call *)made)->call;
    const struct lent *lent = ((const struct lent_call *)made)->lent;
    const uint8_t *kinds = lent[KINDS].pointer, *types = lent[TYPES].pointer;
    const uint16_t *gates = lent[GATES].pointer, *sources = lent[SOURCES].pointer,
                   *drains = lent[DRAINS].pointer, *change_nodes = lent[CHANGE_NODES].pointer;
    const uint8_t *change_states = lent[CHANGE_STATES].pointer;
    uint8_t *states = lent[STATES].pointer;
    uint16_t *work = lent[WORK].pointer;
    uint32_t *answer = lent[ANSWER].pointer;

    switch (call->entry) {
    case ENTRY_CHECK:
        twistdory_check(kinds, call->kinds.length, types, call->types.length,
                        gates, call->gates.length, sources, call->sources.length,
                        drains, call->drains.length, answer);
        break;
    case ENTRY_RESET:
        twistdory_reset(kinds, call->kinds.length, states, call->states.length, answer);
        break;
    case ENTRY_STEP:
        twistdory_step(kinds, call->kinds.length, states, call->states.length,
                       types, call->types.length, gates, call->gates.length,
                       sources, call->sources.length, drains, call->drains.length,
                       work, call->work.length, answer);
        break;
    case ENTRY_UNIT_RUN:
        twistdory_unit_run(kinds, call->kinds.length, states, call->states.length,
                           types, call->types.length, gates, call->gates.length,
                           sources, call->sources.length, drains, call->drains.length,
                           change_nodes, call->change_nodes.length,
                           change_states, call->change_states.length, call->limit,
                           work, call->work.length, answer);
        break;
    case ENTRY_TERNARY_RUN:
        twistdory_ternary_run(kinds, call->kinds.length, states, call->states.length,
                              types, call->types.length, gates, call->gates.length,
                              sources, call->sources.length, drains, call->drains.length,
                              change_nodes, call->change_nodes.length,
                              change_states, call->change_states.length,
                              work, call->work.length, answer);
        break;
    case ENTRIES:
        abort();
    }
}

/* Returns 0, or the signal that ended the call. */
static int call_guarded(const struct call *call, struct lent lent[TABLES])
{
    return guard_call(call_library, &(struct lent_call){call, lent});
}

/* ---- reports ---- */

static void print_states(const char *what, const uint8_t *states, size_t length)
{
    printf("  %s ", what);
    for (size_t v = 0; v < length && v < 64; v++) {
        if (states[v] <= 2)
            putchar("01X"[states[v]]);
        else
            printf("<%u>", states[v]);
    }
    printf(length > 64 ? "..\n" : "\n");
}

static void print_call(const struct call *call, enum flush flush)
{
    printf("  %s; tables %s an untouchable page; lengths: kinds %zu, states %zu, types %zu, "
           "gates %zu, sources %zu, drains %zu, changes %zu and %zu, work %zu; limit %" PRIu32 "\n",
           entry_names[call->entry], flush == FLUSH_END ? "end at" : "begin at",
           call->kinds.length, call->states.length, call->types.length, call->gates.length,
           call->sources.length, call->drains.length, call->change_nodes.length,
           call->change_states.length, call->work.length, call->limit);
    size_t transistors = call->types.length;
    if (call->kinds.length > 16 || transistors > 32 || call->gates.length != transistors
        || call->sources.length != transistors || call->drains.length != transistors)
        return;
    printf("  kinds ");
    for (size_t v = 0; v < call->kinds.length; v++)
        putchar(call->kinds.at[v] <= 4 ? "NPIGV"[call->kinds.at[v]] : '?');
    printf("; transistors");
    for (size_t i = 0; i < transistors; i++)
        printf(" %c(%u;%u,%u)", call->types.at[i] <= 2 ? "npd"[call->types.at[i]] : '?',
               call->gates.at[i], call->sources.at[i], call->drains.at[i]);
    printf("; changes");
    for (size_t i = 0; i < call->change_nodes.length && i < call->change_states.length; i++)
        printf(" %u to %u", call->change_nodes.at[i], call->change_states.at[i]);
    printf("\n");
    print_states("states lent  ", call->states.at, call->states.length);
}

static void report_trap(const struct call *call, enum flush flush, int trapped)
{
    if (guard_tells_trap(trapped))
        print_call(call, flush);
    guard_found(&door_counts.traps);
}

static void report_stray(const struct call *call, enum flush flush, const char *table)
{
    if (guard_tells("STRAY WRITE")) {
        printf("  beside the %s\n", table);
        print_call(call, flush);
    }
    guard_found(&door_counts.stray);
}

static void report_difference(const struct call *call, enum flush flush, const char *where,
                              const struct outcome *wanted, const struct lent lent[TABLES])
{
    const uint32_t *got = lent_now(&lent[ANSWER]), *want = wanted->answer;
    if (guard_tells("DIFFERENCE")) {
        printf("  in the %s\n", where);
        print_call(call, flush);
        printf("  wanted answer %u place %u counts %u %u; got %u %u %u %u\n", want[0], want[1],
               want[2], want[3], got[0], got[1], got[2], got[3]);
        if (entry_takes_states(call->entry)) {
            print_states("states wanted", wanted->states, call->states.length);
            print_states("states got   ", lent_now(&lent[STATES]), call->states.length);
        }
    }
    guard_found(&door_counts.differences);
}

/* ---- comparing ---- */

/* Whether nothing was written beside the tables. */
static bool kept_within(const struct call *call, enum flush flush, const struct lent lent[TABLES])
{
    static const enum table written[] = {STATES, WORK, ANSWER};
    static const char *const names[] = {"states", "work area", "answer"};
    const char *strayed = NULL;
    for (int k = 0; k < 3; k++) {
        const struct lent *table = &lent[written[k]];
        if (room_strayed(table->room, table->place, table->bytes))
            strayed = names[k];
    }
    if (strayed)
        report_stray(call, flush, strayed);
    return strayed == NULL;
}

static bool try_flush(const struct call *call, const struct outcome *wanted, enum flush flush)
{
    struct lent lent[TABLES];
    lend_all(lent, call, flush);
    door_counts.calls++;
    int trapped = call_guarded(call, lent);

    const char *where = NULL;
    if (!lent_same(&lent[ANSWER], wanted->answer))
        where = "answer";
    else if (!lent_same(&lent[STATES], wanted->states))
        where = "states";
    else if (!lent_same(&lent[WORK], wanted->work))
        where = "work area";
    if (trapped)
        report_trap(call, flush, trapped);
    else if (where)
        report_difference(call, flush, where, wanted, lent);
    bool within = kept_within(call, flush, lent);
    return !trapped && !where && within;
}

bool door_ask(struct call *call, uint32_t answer[4])
{
    struct lent lent[TABLES];
    lend_all(lent, call, FLUSH_END);
    door_counts.calls++;
    int trapped = call_guarded(call, lent);
    if (trapped)
        report_trap(call, FLUSH_END, trapped);
    memcpy(call->states.at, lent_now(&lent[STATES]), call->states.length);
    memcpy(call->work.at, lent_now(&lent[WORK]), 2 * call->work.length);
    memcpy(answer, lent_now(&lent[ANSWER]), 4 * sizeof *answer);
    return kept_within(call, FLUSH_END, lent) && !trapped;
}

bool door_try(const struct call *call, const struct outcome *wanted)
{
    bool at_end = try_flush(call, wanted, FLUSH_END);
    bool at_begin = try_flush(call, wanted, FLUSH_BEGIN);
    return at_end && at_begin;
}

bool door_compare_by(brute_stepper *step, struct call *call, uint32_t answer[4])
{
    static uint8_t states_lent[70000];
    static uint16_t work_lent[70000];
    struct call as_lent = *call;
    as_lent.states.at = states_lent;
    as_lent.work.at = work_lent;
    memcpy(states_lent, call->states.at, call->states.length);
    memcpy(work_lent, call->work.at, 2 * call->work.length);

    brute_answer_by(step, call, answer);
    struct outcome wanted = {.states = call->states.at, .work = call->work.at};
    memcpy(wanted.answer, answer, sizeof wanted.answer);
    return door_try(&as_lent, &wanted);
}

bool door_compare(struct call *call, uint32_t answer[4])
{
    return door_compare_by(brute_step, call, answer);
}
