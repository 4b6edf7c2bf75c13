/*
   The bench set: the fourteen runs whose lines were given with the rules. Here the
   printed lines themselves are compared, with brute force as well as with the
   library, so that the two cannot be wrong in the same way unseen.
*/
#include <stdio.h>
#include <string.h>

#include "door.h"
#include "host.h"
#include "network.h"

static struct storage storage;

static struct call inv(void)
{
    struct call call = network_call(&storage, 3, 1);
    network_kinds(&call, "IIP");
    network_transistor(&call, 0, N_TYPE, 1, 0, 2);
    return call;
}

static struct call pass(void)
{
    struct call call = network_call(&storage, 3, 1);
    network_kinds(&call, "INN");
    network_transistor(&call, 0, N_TYPE, 0, 1, 2);
    return call;
}

static struct call ring(void)
{
    struct call call = network_call(&storage, 2, 1);
    network_kinds(&call, "IP");
    network_transistor(&call, 0, N_TYPE, 1, 0, 1);
    return call;
}

static struct call fence(void)
{
    struct call call = network_call(&storage, 4, 2);
    network_kinds(&call, "INPN");
    network_transistor(&call, 0, N_TYPE, 0, 1, 2);
    network_transistor(&call, 1, N_TYPE, 0, 2, 3);
    return call;
}

static struct call shorted(void)
{
    struct call call = network_call(&storage, 3, 2);
    network_kinds(&call, "IIN");
    network_transistor(&call, 0, D_TYPE, 0, 0, 2);
    network_transistor(&call, 1, D_TYPE, 0, 1, 2);
    return call;
}

static struct call split(void)
{
    struct call call = network_call(&storage, 4, 3);
    network_kinds(&call, "IINN");
    network_transistor(&call, 0, D_TYPE, 0, 0, 2);
    network_transistor(&call, 1, D_TYPE, 0, 0, 3);
    network_transistor(&call, 2, D_TYPE, 0, 1, 3);
    return call;
}

static struct call latch(void)
{
    struct call call = network_call(&storage, 3, 1);
    network_kinds(&call, "IIN");
    network_transistor(&call, 0, N_TYPE, 0, 1, 2);
    return call;
}

static const struct {
    struct call (*network)(void);
    enum entry entry;
    uint32_t limit;
    const char *start;
    const char *changes; /* node and new state in turn */
    const char *line;    /* answer, place, counts, states */
} set[] = {
    {inv, ENTRY_UNIT_RUN, 0, "0XX", "11", "0 0 1 0 010"},
    {inv, ENTRY_UNIT_RUN, 0, "010", "1X", "0 0 1 0 0XX"},
    {inv, ENTRY_TERNARY_RUN, 0, "010", "10", "0 0 1 1 001"},
    {pass, ENTRY_UNIT_RUN, 0, "010", "01", "0 0 1 0 1XX"},
    {pass, ENTRY_UNIT_RUN, 0, "011", "0X", "0 0 0 0 X11"},
    {ring, ENTRY_UNIT_RUN, 4, "00", "", "8 1 4 0 00"},
    {ring, ENTRY_TERNARY_RUN, 0, "00", "", "7 0 0 0 00"},
    {inv, ENTRY_UNIT_RUN, 0, "0XX", "1111", "6 1 0 0 0XX"},
    {fence, ENTRY_UNIT_RUN, 0, "X011", "", "0 0 1 0 XX11"},
    {shorted, ENTRY_UNIT_RUN, 0, "010", "", "0 0 1 0 01X"},
    {split, ENTRY_UNIT_RUN, 0, "1000", "", "0 0 1 0 101X"},
    {latch, ENTRY_UNIT_RUN, 0, "100", "0011", "0 0 0 0 010"},
    {latch, ENTRY_TERNARY_RUN, 0, "100", "0011", "0 0 1 0 01X"},
    {ring, ENTRY_UNIT_RUN, 4, "0X", "", "0 0 0 0 0X"},
};
enum { SET = sizeof set / sizeof *set };

void check_bench_set(const struct options *options)
{
    struct dice dice = dice_for(options->seed, 0);
    for (size_t k = 0; k < SET; k++) {
        door_now_checking("bench", k + 1, options->replay);
        struct call call = set[k].network();
        call.entry = set[k].entry;
        call.limit = set[k].limit;
        network_states(&call, set[k].start);
        for (const char *change = set[k].changes; *change; change += 2)
            network_change(&call, (uint16_t)(change[0] - '0'),
                           change[1] == 'X' ? UNKNOWN : (uint8_t)(change[1] - '0'));
        network_random_work(&call, &dice);

        uint32_t answer[4];
        door_compare(&call, answer);
        char line[64];
        int used = snprintf(line, sizeof line, "%u %u %u %u ", answer[0], answer[1], answer[2],
                            answer[3]);
        for (size_t v = 0; v < call.states.length; v++)
            line[used++] = "01X"[call.states.at[v]];
        line[used] = '\0';
        if (strcmp(line, set[k].line) != 0)
            door_difference("brute force does not give the line that was asked for");
    }
    printf("bench set: %d runs\n", SET);
}
