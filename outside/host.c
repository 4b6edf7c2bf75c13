/*
   The outside check: a C program that links the library, calls it as the
   group's shell would, and compares everything that comes back with the
   brute-force program and the plain reader.

       host [--seed S] [--from K] [--networks N] [--texts N] [--small-part P]
            [--claims FILE] [--patience SECONDS] [--enough FINDINGS] [CHECK...]

   The checks are bench, refusals, full, small, random, texts and, of a file, claims;
   all if none is named.
   Ends with status 0 only if there was no difference, no trap and no stray write.
*/
#define _POSIX_C_SOURCE 200809L
#include "host.h"

#include <inttypes.h>
#include <stdio.h>
#include <stdlib.h>
#include <string.h>
#include <time.h>
#include <unistd.h>

#include "door.h"
#include "text_door.h"

static const struct {
    const char *name;
    void (*check)(const struct options *options);
} checks[] = {
    {"bench", check_bench_set}, {"refusals", check_refusals}, {"full", check_full_size},
    {"small", check_small},     {"random", check_random},     {"texts", check_texts},
    {"claims", check_claims},
};
enum { CHECKS = sizeof checks / sizeof *checks };

static double now(void)
{
    struct timespec time;
    clock_gettime(CLOCK_MONOTONIC, &time);
    return (double)time.tv_sec + 1e-9 * (double)time.tv_nsec;
}

void progress(const char *what, uint64_t done, uint64_t whole)
{
    static double last;
    bool on_screen = isatty(STDERR_FILENO);
    if (last == 0)
        last = now();
    if (now() - last < (on_screen ? 2 : 60))
        return;
    last = now();
    fprintf(stderr, "%s%s: %" PRIu64 " of %" PRIu64 ", %" PRIu64 " differences, %" PRIu64
            " traps, %" PRIu64 " stray writes%s", on_screen ? "\r" : "", what, done, whole,
            door_counts.differences, door_counts.traps, door_counts.stray,
            on_screen ? "   " : "\n");
}

static uint64_t number_after(int *at, int count, char **words)
{
    char *end = NULL;
    if (++*at < count) {
        uint64_t number = strtoull(words[*at], &end, 10);
        if (end != words[*at] && *end == '\0')
            return number;
    }
    fprintf(stderr, "host: %s wants a number\n", words[*at - 1]);
    exit(2);
}

static const char *word_after(int *at, int count, char **words)
{
    if (++*at < count)
        return words[*at];
    fprintf(stderr, "host: %s wants a file\n", words[*at - 1]);
    exit(2);
}

static void run_check(int k, const struct options *options)
{
    double began = now();
    uint64_t calls = door_counts.calls;
    checks[k].check(options);
    if (isatty(STDERR_FILENO))
        fprintf(stderr, "\r%78s\r", "");
    printf("  %" PRIu64 " calls of the library, %.1f s\n", door_counts.calls - calls,
           now() - began);
    fflush(stdout);
}

int main(int count, char **words)
{
    struct options options = {.seed = 1, .networks = 20000, .texts = 5000, .small_part = 25};
    bool chosen[CHECKS] = {false}, any = false;

    for (int at = 1; at < count; at++) {
        bool known = true;
        if (strcmp(words[at], "--seed") == 0)
            options.seed = number_after(&at, count, words);
        else if (strcmp(words[at], "--from") == 0)
            options.from = number_after(&at, count, words);
        else if (strcmp(words[at], "--networks") == 0)
            options.networks = number_after(&at, count, words);
        else if (strcmp(words[at], "--texts") == 0)
            options.texts = number_after(&at, count, words);
        else if (strcmp(words[at], "--claims") == 0)
            options.claims = word_after(&at, count, words);
        else if (strcmp(words[at], "--small-part") == 0)
            options.small_part = (uint32_t)number_after(&at, count, words);
        else if (strcmp(words[at], "--patience") == 0)
            door_patience = (int)number_after(&at, count, words);
        else if (strcmp(words[at], "--enough") == 0)
            door_enough = number_after(&at, count, words);
        else
            known = false;
        for (int k = 0; k < CHECKS && !known; k++)
            if (strcmp(words[at], checks[k].name) == 0)
                known = any = chosen[k] = true;
        if (!known || options.small_part == 0) {
            fprintf(stderr, "host: %s is no check and no option\n", words[at]);
            return 2;
        }
    }
    snprintf(options.replay, sizeof options.replay, "--seed %" PRIu64 " --small-part %" PRIu32,
             options.seed, options.small_part);

    door_open();
    text_door_open();
    for (int k = 0; k < CHECKS; k++)
        if (chosen[k] || (!any && (checks[k].check != check_claims || options.claims != NULL)))
            run_check(k, &options);

    printf("outside check, seed %" PRIu64 ": %" PRIu64 " calls, %" PRIu64 " differences, %" PRIu64
           " traps, %" PRIu64 " stray writes\n", options.seed, door_counts.calls,
           door_counts.differences, door_counts.traps, door_counts.stray);
    return door_clean() ? 0 : 1;
}
