/* The checks of the outside check, each in a file of its own. */
#ifndef OUTSIDE_HOST_H
#define OUTSIDE_HOST_H

#include <stdbool.h>
#include <stdint.h>

struct options {
    uint64_t seed;       /* of everything drawn at random */
    uint64_t from;       /* the number of the first random network and text */
    uint64_t networks;   /* how many random networks */
    uint64_t texts;      /* how many random texts, and of the claims at most so many */
    const char *claims;  /* a file of claims about texts, or NULL */
    uint32_t small_part; /* one small network in so many; 1 takes all */
    char replay[80];     /* the options that draw the same again */
};

void check_bench_set(const struct options *options);
void check_refusals(const struct options *options);
void check_full_size(const struct options *options);
void check_small(const struct options *options);
void check_random(const struct options *options);
void check_texts(const struct options *options);
void check_claims(const struct options *options);

/* For checks that take long: a line that is written over each two seconds, or a
   line each minute where it goes to no screen. */
void progress(const char *what, uint64_t done, uint64_t whole);

#endif
