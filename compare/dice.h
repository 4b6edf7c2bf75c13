/*
   Seeded random numbers, the same on every machine. Each network has its own
   dice, thrown from the seed and the network's number, so that any one of them
   can be replayed alone.
*/
#ifndef COMPARE_DICE_H
#define COMPARE_DICE_H

#include <stdint.h>

struct dice {
    uint64_t state;
};

static inline uint64_t dice_next(struct dice *dice)
{
    uint64_t mixed = (dice->state += 0x9e3779b97f4a7c15u);
    mixed = (mixed ^ (mixed >> 30)) * 0xbf58476d1ce4e5b9u;
    mixed = (mixed ^ (mixed >> 27)) * 0x94d049bb133111ebu;
    return mixed ^ (mixed >> 31);
}

/* A number from 0 to bound - 1; bound is at least 1. */
static inline uint32_t dice_below(struct dice *dice, uint32_t bound)
{
    return (uint32_t)(((dice_next(dice) >> 32) * bound) >> 32);
}

static inline struct dice dice_for(uint64_t seed, uint64_t number)
{
    struct dice dice = {seed * 0xd1342543de82ef95u + number};
    dice.state = dice_next(&dice) ^ number;
    return dice;
}

#endif
