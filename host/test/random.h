/* random.h: numbers that a seed decides (xorshift64*). */
#ifndef RANDOM_H
#define RANDOM_H

#include <stdint.h>

typedef struct {
    uint64_t state;
} random_source;

static inline random_source random_from(uint64_t seed)
{
    random_source r = {seed * 0x9E3779B97F4A7C15u + 1};

    return r;
}

static inline uint64_t random_word(random_source *r)
{
    if (r->state == 0)
        r->state = 1;
    r->state ^= r->state >> 12;
    r->state ^= r->state << 25;
    r->state ^= r->state >> 27;
    return r->state * 0x2545F4914F6CDD1Du;
}

/* 0 to most - 1. */
static inline uint32_t random_below(random_source *r, uint32_t most)
{
    return (uint32_t)((random_word(r) >> 32) * most >> 32);
}

#endif
