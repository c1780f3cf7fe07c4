/* A small repeatable source of random numbers (splitmix64). */
#ifndef RNG_H
#define RNG_H

#include <stdbool.h>
#include <stdint.h>

typedef struct {
    uint64_t state;
} rng;

static inline uint64_t rng_next(rng *r)
{
    r->state += UINT64_C(0x9E3779B97F4A7C15);
    uint64_t x = r->state;
    x = (x ^ x >> 30) * UINT64_C(0xBF58476D1CE4E5B9);
    x = (x ^ x >> 27) * UINT64_C(0x94D049BB133111EB);
    return x ^ x >> 31;
}

/* A number below the bound, which is 1 or more. */
static inline uint64_t rng_below(rng *r, uint64_t bound)
{
    return rng_next(r) % bound;
}

/* A number of any width up to 64 bits. */
static inline uint64_t rng_any_width(rng *r)
{
    uint64_t shift = rng_below(r, 64);
    return rng_next(r) >> shift;
}

/* True once in so many times. */
static inline bool rng_one_in(rng *r, uint64_t times)
{
    return rng_below(r, times) == 0;
}

#endif
