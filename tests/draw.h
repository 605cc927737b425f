/*
 * draw.h: numbers that are drawn, the same for the same seed on every machine, and a double's bits.
 */
#ifndef DRAW_H
#define DRAW_H

#include <stdint.h>
#include <string.h>

static uint64_t seed = 330;

static inline uint64_t random_bits(void)
{
    uint64_t n = seed += UINT64_C(0x9E3779B97F4A7C15);
    n = (n ^ n >> 30) * UINT64_C(0xBF58476D1CE4E5B9);
    n = (n ^ n >> 27) * UINT64_C(0x94D049BB133111EB);
    return n ^ n >> 31;
}

static inline uint64_t random_below(uint64_t end)
{
    return random_bits() % end;
}

static inline uint64_t bits_of(double x)
{
    uint64_t bits;
    memcpy(&bits, &x, sizeof bits);
    return bits;
}

static inline double of_bits(uint64_t bits)
{
    double x;
    memcpy(&x, &bits, sizeof x);
    return x;
}

#endif
