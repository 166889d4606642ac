/* Random numbers (splitmix64), the same in each run: the seed is printed, and SEED in the environment sets another. */
#ifndef RANDOM_H
#define RANDOM_H

#include <inttypes.h>
#include <stdint.h>
#include <stdio.h>
#include <stdlib.h>

static uint64_t random_state;

static inline void seed_random(void)
{
    const char *given = getenv("SEED");
    random_state = given ? strtoull(given, NULL, 0) : 0x4C616D62756B6972;
    printf("seed 0x%016" PRIX64 "\n", random_state);
}

static inline uint64_t random64(void)
{
    uint64_t z = random_state += 0x9E3779B97F4A7C15;
    z = (z ^ (z >> 30)) * 0xBF58476D1CE4E5B9;
    z = (z ^ (z >> 27)) * 0x94D049BB133111EB;
    return z ^ (z >> 31);
}

static inline uint64_t random_below(uint64_t bound)
{
    return random64() % bound;
}

static inline void random_bytes(uint8_t *out, size_t length)
{
    for (size_t i = 0; i < length; i++)
        out[i] = (uint8_t)random64();
}

#endif
