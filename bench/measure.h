/* Both sides take turns in many short rounds, each side first in half of them, and the best round of each counts: what else the
   machine does can only make a round longer. */
#ifndef MEASURE_H
#define MEASURE_H

#include <stdint.h>
#include <stdio.h>
#include <time.h>

#define ROUNDS 400

static uint64_t sum; /* of the answers */

static inline double nanoseconds(void (*run)(int), int calls)
{
    struct timespec from, to;
    clock_gettime(CLOCK_MONOTONIC, &from);
    run(calls);
    clock_gettime(CLOCK_MONOTONIC, &to);
    return ((double)(to.tv_sec - from.tv_sec) * 1e9 + (double)(to.tv_nsec - from.tv_nsec)) / calls;
}

/* The best round of ours and of theirs. */
static inline void best_rounds(void (*ours)(int), void (*theirs)(int), int calls, int rounds, double best[2])
{
    void (*sides[2])(int) = {ours, theirs};
    best[0] = best[1] = 1e30;
    for (int round = 0; round < rounds; round++)
        for (int turn = 0; turn < 2; turn++) {
            int side = (round + turn) % 2;
            double took = nanoseconds(sides[side], calls);
            if (took < best[side])
                best[side] = took;
        }
}

static inline void measure(const char *name, void (*ours)(int), void (*theirs)(int), const char *whose, int calls)
{
    double best[2];
    best_rounds(ours, theirs, calls, ROUNDS, best);
    printf("%-18s ours %9.1f ns   %-8s %9.1f ns   ratio %.2f\n", name, best[0], whose, best[1], best[0] / best[1]);
}

/* Of a call that takes long: few rounds, and milliseconds. */
static inline void measure_long(const char *name, void (*ours)(int), void (*theirs)(int), const char *whose, int rounds)
{
    double best[2];
    best_rounds(ours, theirs, 1, rounds, best);
    printf("%-18s ours %9.1f ms   %-8s %9.1f ms   ratio %.2f\n", name, best[0] / 1e6, whose, best[1] / 1e6, best[0] / best[1]);
}

/* Two functions that run the same calls, of the library and of another's. */
#define BOTH(other, name, call)                                                                                                                  \
    static void our_##name(int calls)                                                                                                            \
    {                                                                                                                                            \
        for (int i = 0; i < calls; i++)                                                                                                          \
            sum += lambukir_##call;                                                                                                              \
    }                                                                                                                                            \
    static void their_##name(int calls)                                                                                                          \
    {                                                                                                                                            \
        for (int i = 0; i < calls; i++)                                                                                                          \
            sum += other##_##call;                                                                                                               \
    }

#endif
