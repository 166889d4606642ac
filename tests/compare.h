/* What each comparison is written with: it counts cases, shows the first that differ, and runs the subjects by name. */
#ifndef COMPARE_H
#define COMPARE_H

#include <inttypes.h>
#include <stdarg.h>
#include <stdint.h>
#include <stdio.h>
#include <string.h>

#define SHOWN 5

typedef struct {
    const char *name;
    void (*compare)(void);
} subject;

static uint64_t cases, differ;

/* One case. The words say which one it is, where ours is not theirs. */
__attribute__((format(printf, 3, 4))) static inline void same(uint64_t ours, uint64_t theirs, const char *words, ...)
{
    cases++;
    if (ours == theirs || differ++ >= SHOWN)
        return;
    va_list rest;
    va_start(rest, words);
    fputs("  ", stdout);
    vprintf(words, rest);
    printf(": ours %" PRIX64 ", theirs %" PRIX64 " (hex)\n", ours, theirs);
    va_end(rest);
}

/* Runs the subject that the program's argument names, or all. 0 only where there were cases and none differs. */
static inline int run_subjects(const subject *subjects, size_t count, int argc, char **argv)
{
    int ran = 0, bad = 0;
    for (size_t i = 0; i < count; i++) {
        if (argc > 1 && strcmp(argv[1], subjects[i].name) != 0)
            continue;
        cases = differ = 0;
        subjects[i].compare();
        printf("%s: %" PRIu64 " cases, %" PRIu64 " differ\n", subjects[i].name, cases, differ);
        ran++;
        bad |= differ != 0 || cases == 0;
    }
    if (ran == 0)
        printf("%s: no such subject\n", argv[1]);
    return bad || ran == 0;
}

#endif
