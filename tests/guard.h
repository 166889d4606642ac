/* What is lent to a call is a copy between two zones of guard bytes; after the call it is seen whether they are as they were. */
#ifndef GUARD_H
#define GUARD_H

#include <stdint.h>
#include <stdio.h>
#include <stdlib.h>
#include <string.h>

#define ZONE 64

typedef struct {
    uint8_t *room;     /* a zone, the bytes, a zone */
    uint8_t *bytes;    /* what is lent */
    const uint8_t *of; /* what it is a copy of */
    size_t length, before;
} lent;

static inline uint8_t guard_byte(size_t i)
{
    return (uint8_t)(0xA5 ^ i * 29);
}

/* Lends a copy that begins `shift` bytes after a multiple of 64. Its original stays the caller's, and is not to change. */
static inline lent lend(const void *of, size_t length, size_t shift)
{
    size_t before = ZONE + shift, size = before + length + ZONE;
    uint8_t *room = aligned_alloc(64, (size + 63) / 64 * 64);
    if (!room) {
        puts("out of memory");
        exit(1);
    }
    for (size_t i = 0; i < before; i++)
        room[i] = guard_byte(i);
    memcpy(room + before, of, length);
    for (size_t i = 0; i < ZONE; i++)
        room[before + length + i] = guard_byte(i);
    return (lent){room, room + before, of, length, before};
}

static inline int zones_kept(const lent *l)
{
    for (size_t i = 0; i < l->before; i++)
        if (l->room[i] != guard_byte(i))
            return 0;
    for (size_t i = 0; i < ZONE; i++)
        if (l->bytes[l->length + i] != guard_byte(i))
            return 0;
    return 1;
}

/* The zones and the lent bytes too. */
static inline int all_kept(const lent *l)
{
    return zones_kept(l) && memcmp(l->bytes, l->of, l->length) == 0;
}

static inline void give_back(lent *l)
{
    free(l->room);
}

#endif
