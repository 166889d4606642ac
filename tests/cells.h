/* Cell files: one call each of the library and of the model, as in calls.h, for slices of up to 16 MiB and more. */
#ifndef CELLS_H
#define CELLS_H

#include <sys/mman.h>

#include "calls.h"

#define BLOCK 8
#define KEYS ((uint64_t)1 << 40) /* a cell key is below it */
#define LONGEST ((size_t)16 << 20)
#define ROOM (LONGEST + 64)
#define SPARE 4096
#define NUMBERS 120
#define COUNT(list) (sizeof(list) / sizeof *(list))

static uint8_t any[ROOM + SPARE]; /* bytes of any kind: files, and what is written over */
static uint8_t made[ROOM];        /* what out held after the last call */
static uint8_t theirs[ROOM];      /* and what the model's did */
static uint32_t given[NUMBERS];   /* how often each number was */

static inline void make_any(void)
{
    for (size_t at = 0; at < sizeof any; at += sizeof(uint64_t)) {
        uint64_t eight = random64();
        memcpy(any + at, &eight, sizeof eight);
    }
}

static inline const uint8_t *some_bytes(void)
{
    return any + random_below(SPARE);
}

/* Any cell key, now and then the first or the last. */
static inline uint64_t some_key(void)
{
    uint64_t which = random_below(16);
    return which == 0 ? 0 : which == 1 ? KEYS - 1 : random_below(KEYS);
}

static inline uint64_t no_key(void)
{
    const uint64_t wrong[] = {KEYS, KEYS + 1, KEYS | random_below(KEYS), (uint64_t)1 << 63, UINT64_MAX, LAMBUKIR_NO_KEY, random64() | KEYS};
    return wrong[random_below(COUNT(wrong))];
}

/* What comes out of so many bytes. */
static inline size_t enciphered_length(size_t length)
{
    return length / BLOCK * BLOCK + BLOCK;
}

/* Big-endian. */
static inline uint64_t number_at(const uint8_t *bytes, size_t length)
{
    uint64_t number = 0;
    for (size_t i = 0; i < length; i++)
        number = number << 8 | bytes[i];
    return number;
}

static inline void expect_given(uint32_t number, uint32_t least)
{
    same(given[number] >= least, 1, "%" PRIu32 " came up %" PRIu32 " times", number, given[number]);
}

/* What is written over, of which the model gets a copy. */
static inline lent lend_out(size_t length)
{
    const uint8_t *before = some_bytes();
    memcpy(theirs, before, length);
    return lend(before, length, random_below(16));
}

/* The bytes of out, and how many were written. */
static inline void same_written(lent *out, uint64_t written, uint32_t number)
{
    memcpy(made, out->bytes, out->length);
    same_out(out, theirs, written <= out->length ? written : out->length);
    given[number % NUMBERS]++;
}

static inline void same_lengths(lambukir_written ours, lambukir_written model)
{
    same(ours.number, model.number, "%s: number", about);
    same(ours.length, model.length, "%s: length", about);
    if (ours.number != 0)
        same(ours.length, 0, "%s: length of a refusal", about);
}

static inline lambukir_written compare_file(uint64_t key, const uint8_t *file, size_t length, size_t out_length)
{
    lent f = lend(file, length, random_below(16)), out = lend_out(out_length);
    lambukir_written ours = lambukir_encipher_file(key, f.bytes, length, out.bytes, out_length);
    same_lengths(ours, model_encipher_file(key, file, length, theirs, out_length));
    same_kept(&f, "file");
    same_written(&out, ours.length, ours.number);
    return ours;
}

static inline lambukir_part_written compare_part(uint64_t key, uint64_t carried, uint32_t carried_length, const uint8_t *part, size_t length, size_t out_length)
{
    lent p = lend(part, length, random_below(16)), out = lend_out(out_length);
    lambukir_part_written ours = lambukir_encipher_part(key, carried, carried_length, p.bytes, length, out.bytes, out_length);
    lambukir_part_written model = model_encipher_part(key, carried, carried_length, part, length, theirs, out_length);
    same(ours.number, model.number, "%s: number of the part", about);
    same(ours.length, model.length, "%s: length of the part", about);
    same(ours.carried, model.carried, "%s: carried", about);
    same(ours.carried_length, model.carried_length, "%s: carried length", about);
    if (ours.number != 0)
        same(ours.length | ours.carried | ours.carried_length, 0, "%s: values of a refusal", about);
    same_kept(&p, "part");
    same_written(&out, ours.length, ours.number);
    return ours;
}

static inline lambukir_written compare_end(uint64_t key, uint64_t carried, uint32_t carried_length, size_t out_length)
{
    lent out = lend_out(out_length);
    lambukir_written ours = lambukir_encipher_end(key, carried, carried_length, out.bytes, out_length);
    same_lengths(ours, model_encipher_end(key, carried, carried_length, theirs, out_length));
    same_written(&out, ours.length, ours.number);
    return ours;
}

static inline lambukir_cell_file compare_opening(const uint8_t *file, size_t length, uint64_t key_one, uint64_t key_two, uint32_t crc, size_t out_length)
{
    lent f = lend(file, length, random_below(16)), out = lend_out(out_length);
    lambukir_cell_file ours = lambukir_open_cell_file(f.bytes, length, key_one, key_two, crc, out.bytes, out_length);
    lambukir_cell_file model = model_open_cell_file(file, length, key_one, key_two, crc, theirs, out_length);
    same(ours.number, model.number, "%s: number", about);
    same(ours.length, model.length, "%s: length", about);
    same(ours.key, model.key, "%s: key", about);
    if (ours.number != 0)
        same(ours.length | ours.key, 0, "%s: values of a refusal", about);
    same_kept(&f, "file");
    same_written(&out, ours.length, ours.number);
    return ours;
}

/* Zeros, more of them than 32 bits can count: to be read, and where it is said to be written too. What is not touched takes no memory. */
#define HUGE (((size_t)1 << 32) + 2 * LONGEST)

static inline uint8_t *map_huge(int protection)
{
    uint8_t *map = mmap(NULL, HUGE, protection, MAP_PRIVATE | MAP_ANONYMOUS | MAP_NORESERVE, -1, 0);
    if (map == MAP_FAILED) {
        puts("out of memory");
        exit(1);
    }
    return map;
}

/* The first bytes of what was lent as zeros, from a place on. */
static inline void same_zeros(const uint8_t *map, size_t from)
{
    size_t at = from;
    while (at < SPARE && map[at] == 0)
        at++;
    same(at, SPARE, "%s: the first byte of out that was written, from %zu on", about, from);
}

/* Lengths above a bound: by one, by more, and such as 32 bits would take for a good one. */
static inline size_t some_above(size_t bound)
{
    const size_t above[] = {bound + 1, bound + 7, bound + 8, bound + 9, 2 * bound, (size_t)1 << 32, ((size_t)1 << 32) + 5, ((size_t)1 << 32) + 8};
    return above[random_below(COUNT(above))];
}

#endif
