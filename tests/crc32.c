/* CRC-32 against zlib's. */
#include <zlib.h>

#include "compare.h"
#include "guard.h"
#include "lambukir.h"
#include "random.h"

#define LONGEST (((size_t)16 << 20) + 20)

static void compare_crc(const uint8_t *data, size_t length, size_t shift)
{
    lent l = lend(data, length, shift);
    same(lambukir_crc32(l.bytes, length), crc32(0, data, (uInt)length), "%zu bytes at alignment %zu", length, shift);
    same(all_kept(&l), 1, "the %zu lent bytes and their guard bytes", length);
    give_back(&l);
}

/* Zeros, ones and random bytes. */
static void fill(uint8_t *data, size_t length, int which)
{
    random_bytes(data, length);
    if (which < 2)
        memset(data, which == 0 ? 0 : 0xFF, length);
}

/* The library takes 16 bytes at a time where there are more than some 128, and the others one by one. */
static void lengths(void)
{
    uint8_t data[600];
    for (size_t length = 0; length <= sizeof data; length++)
        for (size_t shift = 0; shift < 16; shift++)
            for (int which = 0; which < 4; which++) {
                fill(data, length, which);
                compare_crc(data, length, shift);
            }
}

static uint8_t data[LONGEST];

/* Every length up to 2,000 at each alignment, of bytes that stay. */
static void alignments(void)
{
    random_bytes(data, 4000);
    for (size_t length = 0; length <= 2000; length++)
        for (size_t shift = 0; shift < 16; shift++)
            compare_crc(data + random_below(2000), length, shift);
}

static void longer(void)
{
    static const size_t sizes[] = {4095, 4096, 4097, 5552, 65519, 65535, 65536, 65537, 65551, 1048575, 1048577};
    for (size_t i = 0; i < sizeof sizes / sizeof *sizes; i++)
        for (size_t shift = 0; shift < 16; shift++) {
            fill(data, sizes[i], (int)(shift % 4));
            compare_crc(data, sizes[i], shift);
        }
}

/* As long as the longest cell file, and around that. */
static void longest(void)
{
    random_bytes(data, LONGEST);
    for (size_t length = LONGEST - 40; length <= LONGEST; length += 1 + random_below(3))
        compare_crc(data, length, random_below(16));
}

/* One bit of a long slice, wherever it stands, is in the CRC-32. */
static void bits(void)
{
    random_bytes(data, 1000);
    uint32_t before = lambukir_crc32(data, 1000);
    for (size_t at = 0; at < 1000; at++)
        for (int bit = 0; bit < 8; bit++) {
            data[at] ^= (uint8_t)(1 << bit);
            same(lambukir_crc32(data, 1000), crc32(0, data, 1000), "bit %d of byte %zu changed", bit, at);
            same(lambukir_crc32(data, 1000) != before, 1, "bit %d of byte %zu changed, against the CRC-32 before", bit, at);
            data[at] ^= (uint8_t)(1 << bit);
        }
}

int main(int argc, char **argv)
{
    static const subject subjects[] = {
        {"crc32-lengths", lengths},
        {"crc32-alignments", alignments},
        {"crc32-long", longer},
        {"crc32-longest", longest},
        {"crc32-bits", bits},
    };
    seed_random();
    return run_subjects(subjects, sizeof subjects / sizeof *subjects, argc, argv);
}
