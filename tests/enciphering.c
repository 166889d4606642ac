/* Cell files enciphered: whole, and by parts wherever they are cut. Against the model, and against what the rules say of each case. */
#define _DEFAULT_SOURCE
#include "cells.h"

#define SHORT 200      /* every length up to here */
#define MOST_PARTS 12
#define MOST_CARRIED 7

static uint8_t whole[ROOM], joined[ROOM]; /* what comes out of a file, and of its parts and its end */
static size_t joined_length;

/* Written down by hand. The first is S-63's own, the HW_ID 12348 under the M_KEY 98765; the others are under its two cell keys, as OpenSSL's program for
   whole texts gives them, which pads by itself. */
static void worked(void)
{
    static const struct {
        uint64_t key;
        const char *file;
        size_t length;
        uint8_t enciphered[24];
    } files[] = {
        {0x3938373635, "12348", 8, {0x73, 0x87, 0x17, 0x27, 0x08, 0x08, 0x76, 0xA0}},
        {0xC1CB518E9C, "", 8, {0x63, 0x51, 0xFB, 0xFD, 0xA9, 0xA7, 0x6A, 0x4B}},
        {0xC1CB518E9C, "1234567", 8, {0x8B, 0x15, 0xEB, 0x93, 0xD0, 0x02, 0x9D, 0x05}},
        {0xC1CB518E9C, "12345678", 16, {0x54, 0x01, 0x8C, 0xA3, 0x9B, 0xDA, 0x00, 0xD5, 0x63, 0x51, 0xFB, 0xFD, 0xA9, 0xA7, 0x6A, 0x4B}},
        {0xC1CB518E9C, "123456789", 16, {0x54, 0x01, 0x8C, 0xA3, 0x9B, 0xDA, 0x00, 0xD5, 0x5F, 0xC7, 0xDD, 0xF9, 0x38, 0xFF, 0x80, 0x36}},
        {0x421571CC66, "123456789", 16, {0x52, 0x8F, 0x58, 0x20, 0x50, 0x92, 0x36, 0x7B, 0x3C, 0x10, 0x25, 0x8E, 0x64, 0x8F, 0xB2, 0x26}},
        {0x421571CC66, "1234567812345678", 24, {0x52, 0x8F, 0x58, 0x20, 0x50, 0x92, 0x36, 0x7B, 0x52, 0x8F, 0x58, 0x20,
                                                0x50, 0x92, 0x36, 0x7B, 0xB3, 0x4E, 0x62, 0x2B, 0x36, 0xE2, 0x46, 0x57}},
        {0, "", 8, {0xB0, 0xD4, 0xAC, 0xB2, 0x8A, 0xA5, 0xEB, 0xE3}},
        {0xFFFFFFFFFF, "A", 8, {0x2D, 0x8C, 0x83, 0x0D, 0xC7, 0x90, 0x60, 0x2D}},
    };
    for (size_t i = 0; i < COUNT(files); i++) {
        const uint8_t *file = (const uint8_t *)files[i].file;
        size_t length = strlen(files[i].file), left = length % BLOCK;
        ABOUT("written down by hand, %zu", i);
        same(compare_file(files[i].key, file, length, 30).length, files[i].length, "%s: length", about);
        same((uint64_t)memcmp(made, files[i].enciphered, files[i].length), 0, "%s: the bytes", about);
        same(compare_part(files[i].key, 0, 0, file, length, 30).length, length - left, "%s: length as a part", about);
        same((uint64_t)memcmp(made, files[i].enciphered, length - left), 0, "%s: the bytes as a part", about);
        same(compare_end(files[i].key, number_at(file + length - left, left), (uint32_t)left, 30).length, BLOCK, "%s: length of the end", about);
        same((uint64_t)memcmp(made, files[i].enciphered + length - left, BLOCK), 0, "%s: the bytes of the end", about);
    }
    ABOUT("nothing, lent as NULL");
    same(lambukir_encipher_file(0, NULL, 0, joined, BLOCK).length, BLOCK, "%s: length", about);
    same((uint64_t)memcmp(joined, files[7].enciphered, BLOCK), 0, "%s: the bytes", about);
    same(lambukir_encipher_part(0, 0x010203, 3, NULL, 0, NULL, 0).carried, 0x010203, "%s: carried", about);
    expect(lambukir_encipher_part(0, 0, 0, (const uint8_t *)"12345678", 8, NULL, 0).number, 108);
    expect(lambukir_encipher_file(0, NULL, 0, NULL, 0).number, 108);
    expect(lambukir_encipher_end(0, 0, 0, NULL, 0).number, 108);
}

/* A whole file into outputs of each length that matters. What comes out goes to `whole`. */
static void compare_whole(uint64_t key, const uint8_t *file, size_t length)
{
    size_t needed = enciphered_length(length);
    ABOUT("%zu bytes, out one byte too short", length);
    expect(compare_file(key, file, length, needed - 1).number, 108);
    ABOUT("%zu bytes, out far too short", length);
    expect(compare_file(key, file, length, random_below(needed)).number, 108);
    ABOUT("%zu bytes, out longer", length);
    expect(compare_file(key, file, length, needed + 1 + random_below(40)).number, 0);
    ABOUT("%zu bytes", length);
    lambukir_written written = compare_file(key, file, length, needed);
    expect(written.number, 0);
    same(written.length, needed, "%s: length, against 8 * (length / 8 + 1)", about);
    memcpy(whole, made, needed);
}

static void join(uint64_t length)
{
    memcpy(joined + joined_length, made, length);
    joined_length += length;
}

/* One part, from a place of the file to another: what was carried is what stands before it since the last multiple of 8. */
static void compare_cut(uint64_t key, const uint8_t *file, size_t from, size_t to)
{
    size_t before = from % BLOCK, left = to % BLOCK, needed = to - left - (from - before);
    uint64_t carried = number_at(file + from - before, before);
    if (needed > 0)
        expect(compare_part(key, carried, (uint32_t)before, file + from, to - from, random_below(2) ? needed - 1 : random_below(needed)).number, 108);
    lambukir_part_written part = compare_part(key, carried, (uint32_t)before, file + from, to - from, needed + (random_below(2) ? random_below(20) : 0));
    expect(part.number, 0);
    same(part.length, needed, "%s: length of the part from %zu to %zu", about, from, to);
    same(part.carried_length, left, "%s: carried length of the part from %zu to %zu", about, from, to);
    same(part.carried, number_at(file + to - left, left), "%s: carried of the part from %zu to %zu", about, from, to);
    join(part.length);
}

/* Cut at these places, which do not fall: the parts and the end are together the whole. */
static void compare_cuts(uint64_t key, const uint8_t *file, size_t length, const size_t *cuts, size_t count)
{
    size_t from = 0, left = length % BLOCK;
    joined_length = 0;
    for (size_t i = 0; i <= count; i++) {
        size_t to = i < count ? cuts[i] : length;
        compare_cut(key, file, from, to);
        from = to;
    }
    expect(compare_end(key, number_at(file + length - left, left), (uint32_t)left, BLOCK + random_below(2) * random_below(20)).number, 0);
    join(BLOCK);
    same(joined_length, enciphered_length(length), "%s: length of all parts", about);
    same((uint64_t)memcmp(joined, whole, joined_length), 0, "%s: all parts, against the whole", about);
}

/* Every length whole, under some keys. */
static void lengths(void)
{
    for (size_t length = 0; length <= SHORT; length++)
        for (int round = 0; round < 8; round++)
            compare_whole(some_key(), some_bytes(), length);
}

/* Every length, cut at random; parts may be empty. */
static void parts(void)
{
    size_t cuts[MOST_PARTS];
    for (size_t length = 0; length <= SHORT; length++)
        for (int round = 0; round < 10; round++) {
            uint64_t key = some_key();
            const uint8_t *file = some_bytes();
            size_t count = random_below(MOST_PARTS + 1);
            for (size_t i = 0; i < count; i++) {
                size_t from = i > 0 ? cuts[i - 1] : 0, most = length - from < 20 || random_below(4) == 0 ? length - from : 20;
                cuts[i] = from + (random_below(6) ? random_below(most + 1) : 0);
            }
            compare_whole(key, file, length);
            ABOUT("%zu bytes in %zu parts", length, count + 1);
            compare_cuts(key, file, length, cuts, count);
        }
}

/* Files of up to 2,500 blocks, whole and cut once, since the library may take many blocks at a time. */
static void longer(void)
{
    for (size_t length = SHORT; length < 2500 * BLOCK; length += 1 + random_below(3 * BLOCK)) {
        uint64_t key = some_key();
        const uint8_t *file = some_bytes();
        size_t cut = random_below(length + 1);
        compare_whole(key, file, length);
        ABOUT("%zu bytes cut at %zu", length, cut);
        compare_cuts(key, file, length, &cut, 1);
    }
}

/* Short files cut once and twice, at every place. */
static void cuts(void)
{
    for (size_t length = 0; length <= 18; length++) {
        uint64_t key = some_key();
        const uint8_t *file = some_bytes();
        compare_whole(key, file, length);
        for (size_t one = 0; one <= length; one++)
            for (size_t two = one; two <= length; two++) {
                ABOUT("%zu bytes cut at %zu and %zu", length, one, two);
                compare_cuts(key, file, length, (const size_t[]){one, two}, 2);
            }
    }
}

/* Whether so many bytes may be carried, and have such a number: the last byte that it has is one of them. */
static int may_be_carried(uint64_t carried, uint32_t length)
{
    uint32_t bytes = 0;
    while (bytes < 8 && carried >> 8 * bytes != 0)
        bytes++;
    return length <= MOST_CARRIED && bytes <= length;
}

static void compare_carried(uint64_t carried, uint32_t length)
{
    size_t part = random_below(20), needed = (length % 256 + part) / BLOCK * BLOCK;
    uint32_t number = may_be_carried(carried, length) ? 0 : 103;
    ABOUT("%" PRIX64 " (hex) carried as %" PRIu32 " bytes", carried, length);
    expect(compare_part(some_key(), carried, length, some_bytes(), part, needed).number, number);
    expect(compare_part(some_key(), carried, length, some_bytes(), 0, 40).number, number);
    expect(compare_end(some_key(), carried, length, BLOCK).number, number);
    expect(compare_end(some_key(), carried, length, BLOCK - 1).number, number == 0 ? 108 : 103);
    if (number == 0 && needed > 0)
        expect(compare_part(some_key(), carried, length, some_bytes(), part, needed - 1).number, 108);
}

/* Every number of carried bytes, and such as fewer bits would take for a good one; each with the numbers at the edges. */
static void carried(void)
{
    static const uint32_t counts[] = {0, 1, 2, 3, 4, 5, 6, 7, 8, 9, 15, 16, 255, 256, 257, 263, 65536, 65539, 1u << 31, UINT32_MAX - 7, UINT32_MAX};
    for (size_t i = 0; i < COUNT(counts); i++)
        for (uint32_t bytes = 0; bytes <= 8; bytes++) {
            uint64_t bound = bytes < 8 ? (uint64_t)1 << 8 * bytes : 0;
            const uint64_t numbers[] = {0, bound, bound - 1, bound + 1, bound / 2, bound >> 8, random64() & (bound - 1), random64(), random64() << 32};
            for (size_t n = 0; n < COUNT(numbers); n++)
                compare_carried(numbers[n], counts[i]);
        }
}

/* Each part length of the first few with each number of carried bytes, into outputs of each length. */
static void outputs(void)
{
    for (size_t part = 0; part <= 17; part++)
        for (uint32_t count = 0; count <= MOST_CARRIED; count++) {
            size_t needed = (count + part) / BLOCK * BLOCK;
            for (size_t out = 0; out <= needed + 2; out++) {
                ABOUT("%" PRIu32 " bytes carried, a part of %zu, out of %zu", count, part, out);
                expect(compare_part(some_key(), random64() & (((uint64_t)1 << 8 * count) - 1), count, some_bytes(), part, out).number, out < needed ? 108 : 0);
            }
        }
    for (uint32_t count = 0; count <= MOST_CARRIED; count++)
        for (size_t out = 0; out <= 2 * BLOCK; out++) {
            ABOUT("the end with %" PRIu32 " bytes carried, out of %zu", count, out);
            expect(compare_end(some_key(), random64() & (((uint64_t)1 << 8 * count) - 1), count, out).number, out < BLOCK ? 108 : 0);
        }
}

/* What is wrong with a call, in the order of the rules. */
enum { BAD_KEY, TOO_LONG, BAD_COUNT, BAD_CARRIED, SHORT_OUT, REASONS };
static const uint32_t order[REASONS] = {103, 103, 103, 103, 108};

/* One call each with the reasons of a mask, from what may only be read. */
static void compare_reasons(unsigned mask, const uint8_t *zeros, uint8_t *out)
{
    uint64_t key = mask >> BAD_KEY & 1 ? no_key() : some_key();
    size_t length = mask >> TOO_LONG & 1 ? some_above(LONGEST) : BLOCK + random_below(100);
    uint32_t count = mask >> BAD_COUNT & 1 ? 8 + (uint32_t)random_below(UINT32_MAX - 8) : (uint32_t)random_below(MOST_CARRIED + 1);
    uint64_t bound = (uint64_t)1 << 8 * (count % 8), carried = mask >> BAD_CARRIED & 1 ? bound + random_below(UINT64_MAX - bound) : random64() & (bound - 1);
    int is_short = mask >> SHORT_OUT & 1;
    size_t file_needed = enciphered_length(length), part_needed = (count % 8 + length) / BLOCK * BLOCK;
    ABOUT("reasons %02X (hex), key %" PRIX64 ", %zu bytes, %" PRIX64 " carried as %" PRIu32, mask, key, length, carried, count);
    lambukir_part_written part =
        lambukir_encipher_part(key, carried, count, zeros, length, out, is_short ? random_below(part_needed) : part_needed + random_below(9));
    lambukir_written end = lambukir_encipher_end(key, carried, count, out, is_short ? random_below(BLOCK) : BLOCK + random_below(9));
    unsigned of_file = mask & ~(1u << BAD_COUNT | 1u << BAD_CARRIED), of_end = mask & ~(1u << TOO_LONG);
    lambukir_written file = lambukir_encipher_file(key, zeros, length, out, is_short ? random_below(file_needed) : file_needed + random_below(9));
    expect(part.number, first_of(order, REASONS, mask));
    expect(end.number, first_of(order, REASONS, of_end));
    expect(file.number, first_of(order, REASONS, of_file));
    if (part.number != 0)
        same(part.length | part.carried | part.carried_length, 0, "%s: values of a refused part", about);
    if (end.number != 0)
        same(end.length, 0, "%s: length of a refused end", about);
    if (file.number != 0)
        same(file.length, 0, "%s: length of a refused file", about);
    same_zeros(out, part.number && end.number && file.number ? 0 : 300);
    memset(out, 0, 300);
}

static void refusals(void)
{
    const uint8_t *zeros = map_huge(PROT_READ);
    uint8_t *out = map_huge(PROT_READ | PROT_WRITE);
    for (unsigned mask = 0; mask < 1u << REASONS; mask++)
        for (int round = 0; round < 30; round++)
            compare_reasons(mask, zeros, out);
}

/* An output may have any length, also more than 32 bits can count. */
static void huge_outputs(void)
{
    static const uint8_t zeros[BLOCK];
    uint8_t *out = map_huge(PROT_READ | PROT_WRITE);
    for (size_t more = 0; more < 10; more++) {
        size_t length = ((size_t)1 << 32) + more;
        ABOUT("out of %zu bytes", length);
        expect(lambukir_encipher_file(more, any, 3, out, length).number, 0);
        model_encipher_file(more, any, 3, joined, BLOCK);
        same((uint64_t)memcmp(out, joined, BLOCK), 0, "%s: the file", about);
        expect(lambukir_encipher_part(more, 0, 0, any, 9, out, length).carried_length, 1);
        model_encipher_part(more, 0, 0, any, 9, joined, BLOCK);
        same((uint64_t)memcmp(out, joined, BLOCK), 0, "%s: the part", about);
        expect(lambukir_encipher_end(more, 1, 7, out, length).number, 0);
        model_encipher_end(more, 1, 7, joined, BLOCK);
        same((uint64_t)memcmp(out, joined, BLOCK), 0, "%s: the end", about);
        same_zeros(out, BLOCK);
        memcpy(out, zeros, BLOCK);
    }
}

/* Around 16 MiB. */
static void long_files(void)
{
    for (size_t length = LONGEST - 9; length <= LONGEST + 9; length++) {
        size_t needed = enciphered_length(length);
        ABOUT("%zu bytes", length);
        expect(compare_file(some_key(), any, length, needed).number, length <= LONGEST ? 0 : 103);
        if (length % BLOCK == 0)
            expect(compare_file(some_key(), any, length, needed - 1).number, length <= LONGEST ? 108 : 103);
    }
}

static void long_parts(void)
{
    for (uint32_t count = 0; count <= MOST_CARRIED; count++) {
        uint64_t carried = random64() & (((uint64_t)1 << 8 * count) - 1);
        ABOUT("a part of 16 MiB with %" PRIu32 " bytes carried", count);
        lambukir_part_written part = compare_part(some_key(), carried, count, any, LONGEST, LONGEST);
        expect(part.number, 0);
        same(part.length, LONGEST, "%s: length", about);
        same(part.carried_length, count, "%s: carried length", about);
        same(part.carried, number_at(any + LONGEST - count, count), "%s: carried", about);
        expect(compare_part(some_key(), carried, count, any, LONGEST, LONGEST - 1).number, 108);
        ABOUT("a part above 16 MiB with %" PRIu32 " bytes carried", count);
        expect(compare_part(some_key(), carried, count, any, LONGEST + 1 + count, LONGEST + 16).number, 103);
    }
    for (size_t length = LONGEST - 9; length < LONGEST; length += 4) {
        ABOUT("a part of %zu bytes with 7 carried", length);
        expect(compare_part(some_key(), 1, 7, any, length, (7 + length) / BLOCK * BLOCK).number, 0);
    }
}

int main(int argc, char **argv)
{
    static const subject subjects[] = {
        {"enciphering-worked", worked},
        {"enciphering-lengths", lengths},
        {"enciphering-parts", parts},
        {"enciphering-cuts", cuts},
        {"enciphering-longer", longer},
        {"enciphering-carried", carried},
        {"enciphering-outputs", outputs},
        {"enciphering-refusals", refusals},
        {"enciphering-huge-outputs", huge_outputs},
        {"enciphering-long-files", long_files},
        {"enciphering-long-parts", long_parts},
    };
    seed_random();
    make_any();
    return run_subjects(subjects, COUNT(subjects), argc, argv);
}
