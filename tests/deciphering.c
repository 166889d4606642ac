/* Cell files opened: right ones, damaged ones, last blocks made by hand, wrong keys and wrong CRC-32s. Against the model, and against what the rules say of
   each case. */
#define _DEFAULT_SOURCE
#define OPENSSL_SUPPRESS_DEPRECATED
#include <openssl/blowfish.h>
#include <zlib.h>

#include "cells.h"

#define SHORT 200 /* every length up to here */
#define MOST 512  /* of the files that are made by hand */

static uint8_t file[ROOM];   /* an enciphered file */
static uint8_t spoilt[MOST]; /* a changed copy of it */
static size_t file_length;
static uint32_t file_crc;

/* Blocks under a key, as they are and without padding. */
static void run_blocks(uint64_t key, const uint8_t *in, size_t length, uint8_t *out, int direction)
{
    const uint8_t bytes[] = {(uint8_t)(key >> 32), (uint8_t)(key >> 24), (uint8_t)(key >> 16), (uint8_t)(key >> 8), (uint8_t)key};
    BF_KEY schedule;
    BF_set_key(&schedule, sizeof bytes, bytes);
    for (size_t at = 0; at < length; at += BLOCK)
        BF_ecb_encrypt(in + at, out + at, &schedule, direction);
}

/* The file that so many bytes are enciphered to, padding and all. */
static void encipher(uint64_t key, const uint8_t *bytes, size_t length)
{
    static uint8_t padded[ROOM];
    file_length = enciphered_length(length);
    file_crc = (uint32_t)crc32(0, bytes, (uInt)length);
    memcpy(padded, bytes, length);
    memset(padded + length, (int)(file_length - length), file_length - length);
    run_blocks(key, padded, file_length, file, BF_ENCRYPT);
}

/* How many bytes of padding the last block has under a key, told by the padding that each count would have; 0 for none. */
static size_t padding_under(uint64_t key, const uint8_t *enciphered, size_t length)
{
    static const char *const paddings[] = {"\1", "\2\2", "\3\3\3", "\4\4\4\4", "\5\5\5\5\5", "\6\6\6\6\6\6", "\7\7\7\7\7\7\7", "\10\10\10\10\10\10\10\10"};
    uint8_t last[BLOCK];
    run_blocks(key, enciphered + length - BLOCK, BLOCK, last, BF_DECRYPT);
    for (size_t count = 1; count <= BLOCK; count++)
        if (memcmp(last + BLOCK - count, paddings[count - 1], count) == 0)
            return count;
    return 0;
}

/* A key other than the right one under which the last block is padded as if it were right, or is not. */
static uint64_t wrong_key(uint64_t right, int padded)
{
    uint64_t key = right;
    while (key == right || (padding_under(key, file, file_length) != 0) != padded)
        key = random_below(KEYS);
    return key;
}

static void expect_opened(lambukir_cell_file opened, uint32_t key, const uint8_t *bytes, size_t length)
{
    expect(opened.number, 0);
    same(opened.key, key, "%s: key, against what the test expects", about);
    same(opened.length, length, "%s: length, against what the test expects", about);
    same((uint64_t)memcmp(made, bytes, length), 0, "%s: the bytes, against what was enciphered", about);
}

static void expect_number(lambukir_cell_file opened, uint32_t number)
{
    expect(opened.number, number);
}

/* Written down by hand: as in enciphering.c. */
static void worked(void)
{
    static const uint8_t s63[] = {0x73, 0x87, 0x17, 0x27, 0x08, 0x08, 0x76, 0xA0};
    static const uint8_t none[] = {0x63, 0x51, 0xFB, 0xFD, 0xA9, 0xA7, 0x6A, 0x4B};
    static const uint8_t nine[] = {0x54, 0x01, 0x8C, 0xA3, 0x9B, 0xDA, 0x00, 0xD5, 0x5F, 0xC7, 0xDD, 0xF9, 0x38, 0xFF, 0x80, 0x36};
    const uint64_t one = 0xC1CB518E9C, two = 0x421571CC66;
    ABOUT("S-63's enciphered HW_ID");
    expect_opened(compare_opening(s63, 8, 0x3938373635, one, 0xB54446A1, 8), 1, (const uint8_t *)"12348", 5);
    expect_opened(compare_opening(s63, 8, two, 0x3938373635, 0xB54446A1, 8), 2, (const uint8_t *)"12348", 5);
    ABOUT("an empty file");
    expect_opened(compare_opening(none, 8, one, two, 0, 8), 1, none, 0);
    expect_number(compare_opening(none, 8, one, two, 1, 8), 16);
    expect_number(compare_opening(none, 7, one, two, 0, 8), 12);
    expect_number(compare_opening(none, 0, one, two, 0, 8), 12);
    ABOUT("the nine bytes of CRC-32's check");
    expect_opened(compare_opening(nine, 16, one, two, 0xCBF43926, 16), 1, (const uint8_t *)"123456789", 9);
    expect_opened(compare_opening(nine, 16, two, one, 0xCBF43926, 16), 2, (const uint8_t *)"123456789", 9);
    expect_number(compare_opening(nine, 16, one, two, 0xCBF43926, 15), 108);
    expect_number(compare_opening(nine, 16, one, two, 0x2639F4CB, 16), 16);
    expect_number(compare_opening(nine, 16, two, two, 0xCBF43926, 16), 21);
    expect_number(compare_opening(nine, 8, one, one, 0x9AE0DAAF, 8), 21);
    ABOUT("nothing, lent as NULL");
    expect_number(lambukir_open_cell_file(NULL, 0, one, two, 0, NULL, 0), 12);
    expect_number(lambukir_open_cell_file(none, 8, one, two, 0, NULL, 0), 108);
    expect_number(lambukir_open_cell_file(NULL, 0, KEYS, two, 0, NULL, 0), 103);
}

/* Every length, by the first key and by the second, into outputs of each length that matters. */
static void lengths(void)
{
    for (size_t length = 0; length <= SHORT; length++)
        for (int round = 0; round < 4; round++) {
            uint64_t key = some_key();
            const uint8_t *bytes = some_bytes();
            encipher(key, bytes, length);
            ABOUT("%zu bytes by key one", length);
            expect_opened(compare_opening(file, file_length, key, some_key(), file_crc, file_length), 1, bytes, length);
            expect_opened(compare_opening(file, file_length, key, key, file_crc, file_length + random_below(40)), 1, bytes, length);
            ABOUT("%zu bytes by key two", length);
            expect_opened(compare_opening(file, file_length, wrong_key(key, 0), key, file_crc, file_length), 2, bytes, length);
            ABOUT("%zu bytes, out too short", length);
            expect_number(compare_opening(file, file_length, key, key, file_crc, file_length - 1), 108);
            expect_number(compare_opening(file, file_length, key, key, file_crc, length), 108);
            expect_number(compare_opening(file, file_length, key, key, file_crc, random_below(file_length)), 108);
        }
}

/* Every number of blocks up to 2,500, since the library may take many at a time. */
static void longer(void)
{
    for (size_t count = 1; count <= 2500; count++) {
        uint64_t key = some_key();
        const uint8_t *bytes = some_bytes();
        size_t length = count * BLOCK - 1 - random_below(BLOCK);
        encipher(key, bytes, length);
        ABOUT("%zu bytes, %zu blocks", length, count);
        expect_opened(compare_opening(file, file_length, key, some_key(), file_crc, file_length), 1, bytes, length);
        if (count % 16 == 0)
            expect_opened(compare_opening(file, file_length, wrong_key(key, 0), key, file_crc, file_length), 2, bytes, length);
        if (count % 64 == 0)
            expect_opened(compare_opening(file, file_length, wrong_key(key, 1), key, file_crc, file_length), 2, bytes, length);
    }
}

/* What is enciphered whole or by parts is opened again, by the library alone. */
static void round_trips(void)
{
    for (size_t length = 0; length <= 2 * SHORT; length++) {
        uint64_t key = some_key();
        const uint8_t *bytes = some_bytes();
        size_t cut = random_below(length + 1);
        lambukir_part_written one = lambukir_encipher_part(key, 0, 0, bytes, cut, file, cut);
        lambukir_part_written two = lambukir_encipher_part(key, one.carried, one.carried_length, bytes + cut, length - cut, file + one.length, length + BLOCK);
        lambukir_written end = lambukir_encipher_end(key, two.carried, two.carried_length, file + one.length + two.length, BLOCK);
        ABOUT("%zu bytes cut at %zu and opened", length, cut);
        same(one.length + two.length + end.length, enciphered_length(length), "%s: length of the parts", about);
        expect_opened(compare_opening(file, enciphered_length(length), key, key, lambukir_crc32(bytes, length), enciphered_length(length)), 1, bytes, length);
        lambukir_written all = lambukir_encipher_file(key, bytes, length, file, enciphered_length(length));
        expect_opened(compare_opening(file, all.length, key, key, lambukir_crc32(bytes, length), all.length), 1, bytes, length);
    }
}

/* A file with a right key; keys under which its padding is wrong; and keys under which it is right, and the CRC-32 wrong: shams. */
static void some_keys(size_t length)
{
    uint64_t key = some_key();
    const uint8_t *bytes = some_bytes();
    encipher(key, bytes, length);
    uint64_t wrong = wrong_key(key, 0), other = wrong_key(key, 0), sham = wrong_key(key, 1), second = wrong_key(key, 1);
    ABOUT("%zu bytes: the right key and others", length);
    expect_opened(compare_opening(file, file_length, key, wrong, file_crc, file_length), 1, bytes, length);
    expect_opened(compare_opening(file, file_length, key, sham, file_crc, file_length), 1, bytes, length);
    expect_opened(compare_opening(file, file_length, key, key, file_crc, file_length), 1, bytes, length);
    expect_opened(compare_opening(file, file_length, wrong, key, file_crc, file_length), 2, bytes, length);
    expect_opened(compare_opening(file, file_length, sham, key, file_crc, file_length), 2, bytes, length);
    ABOUT("%zu bytes: keys that are wrong", length);
    expect_number(compare_opening(file, file_length, wrong, other, file_crc, file_length), 21);
    expect_number(compare_opening(file, file_length, wrong, wrong, file_crc, file_length), 21);
    expect_number(compare_opening(file, file_length, wrong, sham, file_crc, file_length), 16);
    expect_number(compare_opening(file, file_length, sham, wrong, file_crc, file_length), 16);
    expect_number(compare_opening(file, file_length, sham, sham, file_crc, file_length), 16);
    expect_number(compare_opening(file, file_length, sham, second, file_crc, file_length), 16);
    ABOUT("%zu bytes: the right key and a wrong CRC-32", length);
    expect_number(compare_opening(file, file_length, key, wrong, ~file_crc, file_length), 16);
    expect_number(compare_opening(file, file_length, wrong, key, ~file_crc, file_length), 16);
    expect_number(compare_opening(file, file_length, key, sham, ~file_crc, file_length), 16);
    ABOUT("%zu bytes: the CRC-32 of what a sham gives", length);
    static uint8_t given_bytes[MOST];
    size_t given_length = file_length - padding_under(sham, file, file_length);
    run_blocks(sham, file, file_length, given_bytes, BF_DECRYPT);
    uint32_t crc = (uint32_t)crc32(0, given_bytes, (uInt)given_length);
    expect_opened(compare_opening(file, file_length, key, sham, crc, file_length), 2, given_bytes, given_length);
    expect_opened(compare_opening(file, file_length, sham, key, crc, file_length), 1, given_bytes, given_length);
    expect_number(compare_opening(file, file_length, key, wrong, crc, file_length), 16);
}

static void keys(void)
{
    for (size_t round = 0; round < 60; round++)
        some_keys(round < 24 ? round : random_below(MOST - BLOCK));
}

/* The CRC-32 of what a file has under a key, but for its padding. */
static uint32_t crc_under(uint64_t key, const uint8_t *enciphered, size_t length)
{
    uint8_t bytes[MOST];
    run_blocks(key, enciphered, length, bytes, BF_DECRYPT);
    return (uint32_t)crc32(0, bytes, (uInt)(length - padding_under(key, enciphered, length)));
}

#define CHOICES 48

/* Of so many differences those that sum (by exclusive or) to a number, as the bits of `chosen`. False where none do. */
static int choose(const uint32_t differences[CHOICES], uint32_t number, uint64_t *chosen)
{
    uint32_t basis[32] = {0};
    uint64_t made_of[32] = {0}, used = 0;
    for (int i = 0; i <= CHOICES; i++) {
        uint32_t rest = i < CHOICES ? differences[i] : number;
        uint64_t of = i < CHOICES ? (uint64_t)1 << i : 0;
        for (int bit = 31; bit >= 0 && rest != 0; bit--) {
            if (!(rest >> bit & 1))
                continue;
            if (basis[bit] == 0 && i < CHOICES) {
                basis[bit] = rest;
                made_of[bit] = of;
                rest = 0;
            } else if (basis[bit] == 0)
                return 0;
            else {
                rest ^= basis[bit];
                of ^= made_of[bit];
            }
        }
        used = of;
    }
    *chosen = used;
    return 1;
}

/* A file that both keys open, each to other bytes, with one CRC-32: its last block is padded under both, and of two blocks for each other place those are
   taken with which the two CRC-32s, whose differences add up, become the same. False where no choice does that. */
static int make_common(uint64_t one, uint64_t *two)
{
    uint8_t others[CHOICES * BLOCK];
    uint32_t differences[CHOICES];
    uint64_t chosen;
    encipher(one, some_bytes(), CHOICES * BLOCK + random_below(BLOCK));
    random_bytes(others, sizeof others);
    *two = wrong_key(one, 1);
    uint32_t apart = crc_under(one, file, file_length) ^ crc_under(*two, file, file_length);
    for (size_t i = 0; i < CHOICES; i++) {
        memcpy(spoilt, file, file_length);
        memcpy(spoilt + i * BLOCK, others + i * BLOCK, BLOCK);
        differences[i] = apart ^ crc_under(one, spoilt, file_length) ^ crc_under(*two, spoilt, file_length);
    }
    if (!choose(differences, apart, &chosen))
        return 0;
    for (size_t i = 0; i < CHOICES; i++)
        if (chosen >> i & 1)
            memcpy(file + i * BLOCK, others + i * BLOCK, BLOCK);
    file_crc = crc_under(one, file, file_length);
    return 1;
}

static void both_keys(void)
{
    uint64_t two;
    uint8_t bytes[2][MOST];
    for (int round = 0; round < 20; round++) {
        uint64_t one = some_key();
        while (!make_common(one, &two))
            ;
        size_t length = file_length - padding_under(one, file, file_length), length_two = file_length - padding_under(two, file, file_length);
        run_blocks(one, file, file_length, bytes[0], BF_DECRYPT);
        run_blocks(two, file, file_length, bytes[1], BF_DECRYPT);
        ABOUT("a file that both keys open, %d", round);
        same(crc_under(two, file, file_length), file_crc, "%s: the CRC-32s", about);
        expect_opened(compare_opening(file, file_length, one, two, file_crc, file_length), 1, bytes[0], length);
        expect_opened(compare_opening(file, file_length, two, one, file_crc, file_length), 1, bytes[1], length_two);
    }
}

/* Bytes that are no count of padding. */
static void no_counts(uint8_t *bytes, size_t length)
{
    random_bytes(bytes, length);
    for (size_t i = 0; i < length; i++)
        bytes[i] |= 0x10;
}

/* A last block of these eight bytes, after some others. The CRC-32 is that of all but `without` bytes. */
static lambukir_cell_file open_by_hand(const uint8_t last[BLOCK], size_t blocks, size_t without)
{
    uint8_t bytes[MOST];
    uint64_t key = some_key();
    random_bytes(bytes, blocks * BLOCK);
    memcpy(bytes + blocks * BLOCK, last, BLOCK);
    file_length = (blocks + 1) * BLOCK;
    file_crc = (uint32_t)crc32(0, bytes, (uInt)(file_length - without));
    run_blocks(key, bytes, file_length, file, BF_ENCRYPT);
    return compare_opening(file, file_length, key, key, file_crc, file_length);
}

/* Last blocks that end with each byte: all of its kind; as many as it says; alone. */
static void counts(void)
{
    uint8_t last[BLOCK];
    for (unsigned count = 0; count < 256; count++)
        for (size_t blocks = 0; blocks < 3; blocks++) {
            size_t padding = count <= BLOCK ? count : BLOCK;
            uint32_t number = count >= 1 && count <= BLOCK ? 0 : 21;
            ABOUT("a last block of eight bytes %02X", count);
            memset(last, (int)count, BLOCK);
            expect_number(open_by_hand(last, blocks, padding), number);
            expect_number(open_by_hand(last, blocks, 0), number == 0 ? 16 : 21);
            ABOUT("a last block with %zu bytes %02X", padding, count);
            no_counts(last, BLOCK - (padding > 0 ? padding : 1));
            expect_number(open_by_hand(last, blocks, padding), number);
            ABOUT("a last block that ends with one byte %02X", count);
            for (size_t i = 0; i < BLOCK; i++)
                last[i] = i < BLOCK - 1 ? (uint8_t)(count + 1 + random_below(255)) : (uint8_t)count;
            expect_number(open_by_hand(last, blocks, padding), count == 1 ? 0 : 21);
        }
}

/* Padding of more bytes than a block has: 9 to 32 bytes of their count at the file's end. */
static void long_padding(void)
{
    uint8_t bytes[MOST];
    for (size_t count = 9; count <= 32; count++)
        for (int round = 0; round < 4; round++) {
            uint64_t key = some_key();
            file_length = 48;
            random_bytes(bytes, file_length);
            memset(bytes + file_length - count, (int)count, count);
            run_blocks(key, bytes, file_length, file, BF_ENCRYPT);
            ABOUT("%zu bytes of padding", count);
            expect_number(compare_opening(file, file_length, key, key, (uint32_t)crc32(0, bytes, (uInt)(file_length - count)), file_length), 21);
        }
}

/* Right padding of each count with one of its bytes as every other value; the bytes before it may have every value. */
static void padding(void)
{
    uint8_t last[BLOCK];
    for (size_t count = 1; count <= BLOCK; count++)
        for (size_t at = 0; at < BLOCK; at++)
            for (unsigned value = 0; value < 256; value++) {
                memset(last, (int)count, BLOCK);
                no_counts(last, BLOCK - count);
                last[at] = (uint8_t)value;
                ABOUT("%zu bytes of padding, byte %zu of the block as %02X", count, at, value);
                if (at < BLOCK - count || value == count)
                    expect_number(open_by_hand(last, value % 3, count), 0);
                else if (at == BLOCK - 1 && value == 1) /* one byte 01 is right padding, too */
                    expect_number(open_by_hand(last, value % 3, 1), 0);
                else
                    expect_number(open_by_hand(last, value % 3, count), 21);
            }
}

/* One byte as another value. */
static void change_byte(uint64_t key, size_t at, uint8_t value)
{
    if (file[at] == value)
        return;
    memcpy(spoilt, file, file_length);
    spoilt[at] = value;
    ABOUT("byte %zu of %zu as %02X", at, file_length, value);
    uint32_t number = compare_opening(spoilt, file_length, key, key, file_crc, file_length).number;
    expect(number, padding_under(key, spoilt, file_length) == 0 ? 21 : 16);
    if (at < file_length - BLOCK)
        same(number, 16, "%s: number, before the last block", about);
}

/* Every byte of the last block as every other, and every byte before it as some. */
static void damage(void)
{
    memset(given, 0, sizeof given);
    for (size_t blocks = 1; blocks <= 4; blocks++) {
        uint64_t key = some_key();
        encipher(key, some_bytes(), blocks * BLOCK - 1 - random_below(BLOCK));
        for (size_t at = file_length - BLOCK; at < file_length; at++)
            for (unsigned value = 0; value < 256; value++)
                change_byte(key, at, (uint8_t)value);
    }
    for (int round = 0; round < 8; round++) {
        uint64_t key = some_key();
        encipher(key, some_bytes(), random_below(SHORT));
        for (size_t at = 0; at < file_length; at++)
            for (int bit = 0; bit < 8; bit += 1 + (int)random_below(7))
                change_byte(key, at, file[at] ^ (uint8_t)(1 << bit));
    }
    expect_given(21, 1000);
    expect_given(16, 1000);
}

/* Blocks left out, put twice, exchanged or added at the end. */
static void blocks(void)
{
    for (int round = 0; round < 400; round++) {
        uint64_t key = some_key();
        encipher(key, some_bytes(), 2 * BLOCK + random_below(SHORT));
        size_t count = file_length / BLOCK, at = random_below(count - 1), length = file_length;
        memcpy(spoilt, file, length);
        switch (round % 4) {
        case 0: memmove(spoilt + at * BLOCK, spoilt + (at + 1) * BLOCK, length - (at + 1) * BLOCK); length -= BLOCK; break;
        case 1: memcpy(spoilt + (at + 1) * BLOCK, file + at * BLOCK, length - at * BLOCK); length += BLOCK; break;
        case 2: memcpy(spoilt + at * BLOCK, file + (at + 1) * BLOCK, BLOCK); memcpy(spoilt + (at + 1) * BLOCK, file + at * BLOCK, BLOCK); break;
        default: random_bytes(spoilt + length, BLOCK); length += BLOCK; break;
        }
        ABOUT("a file of %zu blocks, changed in way %d at block %zu", count, round % 4, at);
        expect_number(compare_opening(spoilt, length, key, key, file_crc, length), padding_under(key, spoilt, length) == 0 ? 21 : 16);
    }
}

/* CRC-32s that are wrong: in each bit, of all that was deciphered, of what was lent, with its bytes the other way round. */
static void crcs(void)
{
    for (size_t length = 0; length <= SHORT; length += 1 + random_below(12)) {
        uint8_t bytes[MOST];
        uint64_t key = some_key();
        encipher(key, some_bytes(), length);
        run_blocks(key, file, file_length, bytes, BF_DECRYPT);
        const uint32_t others[] = {0, UINT32_MAX, ~file_crc, file_crc + 1, file_crc - 1, __builtin_bswap32(file_crc), (uint32_t)random64(),
                                   (uint32_t)crc32(0, bytes, (uInt)file_length), (uint32_t)crc32(0, file, (uInt)file_length)};
        ABOUT("%zu bytes with another CRC-32", length);
        for (size_t i = 0; i < COUNT(others); i++)
            expect_number(compare_opening(file, file_length, key, key, others[i], file_length), others[i] == file_crc ? 0 : 16);
        for (int bit = 0; bit < 32; bit++)
            expect_number(compare_opening(file, file_length, key, wrong_key(key, 0), file_crc ^ (uint32_t)1 << bit, file_length), 16);
    }
}

/* Every length of any bytes, under any keys; and single blocks. */
static void shapes(void)
{
    memset(given, 0, sizeof given);
    for (size_t length = 0; length <= 300; length++)
        for (int round = 0; round < 4; round++) {
            ABOUT("%zu bytes of any kind", length);
            lambukir_cell_file opened = compare_opening(some_bytes(), length, some_key(), some_key(), (uint32_t)random64(), length + random_below(10));
            if (length == 0 || length % BLOCK != 0)
                expect(opened.number, 12);
            if (length > 0)
                expect_number(compare_opening(some_bytes(), length, some_key(), some_key(), 0, length - 1), 108);
        }
    for (int round = 0; round < 4000; round++) {
        ABOUT("any block, %d", round);
        compare_opening(some_bytes(), BLOCK, some_key(), some_key(), (uint32_t)random64(), BLOCK);
    }
    expect_given(12, 1000);
    expect_given(21, 1000);
    expect_given(16, 10);
}

/* What is wrong with a call, in the order of the rules. */
enum { BAD_ONE, BAD_TWO, TOO_LONG, SHORT_OUT, BAD_LENGTH, BAD_PADDING, BAD_CRC, REASONS };
static const uint32_t order[REASONS] = {103, 103, 103, 108, 12, 21, 16};

/* One call with the reasons of a mask. Of a file that is too long nothing is looked at but its length, so it is zeros that may only be read. */
static void compare_reasons(unsigned mask, const uint8_t *zeros, uint8_t *out)
{
    uint64_t key = some_key();
    const uint8_t *bytes = some_bytes(), *lent_file = file;
    size_t length = BLOCK + random_below(SHORT);
    encipher(key, bytes, length);
    if (mask >> BAD_PADDING & 1)
        while (padding_under(key, file, file_length) != 0)
            random_bytes(file + file_length - BLOCK, BLOCK);
    uint32_t crc = mask >> BAD_CRC & 1 ? ~file_crc : file_crc;
    size_t lent_length = file_length;
    if (mask >> TOO_LONG & 1) {
        lent_file = zeros;
        lent_length = (some_above(LONGEST + BLOCK) + BLOCK) / BLOCK * BLOCK;
    }
    if (mask >> BAD_LENGTH & 1)
        lent_length -= 1 + random_below(BLOCK - 1);
    size_t out_length = mask >> SHORT_OUT & 1 ? (random_below(2) ? lent_length - 1 : random_below(lent_length)) : lent_length + random_below(9);
    uint64_t one = mask >> BAD_ONE & 1 ? no_key() : key, two = mask >> BAD_TWO & 1 ? no_key() : key;
    ABOUT("reasons %02X (hex), %zu bytes, out of %zu", mask, lent_length, out_length);
    lambukir_cell_file opened = lambukir_open_cell_file(lent_file, lent_length, one, two, crc, out, out_length);
    lambukir_cell_file again = {.number = opened.number};
    expect(opened.number, first_of(order, REASONS, mask));
    if (!(mask >> TOO_LONG & 1))
        again = compare_opening(lent_file, lent_length, one, two, crc, out_length);
    same(again.number, opened.number, "%s: number, a second time", about);
    if (opened.number != 0)
        same(opened.length | opened.key, 0, "%s: values of a refusal", about);
    else
        same((uint64_t)memcmp(out, bytes, length), 0, "%s: the bytes", about);
    same_zeros(out, opened.number != 0 ? 0 : length);
    memset(out, 0, 300);
}

static void refusals(void)
{
    const uint8_t *zeros = map_huge(PROT_READ);
    uint8_t *out = map_huge(PROT_READ | PROT_WRITE);
    for (unsigned mask = 0; mask < 1u << REASONS; mask++)
        for (int round = 0; round < 20; round++)
            compare_reasons(mask, zeros, out);
}

/* An output may have any length, also more than 32 bits can count. */
static void huge_outputs(void)
{
    uint8_t *out = map_huge(PROT_READ | PROT_WRITE);
    for (size_t more = 0; more < 20; more++) {
        encipher(more, any, more);
        ABOUT("%zu bytes, and out that 32 bits cannot count", more);
        lambukir_cell_file opened = lambukir_open_cell_file(file, file_length, more, more, file_crc, out, ((size_t)1 << 32) + more / 2);
        expect(opened.number, 0);
        same(opened.length, more, "%s: length", about);
        same((uint64_t)memcmp(out, any, more), 0, "%s: the bytes", about);
        same_zeros(out, more);
        memset(out, 0, more);
    }
}

/* Around 16 MiB and 8. */
static void long_files(void)
{
    uint64_t key = some_key();
    encipher(key, any, LONGEST - 1);
    ABOUT("16 MiB less one byte, opened");
    expect_opened(compare_opening(file, file_length, key, key, file_crc, file_length), 1, any, LONGEST - 1);
    encipher(key, any, LONGEST);
    uint64_t wrong = wrong_key(key, 0), sham = wrong_key(key, 1);
    ABOUT("16 MiB, opened by key two");
    expect_opened(compare_opening(file, file_length, sham, key, file_crc, file_length + 1), 2, any, LONGEST);
    ABOUT("16 MiB, refused");
    expect_number(compare_opening(file, file_length, wrong, key, file_crc ^ 1, file_length), 16);
    for (size_t length = LONGEST + BLOCK - 9; length <= LONGEST + BLOCK + 9; length++) {
        ABOUT("an enciphered file of %zu bytes", length);
        if (length > LONGEST + BLOCK)
            expect_number(compare_opening(file, length, key, key, file_crc, length), 103);
        else if (length % BLOCK != 0)
            expect_number(compare_opening(file, length, key, key, file_crc, length), 12);
        else
            expect_number(compare_opening(file, length, key, key, file_crc, length - 1), 108);
    }
}

int main(int argc, char **argv)
{
    static const subject subjects[] = {
        {"deciphering-worked", worked},
        {"deciphering-lengths", lengths},
        {"deciphering-longer", longer},
        {"deciphering-round-trips", round_trips},
        {"deciphering-keys", keys},
        {"deciphering-both-keys", both_keys},
        {"deciphering-counts", counts},
        {"deciphering-padding", padding},
        {"deciphering-long-padding", long_padding},
        {"deciphering-damage", damage},
        {"deciphering-blocks", blocks},
        {"deciphering-crcs", crcs},
        {"deciphering-shapes", shapes},
        {"deciphering-refusals", refusals},
        {"deciphering-huge-outputs", huge_outputs},
        {"deciphering-long-files", long_files},
    };
    seed_random();
    make_any();
    return run_subjects(subjects, COUNT(subjects), argc, argv);
}
