/* Cell files of 16 MiB and of 64 KiB, ours and those of others; each call sets up its key.

   To encipher: beside Botan, which takes many blocks in one call, and beside a loop over OpenSSL's blocks; the last block is padded by hand there. To open,
   with key one right: beside a loop over OpenSSL's blocks into a second buffer, and zlib's CRC-32 of that. Ours writes nothing before all is judged. */
#ifndef CHARTS_H
#define CHARTS_H

#include <botan/ffi.h>
#include <openssl/blowfish.h>
#include <stdbool.h>
#include <string.h>
#include <zlib.h>

#include "lambukir.h"
#include "measure.h"

#define CHART LAMBUKIR_CELL_FILE_SIZE
#define SMALL_CHART 65536
#define CHART_CRC 1048576 /* so many bytes for a CRC-32 */
#define CHART_ROUNDS 12
#define CHART_KEY 0xC1CB518E9C
#define OTHER_KEY 0x421571CC66

static const uint8_t chart_key[] = {0xC1, 0xCB, 0x51, 0x8E, 0x9C};
static uint8_t chart[CHART], enciphered[CHART + 8], small_enciphered[SMALL_CHART + 8], deciphered[CHART + 8];
static uint32_t chart_crc, small_chart_crc;
static botan_block_cipher_t botan;

/* The last block: what is left of the file, and its padding. */
static void pad_last(const uint8_t *file, size_t length, uint8_t last[8])
{
    memset(last, (int)(8 - length % 8), 8);
    memcpy(last, file + length / 8 * 8, length % 8);
}

static lambukir_written botan_encipher_file(uint64_t key, const uint8_t *file, size_t length, uint8_t *out, size_t out_length)
{
    uint8_t last[8];
    size_t whole = length / 8;
    if (key >> 40 != 0 || out_length < whole * 8 + 8 || botan_block_cipher_set_key(botan, chart_key, sizeof chart_key) != 0)
        return (lambukir_written){0, 103};
    pad_last(file, length, last);
    botan_block_cipher_encrypt_blocks(botan, file, out, whole);
    botan_block_cipher_encrypt_blocks(botan, last, out + whole * 8, 1);
    return (lambukir_written){whole * 8 + 8, 0};
}

static lambukir_written openssl_encipher_file(uint64_t key, const uint8_t *file, size_t length, uint8_t *out, size_t out_length)
{
    uint8_t last[8];
    size_t whole = length / 8;
    BF_KEY words;
    if (key >> 40 != 0 || out_length < whole * 8 + 8)
        return (lambukir_written){0, 103};
    BF_set_key(&words, sizeof chart_key, chart_key);
    pad_last(file, length, last);
    for (size_t i = 0; i < whole; i++)
        BF_ecb_encrypt(file + i * 8, out + i * 8, &words, BF_ENCRYPT);
    BF_ecb_encrypt(last, out + whole * 8, &words, BF_ENCRYPT);
    return (lambukir_written){whole * 8 + 8, 0};
}

static lambukir_cell_file openssl_open_cell_file(const uint8_t *file, size_t length, uint64_t key_one, uint64_t key_two, uint32_t crc, uint8_t *out,
                                                 size_t out_length)
{
    BF_KEY words;
    if ((key_one | key_two) >> 40 != 0 || out_length < length)
        return (lambukir_cell_file){0, 0, 103};
    BF_set_key(&words, sizeof chart_key, chart_key);
    for (size_t at = 0; at < length; at += 8)
        BF_ecb_encrypt(file + at, out + at, &words, BF_DECRYPT);
    size_t left = length - out[length - 1];
    return (lambukir_cell_file){left, 1, crc32(0, out, (uInt)left) == crc ? 0 : 16};
}

/* Whether one of the others enciphers a file to what is there. */
static bool encipher_alike(lambukir_written (*call)(uint64_t, const uint8_t *, size_t, uint8_t *, size_t), size_t length, const uint8_t *expected)
{
    return call(CHART_KEY, chart, length, deciphered, length + 8).number == 0 && memcmp(deciphered, expected, length + 8) == 0;
}

/* The files. False where one of the others gives something else, or what is opened is not what was enciphered. */
static bool make_charts(void)
{
    for (size_t i = 0; i < CHART; i++)
        chart[i] = (uint8_t)(i * i >> 7 ^ i * 31);
    if (botan_block_cipher_init(&botan, "Blowfish") != 0)
        return false;
    chart_crc = (uint32_t)crc32(0, chart, CHART);
    small_chart_crc = (uint32_t)crc32(0, chart, SMALL_CHART);
    if (lambukir_encipher_file(CHART_KEY, chart, CHART, enciphered, sizeof enciphered).length != sizeof enciphered ||
        lambukir_encipher_file(CHART_KEY, chart, SMALL_CHART, small_enciphered, sizeof small_enciphered).length != sizeof small_enciphered ||
        lambukir_crc32(chart, CHART) != chart_crc)
        return false;
    if (!encipher_alike(botan_encipher_file, CHART, enciphered) || !encipher_alike(openssl_encipher_file, CHART, enciphered) ||
        !encipher_alike(botan_encipher_file, SMALL_CHART, small_enciphered) || !encipher_alike(openssl_encipher_file, SMALL_CHART, small_enciphered))
        return false;
    memset(deciphered, 0, sizeof deciphered);
    return lambukir_open_cell_file(enciphered, sizeof enciphered, CHART_KEY, OTHER_KEY, chart_crc, deciphered, sizeof deciphered).key == 1 &&
           memcmp(deciphered, chart, CHART) == 0 &&
           openssl_open_cell_file(small_enciphered, sizeof small_enciphered, CHART_KEY, OTHER_KEY, small_chart_crc, deciphered, sizeof deciphered).number == 0;
}

BOTH(botan, chart, encipher_file(CHART_KEY, chart, CHART, deciphered, sizeof deciphered).length)
BOTH(openssl, chart_blocks, encipher_file(CHART_KEY, chart, CHART, deciphered, sizeof deciphered).length)
BOTH(botan, small_chart, encipher_file(CHART_KEY, chart, SMALL_CHART, deciphered, sizeof deciphered).length)
BOTH(openssl, small_blocks, encipher_file(CHART_KEY, chart, SMALL_CHART, deciphered, sizeof deciphered).length)
BOTH(openssl, opened, open_cell_file(enciphered, sizeof enciphered, CHART_KEY, OTHER_KEY, chart_crc, deciphered, sizeof deciphered).length)
BOTH(openssl, small_opened,
     open_cell_file(small_enciphered, sizeof small_enciphered, CHART_KEY, OTHER_KEY, small_chart_crc, deciphered, sizeof deciphered).length)

static void our_long_crc32(int calls)
{
    for (int i = 0; i < calls; i++)
        sum += lambukir_crc32(chart + i % 16, CHART_CRC);
}

static void their_long_crc32(int calls)
{
    for (int i = 0; i < calls; i++)
        sum += crc32(0, chart + i % 16, CHART_CRC);
}

#endif
