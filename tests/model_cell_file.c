/* The model's cell files: what is enciphered or opened is put together in a buffer of its own first, and a block is enciphered after the other. */
#include <stdio.h>
#include <stdlib.h>

#include "model_parts.h"

#define BLOCK 8
#define LONGEST_FILE ((size_t)16 * 1024 * 1024)
#define MOST_CARRIED 7
#define KEY_LENGTH 5

static uint8_t *room_for(size_t length)
{
    uint8_t *room = malloc(length + 1);
    if (!room) {
        puts("out of memory");
        exit(1);
    }
    return room;
}

/* A number that five bytes hold. */
static bool is_cell_key(uint64_t key)
{
    return key < (uint64_t)1 << 40;
}

/* So many bytes, whole blocks of them, enciphered or deciphered. */
static void run_blocks(uint64_t cell_key, const uint8_t *in, size_t length, uint8_t *out, int direction)
{
    uint8_t key[KEY_LENGTH];
    BF_KEY schedule;
    bytes_of(key, KEY_LENGTH, cell_key);
    BF_set_key(&schedule, KEY_LENGTH, key);
    for (size_t at = 0; at < length; at += BLOCK)
        BF_ecb_encrypt(in + at, out + at, &schedule, direction);
}

lambukir_written model_encipher_file(uint64_t key, const uint8_t *file, size_t file_length, uint8_t *out, size_t out_length)
{
    if (!is_cell_key(key) || file_length > LONGEST_FILE)
        return (lambukir_written){.number = 103};
    size_t padding = BLOCK - file_length % BLOCK, length = file_length + padding;
    if (out_length < length)
        return (lambukir_written){.number = 108};
    uint8_t *padded = room_for(length);
    for (size_t i = 0; i < length; i++)
        padded[i] = i < file_length ? file[i] : (uint8_t)padding;
    run_blocks(key, padded, length, out, BF_ENCRYPT);
    free(padded);
    return (lambukir_written){.length = length};
}

/* Whether a number is one of so many bytes, and these may be carried. */
static bool is_carried(uint64_t carried, uint32_t carried_length)
{
    return carried_length <= MOST_CARRIED && carried < (uint64_t)1 << 8 * carried_length;
}

lambukir_part_written model_encipher_part(uint64_t key, uint64_t carried, uint32_t carried_length, const uint8_t *part, size_t part_length, uint8_t *out,
                                          size_t out_length)
{
    if (!is_cell_key(key) || part_length > LONGEST_FILE || !is_carried(carried, carried_length))
        return (lambukir_part_written){.number = 103};
    size_t together = carried_length + part_length, left = together % BLOCK, length = together - left;
    if (out_length < length)
        return (lambukir_part_written){.number = 108};
    uint8_t *bytes = room_for(together);
    bytes_of(bytes, carried_length, carried);
    for (size_t i = 0; i < part_length; i++)
        bytes[carried_length + i] = part[i];
    run_blocks(key, bytes, length, out, BF_ENCRYPT);
    uint64_t rest = number_of(bytes + length, left);
    free(bytes);
    return (lambukir_part_written){length, rest, (uint32_t)left, 0};
}

lambukir_written model_encipher_end(uint64_t key, uint64_t carried, uint32_t carried_length, uint8_t *out, size_t out_length)
{
    uint8_t block[BLOCK];
    if (!is_cell_key(key) || !is_carried(carried, carried_length))
        return (lambukir_written){.number = 103};
    if (out_length < BLOCK)
        return (lambukir_written){.number = 108};
    memset(block, (int)(BLOCK - carried_length), BLOCK);
    bytes_of(block, carried_length, carried);
    run_blocks(key, block, BLOCK, out, BF_ENCRYPT);
    return (lambukir_written){.length = BLOCK};
}

/* How many bytes of padding these end with: n bytes n, n from 1 to 8; 0 where they do not. */
static size_t padding_of(const uint8_t *bytes, size_t length)
{
    size_t count = bytes[length - 1];
    if (count < 1 || count > BLOCK)
        return 0;
    for (size_t i = length - count; i < length; i++)
        if (bytes[i] != count)
            return 0;
    return count;
}

lambukir_cell_file model_open_cell_file(const uint8_t *file, size_t file_length, uint64_t key_one, uint64_t key_two, uint32_t crc, uint8_t *out,
                                        size_t out_length)
{
    const uint64_t keys[] = {key_one, key_two};
    lambukir_cell_file answer = {.number = 21};
    if (!is_cell_key(key_one) || !is_cell_key(key_two) || file_length > LONGEST_FILE + BLOCK)
        return (lambukir_cell_file){.number = 103};
    if (out_length < file_length)
        return (lambukir_cell_file){.number = 108};
    if (file_length == 0 || file_length % BLOCK != 0)
        return (lambukir_cell_file){.number = 12};
    uint8_t *bytes = room_for(file_length);
    for (uint32_t tried = 0; tried < 2 && answer.number != 0; tried++) {
        run_blocks(keys[tried], file, file_length, bytes, BF_DECRYPT);
        size_t padding = padding_of(bytes, file_length), length = file_length - padding;
        if (padding == 0)
            continue;
        answer.number = 16;
        if (crc32(0, bytes, (uInt)length) != crc)
            continue;
        memcpy(out, bytes, length);
        answer = (lambukir_cell_file){length, tried + 1, 0};
    }
    free(bytes);
    return answer;
}
