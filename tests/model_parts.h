/* What the model's files share: characters, numbers, dates and the cipher. */
#ifndef MODEL_PARTS_H
#define MODEL_PARTS_H

#define OPENSSL_SUPPRESS_DEPRECATED
#include <openssl/blowfish.h>
#include <stdbool.h>
#include <string.h>
#include <zlib.h>

#include "model.h"

#define HW_ID_LENGTH 5
#define LONGEST_LINE 160 /* without CR LF */
#define WRITTEN_LINE 76 /* the room that a written line asks for */

/* One more than the value of a character; 0 for what is no hex character. */
static const uint8_t hex_values[256] = {
    ['0'] = 1,  ['1'] = 2,  ['2'] = 3,  ['3'] = 4,  ['4'] = 5,  ['5'] = 6,  ['6'] = 7,  ['7'] = 8,  ['8'] = 9,  ['9'] = 10, ['A'] = 11,
    ['B'] = 12, ['C'] = 13, ['D'] = 14, ['E'] = 15, ['F'] = 16, ['a'] = 11, ['b'] = 12, ['c'] = 13, ['d'] = 14, ['e'] = 15, ['f'] = 16,
};

static inline bool is_digit(uint8_t c)
{
    return c >= '0' && c <= '9';
}

/* A-Z 0-9. */
static inline bool is_name_character(uint8_t c)
{
    return is_digit(c) || (c >= 'A' && c <= 'Z');
}

static inline bool is_name(const uint8_t *s, size_t length)
{
    for (size_t i = 0; i < length; i++)
        if (!is_name_character(s[i]))
            return false;
    return true;
}

/* A copy with a to f raised to A to F. */
static inline void raise_letters(uint8_t *out, const uint8_t *s, size_t length)
{
    for (size_t i = 0; i < length; i++)
        out[i] = s[i] >= 'a' && s[i] <= 'f' ? (uint8_t)(s[i] - 32) : s[i];
}

/* 0-9 A-F alone. */
static inline bool is_upper_hex(const uint8_t *s, size_t length)
{
    for (size_t i = 0; i < length; i++)
        if (!is_digit(s[i]) && (s[i] < 'A' || s[i] > 'F'))
            return false;
    return true;
}

/* The number of a hex text in either case; false where a character is none. */
static inline bool read_hex(const uint8_t *s, size_t length, uint64_t *value)
{
    uint64_t v = 0;
    for (size_t i = 0; i < length; i++) {
        uint8_t one = hex_values[s[i]];
        if (one == 0)
            return false;
        v = v << 4 | (one - 1u);
    }
    *value = v;
    return true;
}

static inline void write_hex(uint8_t *out, size_t length, uint64_t value)
{
    for (size_t i = length; i-- > 0; value >>= 4)
        out[i] = (uint8_t)"0123456789ABCDEF"[value & 15];
}

/* The number of a decimal text; false where a character is no digit. */
static inline bool read_decimal(const uint8_t *s, size_t length, uint32_t *value)
{
    uint32_t v = 0;
    for (size_t i = 0; i < length; i++) {
        if (!is_digit(s[i]))
            return false;
        v = v * 10 + (s[i] - '0');
    }
    *value = v;
    return true;
}

static inline void write_decimal(uint8_t *out, size_t length, uint32_t value)
{
    for (size_t i = length; i-- > 0; value /= 10)
        out[i] = (uint8_t)('0' + value % 10);
}

/* Big-endian. */
static inline uint64_t number_of(const uint8_t *s, size_t length)
{
    uint64_t v = 0;
    for (size_t i = 0; i < length; i++)
        v = v << 8 | s[i];
    return v;
}

static inline void bytes_of(uint8_t *out, size_t length, uint64_t value)
{
    for (size_t i = length; i-- > 0; value >>= 8)
        out[i] = (uint8_t)value;
}

/* The number's identifier has so many characters of A-Z 0-9. */
static inline bool is_name_number(uint64_t value, size_t length)
{
    uint8_t text[8];
    bytes_of(text, length, value);
    return number_of(text, length) == value && is_name(text, length);
}

/* Of a month from 1 to 12. */
static inline uint32_t month_length(uint32_t year, uint32_t month)
{
    static const uint8_t lengths[] = {31, 28, 31, 30, 31, 30, 31, 31, 30, 31, 30, 31};
    bool leap = year % 4 == 0 && (year % 100 != 0 || year % 400 == 0);
    return lengths[month - 1] + (month == 2 && leap);
}

static inline bool is_date(uint32_t date)
{
    uint32_t year = date / 10000, month = date / 100 % 100, day = date % 100;
    return year >= 1900 && year <= 2999 && month >= 1 && month <= 12 && day >= 1 && day <= month_length(year, month);
}

/* Five bytes and three 03, four bytes and four 04. */
static inline uint64_t pad_five(uint64_t value)
{
    return value << 24 | 0x030303;
}

static inline uint64_t pad_four(uint64_t value)
{
    return value << 32 | 0x04040404;
}

static inline bool is_padded_five(uint64_t block)
{
    return (block & 0xFFFFFF) == 0x030303;
}

static inline uint64_t encipher(const BF_KEY *key, uint64_t block)
{
    BF_LONG halves[2] = {(BF_LONG)(block >> 32), (BF_LONG)block};
    BF_encrypt(halves, key);
    return (uint64_t)halves[0] << 32 | halves[1];
}

static inline uint64_t decipher(const BF_KEY *key, uint64_t block)
{
    BF_LONG halves[2] = {(BF_LONG)(block >> 32), (BF_LONG)block};
    BF_decrypt(halves, key);
    return (uint64_t)halves[0] << 32 | halves[1];
}

/* A given HW_ID: five of 0-9 A-F in either case. */
static inline bool is_hw_id(uint64_t hw_id)
{
    uint8_t text[HW_ID_LENGTH];
    uint64_t value;
    bytes_of(text, HW_ID_LENGTH, hw_id);
    return hw_id >> 40 == 0 && read_hex(text, HW_ID_LENGTH, &value);
}

/* Of a HW_ID that has the form. */
static inline uint64_t raised_hw_id(uint64_t hw_id)
{
    uint8_t text[HW_ID_LENGTH], raised[HW_ID_LENGTH];
    bytes_of(text, HW_ID_LENGTH, hw_id);
    raise_letters(raised, text, HW_ID_LENGTH);
    return number_of(raised, HW_ID_LENGTH);
}

/* Sets up HW_ID6: the raised HW_ID followed by its own first byte. */
static inline void set_hw_id6(BF_KEY *key, uint64_t hw_id)
{
    uint8_t text[HW_ID_LENGTH + 1];
    bytes_of(text, HW_ID_LENGTH, raised_hw_id(hw_id));
    text[HW_ID_LENGTH] = text[0];
    BF_set_key(key, sizeof text, text);
}

/* The refusals that come before a line is looked at: 18, 14, 103; or 0. */
static inline uint32_t refuse_given(uint64_t hw_id, uint32_t today, uint32_t days)
{
    if (!is_hw_id(hw_id))
        return 18;
    if (!is_date(today))
        return 14;
    return days < 1 || days > 90 ? 103 : 0;
}

/* The place of the first CR LF from a place on, or the file's length. */
static inline size_t line_end(const uint8_t *file, size_t length, size_t place)
{
    while (place + 1 < length) {
        const uint8_t *cr = memchr(file + place, '\r', length - 1 - place);
        if (!cr)
            break;
        place = (size_t)(cr - file);
        if (file[place + 1] == '\n')
            return place;
        place++;
    }
    return length;
}

bool is_register(const uint8_t *reg, size_t length);
lambukir_user_permit read_by_register(const uint8_t *reg, size_t reg_length, const uint8_t *permit, size_t permit_length); /* of a good register */

/* A line taken apart, its blocks still enciphered. */
typedef struct {
    uint64_t name, block_one, block_two, check;
    uint32_t expiry, level, edition, server;
    size_t comment; /* where it begins */
} line_fields;

bool take_apart(const uint8_t *line, size_t length, line_fields *fields); /* false: the line gives 12 */
lambukir_line judge(const BF_KEY *hw_id6, uint32_t today, uint32_t days, const uint8_t *line, const line_fields *fields);

#endif
