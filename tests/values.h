/* Random values that the rules allow, and others that they do not: identifiers, dates, registers, lines. */
#ifndef VALUES_H
#define VALUES_H

#include <ctype.h>
#include <stdint.h>
#include <stdio.h>
#include <string.h>

#include "model.h"
#include "random.h"

#define HEX "0123456789ABCDEF"
#define NAMES "0123456789ABCDEFGHIJKLMNOPQRSTUVWXYZ"
#define NO_NAMES "/:@[`az ,\r\n\x7F\xFF" /* bytes beside the alphabet; the NUL at the end is one too */
#define NO_HEX "/:@G`gZz ,\r\n\x7F\xFF" /* beside hex in either case */
#define NO_UPPER_HEX NO_HEX "af"
#define ENTRY_BYTES 7
#define CELL_PERMIT 64
#define CIPHER_PARTS 16 /* where its three cipher parts begin */
#define LONGEST_LINE 160
#define LONGEST_COMMENT 86
#define COUNT(array) (sizeof(array) / sizeof *(array))
#define PICK(array) ((array)[random_below(COUNT(array))])

/* The number of a text. */
static inline uint64_t number_from(const char *text)
{
    uint64_t value = 0;
    for (; *text; text++)
        value = value << 8 | (uint8_t)*text;
    return value;
}

static inline uint64_t some_text(const char *alphabet, size_t length)
{
    uint64_t value = 0;
    for (size_t i = 0; i < length; i++)
        value = value << 8 | (uint8_t)alphabet[random_below(strlen(alphabet))];
    return value;
}

/* Another hex character, and not the same letter in the other case. */
static inline void change_hex(uint8_t *c)
{
    uint8_t was = (uint8_t)toupper(*c);
    while (toupper(*c) == was)
        *c = (uint8_t)HEX[random_below(16)];
}

/* A hex letter in the other case; any other byte as it is. */
static inline uint8_t other_case(uint8_t c)
{
    return (c >= 'A' && c <= 'F') || (c >= 'a' && c <= 'f') ? c ^ 0x20 : c;
}

/* The bytes next to the letters of hex, in both cases. */
static const uint8_t beside_letters[] = {0x40, 0x47, 0x60, 0x67};

/* The hex letters of a text as a crew may type them: as they are, each in the other case, or mixed. */
static inline void type_hex(uint8_t *text, size_t length)
{
    uint64_t kind = random_below(3);
    for (size_t i = 0; i < length; i++)
        if (kind == 1 || (kind == 2 && random_below(2)))
            text[i] = other_case(text[i]);
}

static inline uint64_t some_hw_id(void)
{
    return some_text(HEX, 5);
}

/* The same HW_ID, its letters as they may be typed. */
static inline uint64_t typed_hw_id(uint64_t hw_id)
{
    uint8_t text[5];
    uint64_t typed = 0;
    for (int i = 0; i < 5; i++)
        text[i] = (uint8_t)(hw_id >> 8 * (4 - i));
    type_hex(text, 5);
    for (int i = 0; i < 5; i++)
        typed = typed << 8 | text[i];
    return typed;
}

/* An M_ID or a Data Server ID. */
static inline uint32_t some_two(void)
{
    return (uint32_t)some_text(NAMES, 2);
}

static inline uint64_t some_name(void)
{
    return some_text(NAMES, 8);
}

/* Any five bytes; none and all bits set now and then. */
static inline uint64_t some_key(void)
{
    uint64_t kind = random_below(20);
    return kind == 0 ? 0 : kind == 1 ? 0xFFFFFFFFFF : random64() >> 24;
}

/* An identifier spoilt: a byte from beside its alphabet, a bit above its bytes (where there is room), or its first byte missing. */
static inline uint64_t spoilt(uint64_t good, size_t length, const char *beside, size_t size)
{
    size_t room = size - 8 * length, kind = random_below(room > 0 ? 5 : 4);
    if (kind == 4)
        return good | (uint64_t)1 << (8 * length + random_below(room));
    if (kind == 3)
        return good & (((uint64_t)1 << 8 * (length - 1)) - 1);
    size_t shift = 8 * random_below(length);
    return (good & ~((uint64_t)0xFF << shift)) | (uint64_t)(uint8_t)beside[random_below(strlen(beside) + 1)] << shift;
}

static inline uint64_t no_hw_id(void)
{
    return spoilt(typed_hw_id(some_hw_id()), 5, NO_HEX, 64);
}

static inline uint64_t no_name(void)
{
    return spoilt(some_name(), 8, NO_NAMES, 64);
}

static inline uint32_t no_two(void)
{
    return (uint32_t)spoilt(some_two(), 2, NO_NAMES, 32);
}

static inline uint64_t no_key(void)
{
    return some_key() | (uint64_t)1 << (40 + random_below(24));
}

static const uint32_t limit_dates[] = {19000101, 19000228, 19000301, 19991231, 20000229, 20240131,
                                       20240228, 20240229, 20240301, 21000228, 24000229, 29991231};
static const uint32_t no_dates[] = {0,        1,        101,      18991231, 19000000, 19000001, 19000100, 19000229, 19000231,
                                    20230229, 20240230, 20240431, 20240631, 20240132, 20240199, 20241301, 20249901, 20240001,
                                    20240100, 21000229, 30000101, 30000000, 29991232, 99999999};
static const uint32_t longer_no_dates[] = {120240131, 420240131, 1020240131, 2024013100, 4294967295};
static const uint32_t no_days[] = {0, 91, 92, 99, 100, 255, 256, 257, 286, 65536, 65566, 2147483648, 2147483678, 4294967295};

static inline uint32_t some_date(void)
{
    if (random_below(4) == 0)
        return PICK(limit_dates);
    return (1900 + (uint32_t)random_below(1100)) * 10000 + (1 + (uint32_t)random_below(12)) * 100 + 1 + (uint32_t)random_below(28);
}

/* Of any size, or of eight digits at most as an expiry is written. */
static inline uint32_t no_date(int of_any_size)
{
    return of_any_size && random_below(3) == 0 ? PICK(longer_no_dates) : PICK(no_dates);
}

/* Of a cell: neither none nor a date. */
static inline uint32_t no_last_expiry(void)
{
    uint32_t number = no_date(1);
    while (number == 0)
        number = no_date(1);
    return number;
}

/* A date that is no later than another, and often that one. */
static inline uint32_t date_until(uint32_t last)
{
    uint32_t date = random_below(2) ? last : some_date();
    while (date > last)
        date = some_date();
    return date;
}

static inline uint32_t some_days(void)
{
    return 1 + (uint32_t)random_below(90);
}

/* The next day, or the first day of 1900 after the last. */
static inline uint32_t day_after(uint32_t date)
{
    static const uint32_t lengths[] = {31, 28, 31, 30, 31, 30, 31, 31, 30, 31, 30, 31};
    uint32_t year = date / 10000, month = date / 100 % 100, day = date % 100;
    uint32_t leap = month == 2 && year % 4 == 0 && (year % 100 != 0 || year % 400 == 0);
    if (day < lengths[month - 1] + leap)
        return date + 1;
    if (month < 12)
        return year * 10000 + (month + 1) * 100 + 1;
    return year < 2999 ? (year + 1) * 10000 + 101 : 19000101;
}

static inline uint32_t days_after(uint32_t date, uint64_t days)
{
    for (; days > 0; days--)
        date = day_after(date);
    return date;
}

/* A date that is later than another, which is not the last one; often the next day. */
static inline uint32_t date_beyond(uint32_t last)
{
    uint32_t date = random_below(2) ? day_after(last) : some_date();
    while (date <= last)
        date = some_date();
    return date;
}

/* A register of so many entries, 1,296 at most, its M_IDs in order. The answer is its length. */
static inline size_t some_register(uint8_t *reg, size_t entries)
{
    size_t length = 0, left = sizeof NAMES - 1;
    left *= left;
    for (const char *first = NAMES; *first; first++)
        for (const char *second = NAMES; *second; second++, left--) {
            if (random_below(left) >= entries - length / ENTRY_BYTES)
                continue;
            reg[length++] = (uint8_t)*first;
            reg[length++] = (uint8_t)*second;
            for (int i = 0; i < 5; i++)
                reg[length++] = (uint8_t)HEX[random_below(16)];
        }
    return length;
}

static inline uint32_t m_id_at(const uint8_t *reg, size_t entry)
{
    return (uint32_t)reg[entry * ENTRY_BYTES] << 8 | reg[entry * ENTRY_BYTES + 1];
}

/* What a line tells. */
typedef struct {
    uint64_t name, key_one, key_two;
    uint32_t expiry, level, edition, server; /* edition 0 is blank */
    char comment[LONGEST_COMMENT + 1];
} record;

static inline record some_record(uint32_t expiry)
{
    record r = {some_name(), some_key(), some_key(), expiry, (uint32_t)random_below(2), 0, some_two(), ""};
    static const uint32_t below[] = {1, 10, 100, 1000};
    r.edition = (uint32_t)random_below(PICK(below));
    size_t length = random_below(2) * random_below(LONGEST_COMMENT + 1);
    for (size_t i = 0; i < length; i++)
        r.comment[i] = (char)(random_below(8) == 0 ? ',' : 0x20 + random_below(0x7F - 0x20));
    return r;
}

/* What follows the permit in the line of a record, without CR LF. The answer is the line's length. */
static inline size_t put_fields(const record *r, uint8_t *line)
{
    char edition[12] = "", rest[120];
    if (r->edition != 0)
        snprintf(edition, sizeof edition, "%" PRIu32, r->edition);
    int length = snprintf(rest, sizeof rest, ",%" PRIu32 ",%s,%c%c,%s", r->level, edition, (char)(r->server >> 8), (char)r->server, r->comment);
    memcpy(line + CELL_PERMIT, rest, (size_t)length);
    return CELL_PERMIT + (size_t)length;
}

/* The line of a record over any two blocks, without CR LF. The answer is its length. */
static inline size_t line_over(const record *r, uint64_t hw_id, uint64_t block_one, uint64_t block_two, uint8_t *line)
{
    model_cell_permit_of(hw_id, r->name, r->expiry, block_one, block_two, line);
    return put_fields(r, line);
}

static inline size_t line_of(const record *r, uint64_t hw_id, uint8_t *line)
{
    return line_over(r, hw_id, r->key_one << 24 | 0x030303, r->key_two << 24 | 0x030303, line);
}

/* Breaks the shape of a good line, which has room for LONGEST_LINE + 40 bytes. The answer is its length. */
static inline size_t spoil_shape(uint8_t *line, size_t length)
{
    char digits[12];
    switch (random_below(9)) {
    case 0: return random_below(71);
    case 1: memset(line + length, 'x', LONGEST_LINE + 40 - length); return LONGEST_LINE + 1 + random_below(40);
    case 2: line[random_below(8)] = (uint8_t)NO_NAMES[random_below(sizeof NO_NAMES)]; return length;
    case 3: snprintf(digits, sizeof digits, "%08" PRIu32, no_date(0)); memcpy(line + 8, digits, 8); return length;
    case 4: line[CIPHER_PARTS + random_below(48)] = (uint8_t)NO_HEX[random_below(sizeof NO_HEX)]; return length;
    case 5: line[CELL_PERMIT + 2 * random_below(2)] = (uint8_t)PICK(".;0 "); return length;
    case 6: line[CELL_PERMIT + 1] = (uint8_t)PICK("2/9A "); return length;
    case 7: line[CELL_PERMIT + 3] = '0'; return length;
    default: line[length] = (uint8_t)PICK("\x1F\x7F\x80\xFF\r\n"); return length + 1;
    }
}

#endif
