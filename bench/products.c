/* The product list by hand: one pass reads the rows, each field from its first byte on, and keeps the names; sorting them shows one that stands twice.
   No field takes a CR, so a row is read up to its CR without looking for its end at every byte. */
#include <stdbool.h>
#include <stdlib.h>
#include <string.h>

#include "products.h"

#define SHORTEST_ROW 36 /* name, date, edition and 15 commas */
#define EACH(byte) ((byte) * 0x0101010101010101u)

typedef struct {
    uint64_t name;
    uint32_t edition, update;
} row;

static uint64_t read64(const uint8_t *p)
{
    uint64_t v;
    memcpy(&v, p, sizeof v);
    return __builtin_bswap64(v);
}

static bool is_digit(uint8_t c)
{
    return c >= '0' && c <= '9';
}

/* Eight characters of A-Z 0-9: of the four sums an odd number has a byte's top bit exactly where the byte is one of these. */
static bool is_cell_name(uint64_t x)
{
    return (x & EACH(0x80)) == 0 &&
           (((x + EACH(0x80 - '0')) ^ (x + EACH(0x7f - '9')) ^ (x + EACH(0x80 - 'A')) ^ (x + EACH(0x7f - 'Z'))) & EACH(0x80)) == EACH(0x80);
}

/* The number of two digits; far above all where one is none. */
static uint32_t two_digits(const uint8_t *p)
{
    uint32_t tens = p[0] - (uint32_t)'0', ones = p[1] - (uint32_t)'0';
    return tens > 9 || ones > 9 ? 1000000 : tens * 10 + ones;
}

static bool is_date_at(const uint8_t *p)
{
    static const uint8_t lengths[] = {31, 28, 31, 30, 31, 30, 31, 31, 30, 31, 30, 31};
    uint32_t year = two_digits(p) * 100 + two_digits(p + 2), month = two_digits(p + 4), day = two_digits(p + 6);
    if (year < 1900 || year > 2999 || month < 1 || month > 12 || day < 1)
        return false;
    return day <= lengths[month - 1] || (day == 29 && month == 2 && year % 4 == 0 && (year % 100 != 0 || year % 400 == 0));
}

/* What follows a field: each answers the place of the comma or CR after it, or null where the field is wrong. */

static const uint8_t *after_digits(const uint8_t *p, size_t most)
{
    const uint8_t *from = p;
    while (is_digit(*p))
        p++;
    return p > from && (size_t)(p - from) <= most ? p : NULL;
}

/* Of so many digits at most, without leading zero. */
static const uint8_t *after_number(const uint8_t *p, size_t most, uint32_t *value)
{
    const uint8_t *from = p;
    *value = 0;
    for (; is_digit(*p); p++)
        *value = *value * 10 + (*p - '0');
    return p > from && (size_t)(p - from) <= most && (*from != '0' || p == from + 1) ? p : NULL;
}

static const uint8_t *after_positive(const uint8_t *p, size_t most)
{
    uint32_t value;
    return *p == '0' ? NULL : after_number(p, most, &value);
}

static const uint8_t *after_degrees(const uint8_t *p)
{
    if (*p == ',')
        return p;
    p = after_digits(p + (*p == '-'), 3);
    if (p == NULL || *p != '.')
        return p;
    const uint8_t *from = ++p;
    while (is_digit(*p))
        p++;
    return p > from ? p : NULL;
}

static const uint8_t *after_exchange_set(const uint8_t *p)
{
    return *p == 'B' || *p == 'U' ? after_positive(p + 1, 2) : NULL;
}

static const uint8_t *after_location(const uint8_t *p)
{
    if (*p != 'M')
        return after_exchange_set(p);
    p = after_positive(p + 1, 2);
    return p != NULL && *p == ';' ? after_exchange_set(p + 1) : NULL;
}

/* Name to file size; the place after its comma. */
static const uint8_t *take_first(const uint8_t *p, row *r)
{
    r->name = read64(p);
    if (!is_cell_name(r->name) || memcmp(p + 8, ".000,", 5) != 0 || !is_date_at(p + 13) || p[21] != ',')
        return NULL;
    p = after_number(p + 22, 3, &r->edition);
    if (p == NULL || *p++ != ',')
        return NULL;
    if (*p != ',') {
        if (!is_date_at(p))
            return NULL;
        p += 8;
    }
    if (*p++ != ',')
        return NULL;
    r->update = 0;
    if (*p != ',' && (p = after_number(p, 3, &r->update)) == NULL)
        return NULL;
    if (*p++ != ',')
        return NULL;
    if (*p != ',' && (p = after_positive(p, 6)) == NULL)
        return NULL;
    return *p == ',' ? p + 1 : NULL;
}

/* So many limits or coordinates; the place after the last one's comma. */
static const uint8_t *take_degrees(const uint8_t *p, size_t count)
{
    for (; count > 0; count--) {
        p = after_degrees(p);
        if (p == NULL || *p++ != ',')
            return NULL;
    }
    return p;
}

/* Compression to replacements, which end the row. */
static bool are_last(const uint8_t *p, const uint8_t *end)
{
    uint32_t value;
    for (int i = 0; i < 2; i++) {
        if (*p != ',' && (p = after_number(p, 2, &value)) == NULL)
            return false;
        if (*p++ != ',')
            return false;
    }
    for (int i = 0; i < 2; i++) {
        if (*p != ',' && (p = after_digits(p, 3)) == NULL)
            return false;
        if (*p++ != ',')
            return false;
    }
    if (*p != ',' && (p = after_location(p)) == NULL)
        return false;
    if (*p++ != ',')
        return false;
    for (; p < end; p++) /* the row's commas were counted: none is left */
        if (*p - 0x20u > 0x7e - 0x20)
            return false;
    return true;
}

static bool take_row(const uint8_t *p, const uint8_t *end, row *r)
{
    if (end - p < SHORTEST_ROW || (p = take_first(p, r)) == NULL || (p = take_degrees(p, 4)) == NULL)
        return false;
    size_t commas = 0;
    for (const uint8_t *q = p; q < end; q++)
        commas += *q == ',';
    if (commas < 5 || commas > 25 || (p = take_degrees(p, commas - 5)) == NULL)
        return false;
    return are_last(p, end);
}

/* The place after a text; null where it does not stand there. */
static const uint8_t *after_text(const uint8_t *p, const uint8_t *end, const char *text)
{
    size_t length = strlen(text);
    return p != NULL && (size_t)(end - p) >= length && memcmp(p, text, length) == 0 ? p + length : NULL;
}

static const uint8_t *after_version(const uint8_t *p, const uint8_t *end)
{
    p = after_text(p, end, "\r\n:VERSION ");
    if (p == NULL || p == end || !is_digit(*p) || *p == '0')
        return NULL;
    p++;
    return p < end && is_digit(*p) ? p + 1 : p;
}

static const uint8_t *after_header(const uint8_t *list, const uint8_t *end)
{
    const uint8_t *p = after_text(list, end, ":DATE ");
    if (p == NULL || end - p < 17 || !is_date_at(p) || p[8] != ' ' || two_digits(p + 9) > 23 || p[11] != ':' || two_digits(p + 12) > 59)
        return NULL;
    p += 14;
    if (*p == ':') {
        if (two_digits(p + 1) > 59)
            return NULL;
        p += 3;
    }
    p = after_text(after_version(p, end), end, "\r\n:CONTENT ");
    const uint8_t *full = after_text(p, end, "FULL");
    return after_text(full ? full : after_text(p, end, "PARTIAL"), end, "\r\n:ENC\r\n");
}

static int by_name(const void *one, const void *two)
{
    uint64_t a = *(const uint64_t *)one, b = *(const uint64_t *)two;
    return (a > b) - (a < b);
}

static bool stands_twice(uint64_t *names, size_t count)
{
    qsort(names, count, sizeof *names, by_name);
    for (size_t i = 1; i < count; i++)
        if (names[i] == names[i - 1])
            return true;
    return false;
}

static uint32_t standing(const row *r, uint32_t edition, uint32_t update)
{
    if (r->name == 0)
        return 3;
    if (r->edition == 0)
        return 2;
    return edition < r->edition || (edition == r->edition && update < r->update);
}

/* Every row up to :ECS: their names, and the row that was asked for, where it is there. False where one is wrong. */
static bool take_rows(const uint8_t *p, const uint8_t *end, uint64_t name, uint64_t *names, size_t *count, row *found)
{
    row r;
    while (p < end) {
        const uint8_t *cr = memchr(p, '\r', (size_t)(end - p));
        if (cr == NULL)
            return end - p == 4 && memcmp(p, ":ECS", 4) == 0;
        if (cr + 1 == end || cr[1] != '\n')
            return false;
        if (*p == ':')
            return cr - p == 4 && memcmp(p, ":ECS", 4) == 0;
        if (!take_row(p, cr, &r))
            return false;
        names[(*count)++] = r.name;
        if (r.name == name)
            *found = r;
        p = cr + 2;
    }
    return true;
}

lambukir_standing plain_product_standing(const uint8_t *list, size_t list_length, uint64_t name, uint32_t edition, uint32_t update)
{
    if (!is_cell_name(name) || edition - 1 >= 999 || update > 999)
        return (lambukir_standing){.number = 103};
    const uint8_t *end = list + list_length, *rows = after_header(list, end);
    if (rows == NULL)
        return (lambukir_standing){.number = 12};
    uint64_t *names = malloc((list_length / SHORTEST_ROW + 1) * sizeof *names);
    size_t count = 0;
    row found = {0};
    lambukir_standing answer = {0};
    if (names == NULL)
        exit(1);
    if (!take_rows(rows, end, name, names, &count, &found))
        answer.number = 12;
    else if (stands_twice(names, count))
        answer.number = 110;
    else {
        answer.standing = standing(&found, edition, update);
        answer.number = answer.standing == 1 ? 27 : 0;
    }
    free(names);
    return answer;
}
