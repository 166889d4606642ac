/* The model's product lists: a line is split at its commas, each field is tested by itself, and the names are sorted to find one that stands twice. */
#include <stdlib.h>

#include "model_parts.h"

#define FIRST_FIELDS 6 /* name to file size */
#define LIMITS 4
#define COORDINATES 20 /* at most */
#define LAST_FIELDS 6 /* compression to replacements */
#define LEAST_FIELDS (FIRST_FIELDS + LIMITS + LAST_FIELDS)
#define MOST_FIELDS (LEAST_FIELDS + COORDINATES)

typedef struct {
    const uint8_t *bytes;
    size_t length;
} text;

typedef struct {
    uint64_t name;
    uint32_t edition, update;
} row;

/* The names of the rows so far, as they came; and the row that was asked for. */
typedef struct {
    uint64_t *names, asked;
    size_t count, room;
    row found;
    bool is_found;
} rows;

static bool is_text(text t, const char *other)
{
    return t.length == strlen(other) && memcmp(t.bytes, other, t.length) == 0;
}

/* What follows the first bytes. */
static text after(text t, size_t bytes)
{
    return (text){t.bytes + bytes, t.length - bytes};
}

static bool begins(text t, const char *with)
{
    return t.length >= strlen(with) && memcmp(t.bytes, with, strlen(with)) == 0;
}

/* Digits, one to so many. */
static bool are_digits(text t, size_t most)
{
    uint32_t value;
    return t.length >= 1 && t.length <= most && read_decimal(t.bytes, t.length, &value);
}

/* A number from `least` to `most` without leading zero. */
static bool is_number(text t, uint32_t least, uint32_t most, uint32_t *value)
{
    return are_digits(t, 6) && (t.bytes[0] != '0' || t.length == 1) && read_decimal(t.bytes, t.length, value) && *value >= least && *value <= most;
}

static bool is_date_text(text t)
{
    uint32_t date;
    return t.length == 8 && read_decimal(t.bytes, 8, &date) && is_date(date);
}

static bool is_cell_file(text t)
{
    return t.length == 12 && is_name(t.bytes, 8) && is_text(after(t, 8), ".000");
}

/* A limit or coordinate: only its form is looked at. */
static bool are_degrees(text t)
{
    size_t whole = 0;
    uint32_t value;
    if (begins(t, "-"))
        t = after(t, 1);
    while (whole < t.length && is_digit(t.bytes[whole]))
        whole++;
    if (whole < 1 || whole > 3)
        return false;
    return whole == t.length || (t.bytes[whole] == '.' && t.length > whole + 1 && read_decimal(t.bytes + whole + 1, t.length - whole - 1, &value));
}

/* B or U, and 1 to 99. */
static bool is_exchange_set(text t)
{
    uint32_t value;
    return (begins(t, "B") || begins(t, "U")) && is_number(after(t, 1), 1, 99, &value);
}

static bool is_location(text t)
{
    uint32_t value;
    if (!begins(t, "M"))
        return is_exchange_set(t);
    const uint8_t *semicolon = memchr(t.bytes, ';', t.length);
    if (!semicolon)
        return false;
    size_t media = (size_t)(semicolon - t.bytes);
    return is_number((text){t.bytes + 1, media - 1}, 1, 99, &value) && is_exchange_set(after(t, media + 1));
}

static bool are_replacements(text t)
{
    for (size_t i = 0; i < t.length; i++)
        if (t.bytes[i] < 0x20 || t.bytes[i] > 0x7E || t.bytes[i] == ',')
            return false;
    return true;
}

/* The fields of a line; 0 where they are more than a row has. */
static size_t split(text line, text fields[MOST_FIELDS])
{
    for (size_t count = 0; count < MOST_FIELDS; count++) {
        const uint8_t *comma = memchr(line.bytes, ',', line.length);
        size_t length = comma ? (size_t)(comma - line.bytes) : line.length;
        fields[count] = (text){line.bytes, length};
        if (!comma)
            return count + 1;
        line = after(line, length + 1);
    }
    return 0;
}

/* Name to file size. A blank update is 0. */
static bool take_first(const text *f, row *r)
{
    uint32_t size;
    r->update = 0;
    if (!is_cell_file(f[0]) || !is_date_text(f[1]) || !is_number(f[2], 0, 999, &r->edition))
        return false;
    r->name = number_of(f[0].bytes, 8);
    return (f[3].length == 0 || is_date_text(f[3])) && (f[4].length == 0 || is_number(f[4], 0, 999, &r->update)) &&
           (f[5].length == 0 || is_number(f[5], 1, 999999, &size));
}

/* Compression, encryption, base cell update number, last update of the previous edition, location, replacements. */
static bool are_last(const text *f)
{
    uint32_t value;
    return (f[0].length == 0 || is_number(f[0], 0, 99, &value)) && (f[1].length == 0 || is_number(f[1], 0, 99, &value)) &&
           (f[2].length == 0 || are_digits(f[2], 3)) && (f[3].length == 0 || are_digits(f[3], 3)) && (f[4].length == 0 || is_location(f[4])) &&
           are_replacements(f[5]);
}

static bool take_row(text line, row *r)
{
    text fields[MOST_FIELDS];
    size_t count = split(line, fields);
    if (count < LEAST_FIELDS || !take_first(fields, r))
        return false;
    for (size_t i = FIRST_FIELDS; i < count - LAST_FIELDS; i++)
        if (fields[i].length > 0 && !are_degrees(fields[i]))
            return false;
    return are_last(fields + count - LAST_FIELDS);
}

/* :DATE YYYYMMDD HH:MM, or with seconds. */
static bool is_dated(text line)
{
    uint32_t hours, minutes, seconds = 0;
    if ((line.length != 20 && line.length != 23) || !begins(line, ":DATE ") || !is_date_text((text){line.bytes + 6, 8}) || line.bytes[14] != ' ')
        return false;
    if (!read_decimal(line.bytes + 15, 2, &hours) || line.bytes[17] != ':' || !read_decimal(line.bytes + 18, 2, &minutes))
        return false;
    if (line.length == 23 && (line.bytes[20] != ':' || !read_decimal(line.bytes + 21, 2, &seconds)))
        return false;
    return hours <= 23 && minutes <= 59 && seconds <= 59;
}

static bool is_version(text line)
{
    uint32_t version;
    return begins(line, ":VERSION ") && is_number(after(line, 9), 1, 99, &version);
}

/* The place after the header's four lines, each of which CR LF ends; or 0. */
static size_t after_header(const uint8_t *list, size_t length)
{
    text lines[4];
    size_t place = 0;
    for (size_t i = 0; i < 4; i++) {
        size_t end = line_end(list, length, place);
        if (end == length)
            return 0;
        lines[i] = (text){list + place, end - place};
        place = end + 2;
    }
    bool content = is_text(lines[2], ":CONTENT FULL") || is_text(lines[2], ":CONTENT PARTIAL");
    return is_dated(lines[0]) && is_version(lines[1]) && content && is_text(lines[3], ":ENC") ? place : 0;
}

static void keep_row(rows *all, const row *r)
{
    if (all->count == all->room) {
        all->room = all->room * 2 + 16;
        all->names = realloc(all->names, all->room * sizeof *all->names);
        if (!all->names)
            exit(1);
    }
    all->names[all->count++] = r->name;
    if (r->name == all->asked) {
        all->found = *r;
        all->is_found = true;
    }
}

/* Every row of the ENC part, which begins at a place; false where one is wrong. */
static bool take_rows(const uint8_t *list, size_t length, size_t place, rows *all)
{
    while (place < length) {
        size_t end = line_end(list, length, place);
        text line = {list + place, end - place};
        row r;
        if (is_text(line, ":ECS"))
            return true;
        if (end == length || !take_row(line, &r))
            return false;
        keep_row(all, &r);
        place = end + 2;
    }
    return true;
}

static int by_name(const void *one, const void *two)
{
    uint64_t a = *(const uint64_t *)one, b = *(const uint64_t *)two;
    return (a > b) - (a < b);
}

static bool stands_twice(rows *all)
{
    if (all->count > 1)
        qsort(all->names, all->count, sizeof *all->names, by_name);
    for (size_t i = 1; i < all->count; i++)
        if (all->names[i] == all->names[i - 1])
            return true;
    return false;
}

/* The standing of a good list: 0 up to date, 1 behind, 2 cancelled, 3 not listed. */
static uint32_t standing(const rows *all, uint32_t edition, uint32_t update)
{
    if (!all->is_found)
        return 3;
    if (all->found.edition == 0)
        return 2;
    return edition < all->found.edition || (edition == all->found.edition && update < all->found.update);
}

lambukir_standing model_product_standing(const uint8_t *list, size_t list_length, uint64_t name, uint32_t edition, uint32_t update)
{
    lambukir_standing answer = {0, 0};
    rows all = {.asked = name};
    size_t place = after_header(list, list_length);
    if (!is_name_number(name, 8) || edition < 1 || edition > 999 || update > 999)
        answer.number = 103;
    else if (place == 0 || !take_rows(list, list_length, place, &all))
        answer.number = 12;
    else if (stands_twice(&all))
        answer.number = 110;
    else {
        answer.standing = standing(&all, edition, update);
        answer.number = answer.standing == 1 ? 27 : 0;
    }
    free(all.names);
    return answer;
}
