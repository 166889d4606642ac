/* Product lists put together of rows, with what they say of each cell; and values of the fields, both those that the rules take and others. */
#ifndef LISTS_H
#define LISTS_H

#include "values.h"

#define LIST_ROOM 4000000
#define MOST_ROWS 80000
#define SOME_ROWS 30
#define FIRST_FIELDS 6
#define LAST_FIELDS 6
#define LEAST_FIELDS 16
#define MOST_FIELDS 36
#define FIELD_ROOM 64
#define MOST_VALUES 48

/* The forms that fields have; limits and coordinates are degrees, compression and encryption codes. */
enum form { CELL_FILE, DATE, EDITION, UPDATE_DATE, UPDATE, SIZE, DEGREES, CODE, DIGITS, LOCATION, REPLACEMENTS, FORMS };

/* At the limits of each form. */
static const char *const good_values[FORMS][MOST_VALUES] = {
    [CELL_FILE] = {"00000000.000", "ZZZZZZZZ.000", "AAAAAAAA.000", "99999999.000", "09AZ90ZA.000", "GB50184C.000"},
    [DATE] = {"19000101", "29991231", "20000229", "20240229", "21000228", "20240131", "20240430", "20241231"},
    [EDITION] = {"0", "1", "9", "10", "99", "100", "999"},
    [UPDATE_DATE] = {"", "19000101", "29991231", "20000229", "20240229", "20240331"},
    [UPDATE] = {"", "0", "1", "9", "10", "99", "100", "999"},
    [SIZE] = {"", "1", "9", "10", "99", "100", "1000", "10000", "99999", "100000", "999999"},
    [DEGREES] = {"", "0", "-0", "9", "-9", "10", "99", "-100", "999", "-999", "00", "000", "007", "0.0", "-0.0", "180.0", "999.9", "-90", "-0.000166700008",
                 "-999.99999999999999999999999999999999999999999999"},
    [CODE] = {"", "0", "1", "9", "10", "99"},
    [DIGITS] = {"", "0", "00", "000", "1", "01", "001", "9", "09", "010", "99", "100", "999"},
    [LOCATION] = {"", "B1", "B9", "B10", "B99", "U1", "U9", "U10", "U99", "M1;B1", "M9;U9", "M10;B10", "M99;B99", "M99;U99"},
    [REPLACEMENTS] = {"", " ", "   ", "~", "!", ":ECS", "GB50184D", "GB50184D;GB50184E", "+ - . / 0 9 : ; < A Z [ a z {"},
};

/* Beside them. */
static const char *const bad_values[FORMS][MOST_VALUES] = {
    [CELL_FILE] = {"", "GB50184.000", "GB50184CC.000", "gB50184C.000", "GB50184c.000", "GB50184C.001", "GB50184C.100", "GB50184C.00", "GB50184C.0000",
                   "GB50184C000", "GB50184C", "GB50184C.", ".000", " B50184C.000", "GB50184 .000", " GB50184C.000", "GB50184C.000 ", "GB50184C .000",
                   "GB50184C. 00", "/B50184C.000", ":B50184C.000", "GB5018@C.000", "GB5018[C.000", "GB5018`C.000", "GB50184{.000", "GB50184\x80.000",
                   "GB50184C-000", "GB50184C/000", "GB50184C.00O", "GB50184C.O00", ":ECS"},
    [DATE] = {"", "0", "2024013", "202401310", "020240131", "2024-1-1", "18991231", "30000101", "19000229", "20230229", "21000229", "20240230", "20240001",
              "20241301", "20240100", "20240132", "20240431", "20240631", "20240931", "20241131", "2024013A", "A0240131", "2024013/", "2024013:", "/0240131",
              " 0240131", " 20240131", "20240131 ", "2024013 ", "+2024013", "-2024013", "00000000", "99999999", "1A240131", "19A40131", "199A0131", "1999A131",
              "19990A31", "199901A1", "1999:131", "1999.131"},
    [EDITION] = {"", "00", "01", "000", "001", "010", "099", "0999", "1000", "1001", "9999", "10000", "-1", "+1", "-0", "1 ", " 1", "A", "1A", "A1", "1.0", "1.",
                 "0 ", "/", ":", "9:", "1/", "4294967296", "4294967297", "18446744073709551616", "18446744073709551617"},
    [UPDATE_DATE] = {"0", "2024013", "202401310", "18991231", "30000101", "19000229", "20230229", "20240230", "20240001", "20241301", "20240100", "20240132",
                     "20240431", "2024013A", "2024013/", "2024013:", " 20240131", "20240131 ", "2024013 ", "00000000"},
    [UPDATE] = {"00", "01", "000", "001", "010", "099", "0999", "1000", "1001", "9999", "10000", "-1", "+1", "-0", "1 ", " 1", "A", "1A", "A1", "1.0", "1.", "0 ",
                "/", ":", "9:", "1/", "4294967296", "4294967297", "18446744073709551616", "18446744073709551617"},
    [SIZE] = {"0", "00", "01", "000001", "099999", "0999999", "1000000", "1000001", "9999999", "-1", "+1", "1 ", " 1", "A", "1A", "1.5", "1.", "/", ":", "99999:",
              "4294967297", "18446744073709551617"},
    [DEGREES] = {"-", "--", ".", "-.", ".5", "-.5", "1.", "-1.", "999.", "1000", "-1000", "0000", "0001", "1000.0", "-1000.0", "1..0", "1.0.0", "1.0.", "--1",
                 "+1", "1-", "1.-0", "1.0-", "1 ", " 1", "- 1", "-1 ", "1 .0", "1. 0", "1.0 ", "1e5", "N", "1N", "1.A", "1.5N", "/", ":", "1/", "1:", "1./", "1.:",
                 "1;", "1;5", "12345678901234567890"},
    [CODE] = {"00", "01", "09", "000", "001", "100", "101", "999", "-1", "+1", "1 ", " 1", "A", "1A", "1.", "/", ":", "9:", "4294967297"},
    [DIGITS] = {"0000", "0001", "1000", "9999", "-1", "+1", "-01", "1 ", " 1", "1  ", "A", "1A", "A1", "1.", "/", ":", "9:", "00/"},
    [LOCATION] = {"B", "U", "M", "B0", "U0", "B00", "B01", "U09", "B100", "B999", "C1", "A1", "b1", "u1", "1", "3B", "B1 ", " B1", "B 1", "M1", "M1;",
                  "M1;B", "M1;B0", "M0;B1", "M1;B01", "M01;B1", "M100;B1", "M1;B100", "M1 ;B1", "M1; B1", "M1;M1", "M1;M1;B1", "m1;B1", "B1;M1", "M;B1",
                  ";B1", "M1:B1", "M1B1", "B1;", "M1;;B1", "M1;B1;", "BB1", "M1;C1", "M-1;B1"},
    [REPLACEMENTS] = {"\x1F", "\x7F", "\x80", "\xFF", "\r", "\n", "\t", "\n\r", "\x01", "GB50184D\x1F", "\x7FGB50184D", "GB\r50184D", "GB\n50184D", "GB50184D\r",
                      "GB50184D\n", " \xA0"},
};

/* None of the other forms takes one of these. */
static const char *const never[] = {" ", "  ", "\r", "\n", "\n\r", "\r\r", "x", "*", "\x1F", "\x7F", "\x80", "\xFF", "\t", "\"\"", "\xEF\xBB\xBF"};

static inline size_t count_values(const char *const *values)
{
    size_t count = 0;
    while (count < MOST_VALUES && values[count])
        count++;
    return count;
}

/* A row as its fields; there is room for more than the rules take. */
typedef struct {
    size_t count;
    char fields[MOST_FIELDS + 8][FIELD_ROOM];
} row;

/* What a row says of a cell. */
typedef struct {
    uint64_t name;
    uint32_t edition, update;
} cell;

typedef struct {
    uint8_t bytes[LIST_ROOM];
    size_t length, header, rows; /* the header is so long; so many rows follow in the ENC part */
    size_t ends[MOST_ROWS];      /* where each row ends, CR LF included */
    cell cells[MOST_ROWS];
} listing;

static inline void put_bytes(listing *l, const void *bytes, size_t length)
{
    memcpy(l->bytes + l->length, bytes, length);
    l->length += length;
}

static inline void put_words(listing *l, const char *text)
{
    put_bytes(l, text, strlen(text));
}

static inline void text_of_name(uint64_t name, char text[9])
{
    for (int i = 0; i < 8; i++)
        text[i] = (char)(name >> 8 * (7 - i));
    text[8] = 0;
}

/* Of the i-th field of a row of so many. */
static inline enum form form_of(size_t i, size_t count)
{
    static const enum form last[LAST_FIELDS] = {CODE, CODE, DIGITS, DIGITS, LOCATION, REPLACEMENTS};
    return i < FIRST_FIELDS ? (enum form)i : i < count - LAST_FIELDS ? DEGREES : last[i + LAST_FIELDS - count];
}

static inline uint32_t some_below_1000(void)
{
    static const uint32_t below[] = {1, 3, 10, 100, 1000};
    return (uint32_t)random_below(PICK(below));
}

static inline void some_degrees(char out[FIELD_ROOM])
{
    static const uint32_t below[] = {10, 100, 1000};
    int length = snprintf(out, FIELD_ROOM, "%s%d", random_below(2) ? "-" : "", (int)random_below(PICK(below)));
    if (random_below(2))
        snprintf(out + length, FIELD_ROOM - (size_t)length, ".%0*d", 1 + (int)random_below(10), (int)random_below(1000));
}

static inline void some_replacements(char out[FIELD_ROOM])
{
    size_t length = random_below(20);
    for (size_t i = 0; i < length; i++)
        out[i] = (char)(0x20 + random_below(0x7F - 0x20));
    out[length] = 0;
    for (char *comma; (comma = strchr(out, ','));)
        *comma = ';';
}

/* A value that the form takes; a name is put by the caller. What may be empty often is. */
static inline void some_value(enum form form, char out[FIELD_ROOM])
{
    if (random_below(4) == 0) {
        strcpy(out, good_values[form][random_below(count_values(good_values[form]))]);
        return;
    }
    out[0] = 0;
    if (form != DATE && form != EDITION && random_below(2))
        return;
    switch (form) {
    case DATE: case UPDATE_DATE: snprintf(out, FIELD_ROOM, "%08" PRIu32, some_date()); break;
    case SIZE: snprintf(out, FIELD_ROOM, "%d", 1 + (int)random_below(999999)); break;
    case DEGREES: some_degrees(out); break;
    case CODE: snprintf(out, FIELD_ROOM, "%d", (int)random_below(100)); break;
    case DIGITS: snprintf(out, FIELD_ROOM, "%0*d", 1 + (int)random_below(3), (int)random_below(1000)); break;
    case LOCATION: snprintf(out, FIELD_ROOM, "%s%c%d", random_below(2) ? "" : "M7;", "BU"[random_below(2)], 1 + (int)random_below(99)); break;
    case REPLACEMENTS: some_replacements(out); break;
    default: snprintf(out, FIELD_ROOM, "%" PRIu32, some_below_1000());
    }
}

/* A good row of so many fields. */
static inline void some_row(row *r, uint64_t name, size_t count)
{
    r->count = count;
    for (size_t i = 1; i < count; i++)
        some_value(form_of(i, count), r->fields[i]);
    text_of_name(name, r->fields[0]);
    strcat(r->fields[0], ".000");
}

/* 16 to 36, the fewer the more often. */
static inline size_t some_count(void)
{
    static const size_t most[] = {1, 3, 10, 11, 21};
    return LEAST_FIELDS + random_below(PICK(most));
}

/* The row and its CR LF. It counts among the rows of the ENC part. */
static inline void put_row(listing *l, const row *r)
{
    for (size_t i = 0; i < r->count; i++) {
        put_words(l, i > 0 ? "," : "");
        put_words(l, r->fields[i]);
    }
    put_words(l, "\r\n");
    uint64_t name = 0;
    for (size_t i = 0; i < 8; i++)
        name = name << 8 | (uint8_t)r->fields[0][i];
    l->cells[l->rows] = (cell){name, (uint32_t)strtoul(r->fields[2], NULL, 10), (uint32_t)strtoul(r->fields[4], NULL, 10)};
    l->ends[l->rows++] = l->length;
}

/* A row with nothing but what it must have, and an update. */
static inline void put_short_row(listing *l, uint64_t name, uint32_t edition, uint32_t update)
{
    char text[9];
    text_of_name(name, text);
    l->length += (size_t)sprintf((char *)l->bytes + l->length, "%s.000,20240131,%" PRIu32 ",,%" PRIu32 ",,,,,,,,,,,\r\n", text, edition, update);
    l->cells[l->rows] = (cell){name, edition, update};
    l->ends[l->rows++] = l->length;
}

/* Begins a list with a header. */
static inline void put_header(listing *l, const char *header)
{
    l->length = l->rows = 0;
    put_words(l, header);
    l->header = l->length;
}

static inline void some_header(listing *l)
{
    char header[120], seconds[4] = "";
    if (random_below(2))
        snprintf(seconds, sizeof seconds, ":%02u", (unsigned)random_below(60));
    snprintf(header, sizeof header, ":DATE %08" PRIu32 " %02u:%02u%s\r\n:VERSION %u\r\n:CONTENT %s\r\n:ENC\r\n", some_date(), (unsigned)random_below(24),
             (unsigned)random_below(60), seconds, 1 + (unsigned)random_below(99), random_below(2) ? "FULL" : "PARTIAL");
    put_header(l, header);
}

/* Another name, in one character or in all. */
static inline uint64_t other_name(uint64_t name)
{
    uint64_t other = name, shift = 8 * random_below(8);
    if (random_below(3) == 0)
        return some_name();
    while (other == name)
        other = (name & ~((uint64_t)0xFF << shift)) | some_text(NAMES, 1) << shift;
    return other;
}

static inline const cell *find_cell(const listing *l, uint64_t name)
{
    for (size_t i = 0; i < l->rows; i++)
        if (l->cells[i].name == name)
            return &l->cells[i];
    return NULL;
}

/* A name that no row of the ENC part has, but which often is near to one. */
static inline uint64_t absent_name(const listing *l)
{
    uint64_t name = some_name();
    if (l->rows > 0)
        name = l->cells[random_below(l->rows)].name;
    while (find_cell(l, name))
        name = other_name(name);
    return name;
}

/* The end in one of its ways. A row of what follows :ECS has the name that is given. */
static inline void put_ending(listing *l, uint64_t name)
{
    uint8_t bytes[60];
    size_t rows = l->rows;
    row r;
    switch (random_below(6)) {
    case 0: return;
    case 1: put_words(l, ":ECS"); return;
    case 2: put_words(l, ":ECS\r\n"); return;
    case 3: /* rows like those of the ENC part, or a bad one */
        put_words(l, ":ECS\r\n");
        some_row(&r, name, some_count());
        put_row(l, &r);
        if (random_below(2))
            put_row(l, &r);
        l->length -= random_below(3);
        break;
    case 4: put_words(l, ":ECS\r\n:ENC\r\n\r\n"); put_short_row(l, name, 1, 1); break;
    default:
        put_words(l, ":ECS\r\n");
        random_bytes(bytes, sizeof bytes);
        put_bytes(l, bytes, random_below(sizeof bytes));
    }
    l->rows = rows;
}

static inline int by_number(const void *one, const void *two)
{
    uint64_t a = *(const uint64_t *)one, b = *(const uint64_t *)two;
    return (a > b) - (a < b);
}

/* The same cells again, with other rows, so that their names rise. */
static inline void put_in_order(listing *l)
{
    row r;
    uint64_t names[SOME_ROWS];
    size_t rows = l->rows;
    for (size_t i = 0; i < rows; i++)
        names[i] = l->cells[i].name;
    qsort(names, rows, sizeof *names, by_number);
    l->length = l->header;
    l->rows = 0;
    for (size_t i = 0; i < rows; i++) {
        some_row(&r, names[i], some_count());
        put_row(l, &r);
    }
}

/* A good list with so many rows, each of another cell; most often in name order, as lists are sent, with which the library has less to do. What follows
   :ECS may have a row of the cell that `beyond` names then. */
static inline void some_list(listing *l, size_t rows, uint64_t *beyond)
{
    row r;
    some_header(l);
    for (size_t i = 0; i < rows; i++) {
        some_row(&r, absent_name(l), some_count());
        put_row(l, &r);
    }
    if (random_below(8) != 0)
        put_in_order(l);
    *beyond = l->rows > 0 && random_below(3) == 0 ? l->cells[random_below(l->rows)].name : absent_name(l);
    put_ending(l, *beyond);
}

#endif
