/* Ships' cells held against product lists, compared with the model and with what the rules say of each case. */
#define _DEFAULT_SOURCE
#include <glob.h>
#include <pthread.h>
#include <sys/mman.h>

#include "calls.h"
#include "lists.h"

#define STORED "tests/products/*.list"
#define STACK ((600 + 32) << 10) /* what lambukir.h says that the call needs, and something for the thread itself */
#define HEADER ":DATE 20240131 09:30\r\n:VERSION 2\r\n:CONTENT FULL\r\n:ENC\r\n"

/* What an answer is: one of four standings, or a refusal. */
enum answer { UP_TO_DATE, BEHIND, CANCELLED, NOT_LISTED, REFUSED_103, REFUSED_12, REFUSED_110, ANSWERS };
static const struct { const char *name; uint32_t standing, number; } answers[ANSWERS] = {
    {"up to date", 0, 0}, {"behind", 1, 27}, {"cancelled", 2, 0}, {"not listed", 3, 0}, {"103", 0, 103}, {"12", 0, 12}, {"110", 0, 110},
};
static uint32_t seen[ANSWERS];

static listing list, changed;

/* The library's answer for a list, counted; ANSWERS where it is none of these. */
static enum answer ask(const listing *l, uint64_t name, uint32_t edition, uint32_t update)
{
    lambukir_standing got = compare_standing(l->bytes, l->length, name, edition, update);
    for (int i = 0; i < ANSWERS; i++)
        if (got.standing == answers[i].standing && got.number == answers[i].number) {
            seen[i]++;
            return (enum answer)i;
        }
    same(got.number, UINT32_MAX, "%s: number %" PRIu32 " with standing %" PRIu32, about, got.number, got.standing);
    return ANSWERS;
}

/* The answer that the rules give, told by the test itself. */
static void expect_answer(const listing *l, uint64_t name, uint32_t edition, uint32_t update, enum answer expected)
{
    same(ask(l, name, edition, update), expected, "%s: answer, against what the test expects", about);
}

/* Each of these answers has come, and often. */
static void expect_seen(const enum answer *kinds, size_t count, uint32_t least)
{
    for (size_t i = 0; i < count; i++)
        same(seen[kinds[i]] >= least, 1, "'%s' came up %" PRIu32 " times", answers[kinds[i]].name, seen[kinds[i]]);
}

/* What a good list says, by what was put into it. */
static enum answer answer_of(const listing *l, uint64_t name, uint32_t edition, uint32_t update)
{
    const cell *c = find_cell(l, name);
    if (!c)
        return NOT_LISTED;
    if (c->edition == 0)
        return CANCELLED;
    return edition < c->edition || (edition == c->edition && update < c->update) ? BEHIND : UP_TO_DATE;
}

/* About a value, and within these limits. */
static uint32_t near_value(uint32_t value, uint32_t least, uint32_t most)
{
    int64_t by = random_below(4) == 0 ? (int64_t)random_below(1000) - 500 : (int64_t)random_below(3) - 1, near = (int64_t)value + by;
    return near < least ? least : near > most ? most : (uint32_t)near;
}

/* Asks a good list for one of its cells, for that beyond :ECS, or for none. */
static void ask_good(const listing *l, uint64_t beyond)
{
    uint64_t kind = random_below(8), name = kind == 0 ? beyond : kind == 1 || l->rows == 0 ? absent_name(l) : l->cells[random_below(l->rows)].name;
    const cell *c = find_cell(l, name);
    uint32_t edition = near_value(c ? c->edition : some_below_1000(), 1, 999), update = near_value(c ? c->update : some_below_1000(), 0, 999);
    expect_answer(l, name, edition, update, answer_of(l, name, edition, update));
}

/* Reads the questions of a stored case: a cell, edition and update each, and what must be answered. */
static void ask_stored(const char *path, FILE *asked)
{
    char name[9];
    uint32_t edition, update, standing, number, count = 0;
    while (fscanf(asked, "%8s %" SCNu32 " %" SCNu32 " %" SCNu32 " %" SCNu32, name, &edition, &update, &standing, &number) == 5) {
        ABOUT("%s: %s %" PRIu32 " %" PRIu32, path, name, edition, update);
        lambukir_standing got = compare_standing(list.bytes, list.length, number_from(name), edition, update);
        same(got.standing, standing, "%s: standing, against the stored one", about);
        same(got.number, number, "%s: number, against the stored one", about);
        count++;
    }
    same(count > 0 && feof(asked), 1, "%s: questions read to the end", path);
}

static void stored(void)
{
    glob_t found;
    same((uint64_t)glob(STORED, 0, NULL, &found), 0, "stored cases in %s", STORED);
    for (size_t i = 0; i < found.gl_pathc; i++) {
        char questions[300];
        snprintf(questions, sizeof questions, "%.*s.asked", (int)strlen(found.gl_pathv[i]) - 5, found.gl_pathv[i]);
        FILE *bytes = fopen(found.gl_pathv[i], "rb"), *asked = fopen(questions, "r");
        same(bytes && asked, 1, "%s: opened with its questions", found.gl_pathv[i]);
        if (!bytes || !asked)
            continue;
        list.length = fread(list.bytes, 1, LIST_ROOM, bytes);
        ask_stored(found.gl_pathv[i], asked);
        fclose(bytes);
        fclose(asked);
    }
    globfree(&found);
}

/* Good lists, and the same with a row spoilt, put in twice or left without its end. */
static void lists(void)
{
    static const enum answer all[] = {UP_TO_DATE, BEHIND, CANCELLED, NOT_LISTED, REFUSED_103, REFUSED_12, REFUSED_110};
    uint64_t beyond;
    for (int i = 0; i < 50000; i++) {
        some_list(&list, random_below(i % 50 == 0 ? SOME_ROWS : 5), &beyond);
        ABOUT("good list %d", i);
        ask_good(&list, beyond);
        ask_good(&list, beyond);
        if (i % 40 == 0)
            expect_answer(&list, no_name(), 1, 0, REFUSED_103);
        if (i % 20 == 0 && list.rows > 0) {
            size_t from = random_below(list.rows), end = list.ends[from], start = from > 0 ? list.ends[from - 1] : list.header;
            ABOUT("list %d with a row put twice", i);
            memmove(list.bytes + end + (end - start), list.bytes + end, list.length - end);
            memcpy(list.bytes + end, list.bytes + start, end - start);
            list.length += end - start;
            expect_answer(&list, some_name(), 1, 0, REFUSED_110);
            list.bytes[start + 8] = ','; /* where the name's ending begins */
            expect_answer(&list, list.cells[from].name, 1, 0, REFUSED_12);
        }
    }
    expect_seen(all, ANSWERS, 500);
}

/* The list with one byte changed, taken out, doubled, or put in before it. */
static void change(size_t at, int kind, uint8_t byte)
{
    memcpy(changed.bytes, list.bytes, at);
    changed.length = at;
    if (kind == 1 || kind == 3)
        changed.bytes[changed.length++] = byte;
    if (kind >= 2)
        changed.bytes[changed.length++] = list.bytes[at];
    if (kind == 2)
        changed.bytes[changed.length++] = list.bytes[at];
    put_bytes(&changed, list.bytes + at + 1, list.length - at - 1);
    ABOUT("list of %zu bytes, byte %zu, change %d, %02X", list.length, at, kind, byte);
}

/* Every position of header, rows and end, so changed; in three lists each byte as each other byte. */
static void damaged(void)
{
    static const enum answer all[] = {UP_TO_DATE, BEHIND, CANCELLED, NOT_LISTED, REFUSED_12};
    static const uint8_t bytes[] = "0129,.-:;BMU ~\r\n\0\xFF";
    uint64_t beyond;
    for (int i = 0; i < 90; i++) {
        some_list(&list, i < 3 ? 2 : random_below(4), &beyond);
        uint64_t name = list.rows > 0 ? list.cells[random_below(list.rows)].name : some_name();
        const cell *c = find_cell(&list, name);
        uint32_t edition = c && c->edition > 0 ? c->edition : 5, update = c ? c->update : 0;
        for (size_t at = 0; at < list.length; at++) {
            for (int kind = 0; kind < 4; kind++) {
                change(at, kind, bytes[random_below(sizeof bytes)]);
                ask(&changed, name, edition, near_value(update, 0, 999));
            }
            for (int add = 1; add < 256 && i < 3; add++) {
                change(at, 1, (uint8_t)(list.bytes[at] + add));
                ask(&changed, name, edition, update);
            }
        }
    }
    expect_seen(all, COUNT(all), 200);
}

/* A list whose row in the middle has this text as its i-th field. */
static void put_field(size_t i, size_t count, const char *text)
{
    row r;
    put_header(&list, HEADER);
    some_row(&r, number_from("AA100001"), some_count());
    put_row(&list, &r);
    some_row(&r, number_from("GB100002"), count);
    strcpy(r.fields[i], text);
    put_row(&list, &r);
    some_row(&r, number_from("ZY100003"), some_count());
    put_row(&list, &r);
    ABOUT("field %zu of %zu as '%s'", i, count, text);
}

/* The same, and what is answered for the row and for another one. */
static void compare_field(size_t i, size_t count, const char *text, int good)
{
    put_field(i, count, text);
    for (size_t which = 0; which < 3; which++) {
        uint64_t name = list.cells[which].name;
        uint32_t edition = near_value(list.cells[which].edition, 1, 999), update = near_value(list.cells[which].update, 0, 999);
        if (!good && which == 1)
            name = some_name();
        expect_answer(&list, name, edition, update, good ? answer_of(&list, name, edition, update) : REFUSED_12);
    }
}

/* Every value of every field, alone among good ones, in rows with no, some and all coordinates. */
static void fields(void)
{
    static const size_t counts[] = {16, 17, 25, 26, 35, 36};
    for (size_t c = 0; c < COUNT(counts); c++)
        for (size_t i = 0; i < counts[c]; i++) {
            enum form form = form_of(i, counts[c]);
            for (size_t v = 0; v < count_values(good_values[form]); v++)
                compare_field(i, counts[c], good_values[form][v], 1);
            for (size_t v = 0; v < count_values(bad_values[form]); v++)
                compare_field(i, counts[c], bad_values[form][v], 0);
            for (size_t v = 0; v < COUNT(never) && form != REPLACEMENTS; v++)
                compare_field(i, counts[c], never[v], 0);
        }
}

/* Every number of fields, and a comma more within a good row. */
static void counts(void)
{
    row r;
    for (size_t count = LEAST_FIELDS; count <= MOST_FIELDS + 8; count++)
        for (int round = 0; round < 20; round++) {
            put_header(&list, HEADER);
            some_row(&r, some_name(), count);
            put_row(&list, &r);
            ABOUT("a row of %zu fields", count);
            expect_answer(&list, some_name(), 1, 0, count <= MOST_FIELDS ? NOT_LISTED : REFUSED_12);
        }
    for (size_t count = 1; count < LEAST_FIELDS; count++) { /* so many of the first fields, and so many first and last ones */
        put_header(&list, HEADER);
        some_row(&r, some_name(), LEAST_FIELDS);
        r.count = count;
        put_row(&list, &r);
        ABOUT("the first %zu fields of a row", count);
        expect_answer(&list, list.cells[0].name, 1, 0, REFUSED_12);
        for (size_t i = 0; i < LAST_FIELDS && count > LAST_FIELDS; i++)
            strcpy(r.fields[count - LAST_FIELDS + i], r.fields[LEAST_FIELDS - LAST_FIELDS + i]);
        put_header(&list, HEADER);
        put_row(&list, &r);
        ABOUT("a row of %zu fields, the last ones at its end", count);
        expect_answer(&list, list.cells[0].name, 1, 0, REFUSED_12);
    }
}

/* Each number up to 1100 as edition and as update: what it is, and that it is refused above 999. */
static void numbers(void)
{
    char text[12];
    for (uint32_t i = 0; i <= 1100; i++) {
        snprintf(text, sizeof text, "%" PRIu32, i);
        for (size_t field = 2; field <= 4; field += 2) {
            put_field(field, LEAST_FIELDS, text);
            const cell c = list.cells[1];
            for (uint32_t edition = c.edition > 0 ? c.edition - 1 : 0; edition <= c.edition + 1; edition++)
                for (uint32_t update = c.update > 0 ? c.update - 1 : 0; update <= c.update + 1; update++)
                    expect_answer(&list, c.name, edition, update,
                                  edition < 1 || edition > 999 || update > 999 ? REFUSED_103 : i > 999 ? REFUSED_12 : answer_of(&list, c.name, edition, update));
        }
    }
}

/* Each byte at the start, in the middle and at the end of the replacements; and fields as long as they like. */
static void long_fields(void)
{
    row r;
    for (unsigned byte = 0; byte < 256; byte++)
        for (size_t at = 0; at < 3; at++) {
            put_header(&list, HEADER);
            some_row(&r, some_name(), some_count());
            strcpy(r.fields[r.count - 1], "AB");
            put_row(&list, &r);
            memmove(list.bytes + list.length - 3 + at, list.bytes + list.length - 4 + at, 4 - at); /* room between A, B and CR */
            list.bytes[list.length++ - 4 + at] = (uint8_t)byte;
            ABOUT("replacements with byte %02X at %zu", byte, at);
            enum answer answer = ask(&list, number_from("GB100002"), 1, 0);
            if (byte != ',') /* which makes a field more, and may make another good row */
                same(answer, byte >= 0x20 && byte <= 0x7E ? NOT_LISTED : REFUSED_12, "%s: answer, against what the test expects", about);
        }
    for (size_t length = 1; length <= 65537; length = length * 4 + (length == 1)) {
        static const char starts[2][60] = {"GB100002.000,20240131,7,,,,", "GB100002.000,20240131,7,,,,,,,,,,,,,"}, ends[2][20] = {".5,,,,,,,,,,\r\n", "\r\n"};
        for (size_t kind = 0; kind < 4; kind++) { /* a limit's fraction, replacements, a limit's whole part, replacements */
            put_header(&list, HEADER);
            put_words(&list, starts[kind % 2]);
            put_words(&list, kind == 0 ? "12." : "");
            memset(list.bytes + list.length, kind == 1 ? '~' : '0', length);
            list.length += length;
            put_words(&list, ends[kind % 2] + (kind == 0 ? 2 : 0));
            ABOUT("a field of %zu bytes, kind %zu", length, kind);
            expect_answer(&list, number_from("GB100002"), 6, 0, kind % 2 == 1 || kind == 0 || length <= 3 ? BEHIND : REFUSED_12);
        }
    }
}

/* The first bytes of a list are one as long as they end with the header, a row, :ECS or after it. */
static int is_cut_good(const listing *l, size_t length)
{
    size_t rows_end = l->rows > 0 ? l->ends[l->rows - 1] : l->header;
    if (length == l->header || length == rows_end + 4 || length > rows_end + 5)
        return 1;
    for (size_t i = 0; i < l->rows; i++)
        if (length == l->ends[i])
            return 1;
    return 0;
}

/* Lists cut at every length to 300. */
static void cut(void)
{
    uint64_t beyond;
    for (int i = 0; i < 60; i++) {
        do
            some_list(&list, i % 5, &beyond);
        while (list.length < (i % 2 ? 300 : 100));
        size_t whole = list.length, rows = list.rows;
        uint64_t name = rows > 0 ? list.cells[random_below(rows)].name : some_name();
        for (list.length = 0; list.length <= whole && list.length <= 300; list.length++) {
            ABOUT("the first %zu bytes of list %d", list.length, i);
            int good = is_cut_good(&list, list.length);
            for (list.rows = rows; list.rows > 0 && list.ends[list.rows - 1] > list.length;) /* of those that are left */
                list.rows--;
            expect_answer(&list, name, 500, 5, good ? answer_of(&list, name, 500, 5) : REFUSED_12);
            list.rows = rows;
        }
    }
}

/* The ship's values at and beyond their limits. */
static void given(void)
{
    static const uint32_t values[] = {0,   1,     2,     998,   999,        1000,       1001,       1023,       1024,      1025,
                                      255, 65535, 65536, 65537, 2147483647, 2147483648, 4294966297, 4294967294, 4294967295};
    put_header(&list, HEADER);
    put_short_row(&list, number_from("GB50184C"), 999, 999);
    put_short_row(&list, number_from("GB50184D"), 1, 0);
    for (size_t e = 0; e < COUNT(values); e++)
        for (size_t u = 0; u < COUNT(values); u++)
            for (size_t i = 0; i < 2; i++) {
                ABOUT("edition %" PRIu32 ", update %" PRIu32, values[e], values[u]);
                expect_answer(&list, list.cells[i].name, values[e], values[u],
                              values[e] < 1 || values[e] > 999 || values[u] > 999 ? REFUSED_103 : answer_of(&list, list.cells[i].name, values[e], values[u]));
            }
    for (int at = 0; at < 8; at++)
        for (uint64_t byte = 0; byte < 256; byte++) {
            uint64_t name = (list.cells[0].name & ~((uint64_t)0xFF << 8 * at)) | byte << 8 * at;
            ABOUT("name with byte %d as %02X", at, (unsigned)byte);
            expect_answer(&list, name, 999, 998, byte != 0 && strchr(NAMES, (int)byte) ? answer_of(&list, name, 999, 998) : REFUSED_103);
        }
    for (int i = 0; i < 2000; i++) {
        ABOUT("no name %d", i);
        expect_answer(&list, no_name(), 1, 0, REFUSED_103);
    }
    ABOUT("a name of no bytes");
    expect_answer(&list, 0, 1, 0, REFUSED_103);
}

/* Every set of reasons to refuse at once: 103 thrice, 12 in header and row, 110. The first of the order wins. */
static void refusals(void)
{
    static const uint32_t order[] = {103, 103, 103, 12, 12, 110}, no_values[] = {1000, 1001, 65536, 4294967295};
    row r;
    for (int i = 0; i < 64 * 100; i++) {
        unsigned mask = (unsigned)i % 64;
        put_header(&list, mask & 8 ? ":DATE 20240131 09:30\r\n:VERSION 0\r\n:CONTENT FULL\r\n:ENC\r\n" : HEADER);
        size_t rows = 2 + random_below(4), bad = random_below(rows);
        for (size_t n = 0; n < rows; n++) {
            some_row(&r, absent_name(&list), some_count());
            if (mask & 32 && n + 1 == rows)
                memcpy(r.fields[0], list.bytes + list.header, 8);
            if (mask & 16 && n == bad)
                strcpy(r.fields[1], bad_values[DATE][random_below(count_values(bad_values[DATE]))]);
            put_row(&list, &r);
        }
        ABOUT("reasons %X, round %d", mask, i / 64);
        uint64_t name = mask & 1 ? no_name() : list.cells[random_below(rows)].name;
        uint32_t edition = mask & 2 ? (random_below(4) ? PICK(no_values) : 0) : 1 + some_below_1000() % 999, update = mask & 4 ? PICK(no_values) : some_below_1000();
        uint32_t number = first_of(order, COUNT(order), mask);
        expect_answer(&list, name, edition, update,
                      number == 103 ? REFUSED_103 : number == 12 ? REFUSED_12 : number == 110 ? REFUSED_110 : answer_of(&list, name, edition, update));
    }
}

/* So many different names: the i-th of a stretch of names in their order, or of names far apart. */
static uint64_t nth_name(uint64_t i, int apart)
{
    uint64_t name = 0, left = apart ? i * 1234567890131 % 2821109907456 : i; /* prime to the number of names, 36 to the eighth */
    for (int c = 0; c < 8; c++, left /= 36)
        name |= (uint64_t)(uint8_t)NAMES[left % 36] << 8 * c;
    return name;
}

/* The orders that rows may have. */
enum order { RISING, FALLING, SHUFFLED, APART, ORDERS };

/* Rows of so many cells. One of them, and then another, have one name where it is so wanted. */
static void put_rows(size_t rows, enum order order, int repeated, size_t one, size_t another)
{
    static uint32_t places[MOST_ROWS];
    uint64_t base = random_below(1000000);
    for (size_t i = 0; i < rows; i++)
        places[i] = (uint32_t)(order == FALLING ? rows - i : i);
    for (size_t i = rows; i > 1 && order == SHUFFLED; i--) {
        size_t j = random_below(i);
        uint32_t was = places[i - 1];
        places[i - 1] = places[j];
        places[j] = was;
    }
    if (repeated)
        places[another] = places[one];
    some_header(&list);
    for (size_t i = 0; i < rows; i++)
        put_short_row(&list, nth_name(base + places[i], order == APART), i % 7 == 0 ? 0 : 1 + i % 3, i % 5);
    if (random_below(2))
        put_ending(&list, list.cells[0].name);
    ABOUT("%zu rows, order %d, rows %zu and %zu %s", rows, (int)order, one, another, repeated ? "of one name" : "of two");
}

/* A question to such a list: of its first rows, its last ones, or none. */
static void ask_rows(int repeated)
{
    size_t near = random_below(list.rows < 3 ? list.rows : 3), which = random_below(2) ? near : list.rows - 1 - near;
    uint64_t name = random_below(4) == 0 ? some_name() : list.cells[which].name;
    expect_answer(&list, name, 2, 2, repeated ? REFUSED_110 : answer_of(&list, name, 2, 2));
}

/* A name twice, at each pair of places of small lists and far apart in larger ones. */
static void repeats(void)
{
    for (size_t rows = 2; rows <= 12; rows++)
        for (size_t one = 0; one < rows; one++)
            for (size_t another = one + 1; another < rows; another++)
                for (int order = 0; order < ORDERS; order++) {
                    put_rows(rows, (enum order)order, 1, one, another);
                    ask_rows(1);
                }
    for (int i = 0; i < 400; i++) {
        size_t rows = 2 + random_below(i % 10 == 0 ? 3000 : 200), one = random_below(rows - 1), another = one + 1 + random_below(rows - 1 - one);
        if (i % 4 == 0)
            one = 0, another = rows - 1;
        put_rows(rows, (enum order)(i / 2 % ORDERS), i % 2, one, another);
        ask_rows(i % 2);
    }
    for (int at = 0; at < 8; at++) /* names that are equal in all but one character are two */
        for (const char *c = NAMES; *c; c++) {
            uint64_t name = some_name(), other = (name & ~((uint64_t)0xFF << 8 * at)) | (uint64_t)(uint8_t)*c << 8 * at;
            put_header(&list, HEADER);
            put_short_row(&list, name, 1, 0);
            put_short_row(&list, other, 2, 0);
            ABOUT("two names, the second with %c at %d", *c, at);
            expect_answer(&list, other, 1, 0, name == other ? REFUSED_110 : BEHIND);
        }
}

/* Lists of more rows than are looked at in one go: without a repeat, and with one across a border, within a part and at the ends. */
static void many(void)
{
    static const struct { size_t rows; enum order order; int repeated; size_t one, another; } rows[] = {
        {32768, SHUFFLED, 0, 0, 0},     {32768, SHUFFLED, 1, 0, 32767},     {32769, FALLING, 0, 0, 0},      {32769, FALLING, 1, 0, 32768},
        {32769, SHUFFLED, 1, 32767, 32768}, {33000, SHUFFLED, 0, 0, 0},     {33000, SHUFFLED, 1, 0, 32999}, {33000, APART, 1, 32768, 32999},
        {33000, RISING, 0, 0, 0},       {33000, RISING, 1, 0, 32999},       {65536, SHUFFLED, 1, 0, 65535}, {65537, FALLING, 1, 32768, 65536},
        {70000, SHUFFLED, 0, 0, 0},     {70000, SHUFFLED, 1, 0, 69999},     {70000, APART, 1, 32767, 65536}, {70000, APART, 1, 65536, 69999},
        {70000, FALLING, 1, 40000, 40001}, {70000, RISING, 1, 65535, 65536},
    };
    for (size_t i = 0; i < COUNT(rows); i++) {
        put_rows(rows[i].rows, rows[i].order, rows[i].repeated, rows[i].one, rows[i].another);
        expect_answer(&list, number_from("ZZZZZZZZ"), 1, 0, rows[i].repeated ? REFUSED_110 : NOT_LISTED);
        if (!rows[i].repeated)
            ask_rows(0);
    }
}

/* A header before one row. */
static void compare_header(const char *header, int good)
{
    put_header(&list, header);
    put_short_row(&list, number_from("GB50184C"), 5, 1);
    ABOUT("header %.140s", header);
    expect_answer(&list, number_from("GB50184C"), 5, 0, good ? BEHIND : REFUSED_12);
}

/* Each time, second, version and limit of a date; and headers with something too many or too few. */
static void headers(void)
{
    static const char *const bad[] = {
        "", "\r\n" HEADER, " " HEADER, "\xEF\xBB\xBF" HEADER, ":ENC\r\n", ":ECS\r\n",
        ":VERSION 2\r\n:CONTENT FULL\r\n:ENC\r\n",
        ":DATE 20240131 09:30\r\n:CONTENT FULL\r\n:ENC\r\n",
        ":DATE 20240131 09:30\r\n:VERSION 2\r\n:ENC\r\n",
        ":DATE 20240131 09:30\r\n:VERSION 2\r\n:CONTENT FULL\r\n",
        ":DATE 20240131 09:30\n:VERSION 2\n:CONTENT FULL\n:ENC\n",
        ":DATE 20240131 09:30\r:VERSION 2\r:CONTENT FULL\r:ENC\r",
        ":DATE 20240131 09:30\r\n:VERSION 2\r\n:CONTENT FULL\r\n:ENC\n",
        ":DATE 20240131 09:30\r\n:VERSION 2\r\n:CONTENT FULL\r\n:ENC\r",
        ":DATE 20240131 09:30\r\n:CONTENT FULL\r\n:VERSION 2\r\n:ENC\r\n",
        ":VERSION 2\r\n:DATE 20240131 09:30\r\n:CONTENT FULL\r\n:ENC\r\n",
        ":DATE 20240131 09:30\r\n\r\n:VERSION 2\r\n:CONTENT FULL\r\n:ENC\r\n",
        ":DATE 20240131 09:30\r\n:VERSION 2\r\n:CONTENT FULL\r\n\r\n:ENC\r\n",
        ":DATE 20240131 09:30\r\n:VERSION 2\r\n:CONTENT FULL\r\n:ENC \r\n",
        ":DATE 20240131 09:30\r\n:VERSION 2\r\n:CONTENT FULL\r\n :ENC\r\n",
        ":DATE 20240131 09:30\r\n:VERSION 2\r\n:CONTENT FULL\r\n:enc\r\n",
        ":DATE 20240131 09:30\r\n:VERSION 2\r\n:CONTENT FULL\r\n:ENC\r\r\n",
        ":DATE 20240131 09:30\r\n:VERSION 2\r\n:CONTENT FULL\r\n:ECS\r\n",
        ":DATE 20240131 09:30\r\n:VERSION 2\r\n:CONTENT FULL\r\n:ENC\r\n:ENC\r\n",
    };
    static const char *const dates[] = {"", " ", ":DATE", ":DATE ", ":DATE 20240131", ":DATE 20240131 ", ":DATE 20240131 09", ":DATE 20240131 09:",
                                        ":DATE 20240131 09:3", ":DATE 20240131 9:30", ":DATE 20240131 0930", ":DATE 20240131 09:30:",
                                        ":DATE 20240131 09:30:0", ":DATE 20240131 09:30:000", ":DATE 20240131 09:30:00:", ":DATE 20240131 09:30 00",
                                        ":DATE 20240131 09.30", ":DATE 20240131 09:30.00", ":DATE 20240131 093000", ":DATE 20240131 09:30 ",
                                        ":DATE 20240131 09:30:00 ", ":DATE 20240131  09:30", ":DATE  20240131 09:30", ":DATE20240131 09:30",
                                        ":DATE 2024013109:30", " :DATE 20240131 09:30", "DATE 20240131 09:30", ":Date 20240131 09:30",
                                        ":DATE\t20240131 09:30", ":DATE 2024131 09:30", ":DATE 20240131 09:3A", ":DATE 20240131 A9:30",
                                        ":DATE 20240131 09:30:0A", ":DATE 20240131 -9:30", ":DATE 20240131 09:30:-1", ":DATE 20240131,09:30",
                                        ":DATE 20240131 09:30Z", ":DATE 20240131 09:30:00Z"};
    static const char *const versions[] = {"", ":VERSION", ":VERSION ", ":VERSION 0", ":VERSION 00", ":VERSION 01", ":VERSION 09", ":VERSION 001",
                                           ":VERSION 100", ":VERSION 999", ":VERSION 1.1", ":VERSION 2 ", ":VERSION  2", ":VERSION2", ":VERSION A",
                                           ":VERSION 1A", ":VERSION -1", ":VERSION +1", ":VERSION /", ":VERSION :", ":VERSION 1:", ":VERSION 1/",
                                           ":version 2", " :VERSION 2", ":VERSION 2,", ":VERSION 4294967298"};
    static const char *const contents[] = {"", ":CONTENT", ":CONTENT ", ":CONTENT full", ":CONTENT FUL", ":CONTENT FULLL", ":CONTENT FULL ", ":CONTENT  FULL",
                                           ":CONTENTFULL", ":CONTENT PART", ":CONTENT PARTIA", ":CONTENT PARTIALL", ":CONTENT PARTIAL ",
                                           ":CONTENT FULLPARTIAL", ":CONTENT EMPTY", ":CONTENT \"FULL\"", ":content FULL", " :CONTENT FULL", ":CONTENT UPDATE"};
    char header[160];
    for (size_t i = 0; i < COUNT(bad); i++)
        compare_header(bad[i], 0);
    for (size_t i = 0; i < COUNT(dates) + COUNT(versions) + COUNT(contents); i++) {
        const char *date = i < COUNT(dates) ? dates[i] : ":DATE 20240131 09:30", *version = ":VERSION 2", *content = ":CONTENT PARTIAL";
        if (i >= COUNT(dates) && i < COUNT(dates) + COUNT(versions))
            version = versions[i - COUNT(dates)];
        if (i >= COUNT(dates) + COUNT(versions))
            content = contents[i - COUNT(dates) - COUNT(versions)];
        snprintf(header, sizeof header, "%s\r\n%s\r\n%s\r\n:ENC\r\n", date, version, content);
        compare_header(header, 0);
    }
    for (int version = 0; version <= 120; version++) {
        snprintf(header, sizeof header, ":DATE 20240131 09:30:59\r\n:VERSION %d\r\n:CONTENT PARTIAL\r\n:ENC\r\n", version);
        compare_header(header, version >= 1 && version <= 99);
    }
    for (int time = 0; time < 10000; time++) {
        int seconds = (int)random_below(100);
        snprintf(header, sizeof header, ":DATE 20240131 %02d:%02d:%02d\r\n:VERSION 2\r\n:CONTENT FULL\r\n:ENC\r\n", time / 100, time % 100, seconds);
        compare_header(header, time / 100 < 24 && time % 100 < 60 && seconds < 60);
        snprintf(header, sizeof header, ":DATE 20240131 %02d:%02d\r\n:VERSION 2\r\n:CONTENT FULL\r\n:ENC\r\n", time / 100, time % 100);
        compare_header(header, time / 100 < 24 && time % 100 < 60);
    }
    for (size_t i = 0; i < COUNT(limit_dates) + COUNT(no_dates); i++) {
        uint32_t date = i < COUNT(limit_dates) ? limit_dates[i] : no_dates[i - COUNT(limit_dates)];
        snprintf(header, sizeof header, ":DATE %08" PRIu32 " 00:00%s\r\n:VERSION 2\r\n:CONTENT FULL\r\n:ENC\r\n", date, i % 2 ? "" : ":00");
        compare_header(header, i < COUNT(limit_dates));
    }
}

/* What follows the header. */
static void ends(void)
{
#define ROW "GB50184C.000,20240131,5,,1,,,,,,,,,,,"
#define OTHER "NO4D0613.000,20240131,5,,,,,,,,,,,,,"
    static const struct { const char *rest; enum answer answer; } rows[] = {
        {"", NOT_LISTED},                         {":ECS", NOT_LISTED},                    {":ECS\r\n", NOT_LISTED},
        {":ECS\r\n" ROW "\r\n", NOT_LISTED},      {":ECS\r\nx", NOT_LISTED},               {":ECS\r\n\r\n", NOT_LISTED},
        {ROW "\r\n", BEHIND},                     {ROW "\r\n:ECS", BEHIND},                {ROW "\r\n:ECS\r\n", BEHIND},
        {ROW "\r\n:ECS\r\n" ROW "\r\n", BEHIND},  {ROW "\r\n:ECS\r\nx", BEHIND},           {ROW "\r\n:ECS\r\n\r", BEHIND},
        {OTHER "\r\n:ECS\r\n" ROW, NOT_LISTED},   {OTHER "\r\n" ROW "\r\n", BEHIND},       {ROW "\r\n:ECS\r\n:ECS\r\n:ENC\r\n" ROW, BEHIND},
        {ROW, REFUSED_12},                        {ROW "\r", REFUSED_12},                  {ROW "\n", REFUSED_12},
        {ROW "\r\r\n", REFUSED_12},               {ROW "\n\r\n", REFUSED_12},              {"\r\n" ROW "\r\n", REFUSED_12},
        {ROW "\r\n\r\n", REFUSED_12},             {ROW "\r\n\r\n:ECS", REFUSED_12},        {ROW "\r\n\n", REFUSED_12},
        {ROW "\r\n\r", REFUSED_12},               {ROW "\r\n ", REFUSED_12},               {ROW "\r\n\x1A", REFUSED_12},
        {ROW "\r\n" ROW, REFUSED_12},             {ROW "\r\n" OTHER, REFUSED_12},          {ROW "\r\n" ROW "\r\nx\r\n", REFUSED_12},
        {ROW "\r\n" ROW "\r\n", REFUSED_110},     {ROW "\r\n" ROW "\r\n:ECS", REFUSED_110}, {ROW "\r\n" OTHER "\r\n" ROW "\r\n", REFUSED_110},
        {ROW "\n" OTHER "\r\n", REFUSED_12},      {ROW "\r" OTHER "\r\n", REFUSED_12},     {ROW "\n\r" OTHER "\r\n", REFUSED_12},
        {ROW " \r\n", BEHIND},                    {ROW "   \r\n:ECS", BEHIND},             {" " ROW "\r\n", REFUSED_12},
        {ROW ":ECS\r\n", BEHIND},                 {ROW "\r\n:ECS ", REFUSED_12},           {ROW "\r\n:ECS \r\n", REFUSED_12},
        {ROW "\r\n:ECS\r", REFUSED_12},           {ROW "\r\n:ECS\n", REFUSED_12},          {ROW "\r\n:ECS\r\r\n", REFUSED_12},
        {ROW "\r\n:ECS\n\r\n", REFUSED_12},       {ROW "\r\n:ECS\rx", REFUSED_12},         {ROW "\r\n:ECS:ECS\r\n", REFUSED_12},
        {ROW "\r\n:EC", REFUSED_12},              {ROW "\r\n:EC\r\n", REFUSED_12},         {ROW "\r\n:ECSS\r\n", REFUSED_12},
        {ROW "\r\n:ecs\r\n", REFUSED_12},         {ROW "\r\n ECS\r\n", REFUSED_12},        {ROW "\r\n :ECS\r\n", REFUSED_12},
        {ROW "\r\nECS\r\n", REFUSED_12},          {ROW "\r\n:\r\n", REFUSED_12},           {ROW "\r\n:", REFUSED_12},
        {ROW "\r\n:ENC\r\n", REFUSED_12},         {ROW "\r\n:DATE 20240131 09:30\r\n", REFUSED_12}, {":ENC\r\n" ROW "\r\n", REFUSED_12},
        {":" ROW "\r\n", REFUSED_12},             {ROW "\r\n:ECS,\r\n", REFUSED_12},       {ROW "\r\n" HEADER ROW "\r\n", REFUSED_12},
    };
    for (size_t i = 0; i < COUNT(rows); i++)
        for (int header = 0; header < 3; header++) {
            if (header == 0)
                put_header(&list, HEADER);
            else
                some_header(&list);
            put_words(&list, rows[i].rest);
            ABOUT("end of kind %zu", i);
            expect_answer(&list, number_from("GB50184C"), 5, 0, rows[i].answer);
        }
}

/* Random bytes after :ECS change nothing; neither do more than 32 bits can count. */
static void beyond(void)
{
    uint64_t name;
    for (int i = 0; i < 3000; i++) {
        row r;
        some_header(&list);
        for (size_t n = random_below(4); n > 0; n--) {
            some_row(&r, absent_name(&list), some_count());
            put_row(&list, &r);
        }
        name = list.rows > 0 && random_below(4) ? list.cells[random_below(list.rows)].name : some_name();
        put_words(&list, ":ECS\r\n");
        size_t more = random_below(200);
        random_bytes(list.bytes + list.length, more);
        for (size_t n = 0; n < more && i % 2; n++) /* or of what rows are made of */
            list.bytes[list.length + n] = (uint8_t)PICK("0A.,:\r\n\r\n");
        list.length += more;
        ABOUT("%zu bytes after :ECS, list %d", more, i);
        expect_answer(&list, name, 5, 5, answer_of(&list, name, 5, 5));
    }
    const size_t size = ((size_t)1 << 32) + 1000;
    uint8_t *map = mmap(NULL, size, PROT_READ | PROT_WRITE, MAP_PRIVATE | MAP_ANONYMOUS | MAP_NORESERVE, -1, 0);
    same(map != MAP_FAILED, 1, "a map of %zu bytes", size);
    if (map == MAP_FAILED)
        return;
    put_header(&list, HEADER ROW "\r\n:ECS\r\n");
    memcpy(map, list.bytes, list.length);
    lambukir_standing got = lambukir_product_standing(map, size, number_from("GB50184C"), 5, 0);
    same(got.number, 27, "a list of more bytes than 32 bits can count: number");
    same(got.standing, 1, "a list of more bytes than 32 bits can count: standing");
    munmap(map, size);
}

static void *ask_in_thread(void *number)
{
    *(uint32_t *)number = lambukir_product_standing(list.bytes, list.length, list.cells[0].name, 999, 999).number;
    return NULL;
}

/* In a thread whose stack is no larger than the header asks for. */
static void stack(void)
{
    static const size_t rows[] = {1, 10000, 33000};
    for (size_t i = 0; i < COUNT(rows) * 2; i++) {
        pthread_attr_t small;
        pthread_t thread;
        uint32_t number = UINT32_MAX;
        put_rows(rows[i / 2], SHUFFLED, i % 2, 0, rows[i / 2] - 1);
        same((uint64_t)pthread_attr_init(&small), 0, "attributes of a thread");
        same((uint64_t)pthread_attr_setstacksize(&small, STACK), 0, "a thread with a stack of %d bytes", STACK);
        int failed = pthread_create(&thread, &small, ask_in_thread, &number);
        same((uint64_t)failed, 0, "a thread");
        if (!failed)
            pthread_join(thread, NULL);
        pthread_attr_destroy(&small);
        expect(number, i % 2 && rows[i / 2] > 1 ? 110 : 0);
    }
}

int main(int argc, char **argv)
{
    static const subject subjects[] = {
        {"products-stored", stored},
        {"products-lists", lists},
        {"products-damaged", damaged},
        {"products-fields", fields},
        {"products-counts", counts},
        {"products-numbers", numbers},
        {"products-long-fields", long_fields},
        {"products-cut", cut},
        {"products-given", given},
        {"products-refusals", refusals},
        {"products-repeats", repeats},
        {"products-many", many},
        {"products-headers", headers},
        {"products-ends", ends},
        {"products-beyond", beyond},
        {"products-stack", stack},
    };
    seed_random();
    return run_subjects(subjects, COUNT(subjects), argc, argv);
}
