/* Books of version 1 carried over: one written down by hand, undamaged ones of every size, damaged ones, second buffers of other lengths, and desks that are
   carried over before or after any of their calls. Against the model, and against what the rules say of each case. */
#define _DEFAULT_SOURCE
#include <sys/mman.h>

#include "books.h"

#define BOOK_1 LAMBUKIR_BOOK_SIZE_1
#define RECORD_SIZE_1 24
#define NEW_ROOM (2 * BOOK + 64)

static uint8_t old[BOOK_1 + BOOK_ROOM - BOOK], spoilt_old[sizeof old]; /* a book of version 1, whose lists are the lists; and a changed copy */
static uint8_t carried[NEW_ROOM];                                       /* what the second buffer held after the last carry-over */
static uint8_t any[2 * NEW_ROOM];                                       /* bytes of any kind, to be written over */
static uint32_t given[NUMBERS];                                         /* how often each number was */

/* One carry-over by both, into bytes of any kind. */
static uint32_t compare_carry(const uint8_t *from, size_t length, size_t new_length)
{
    static uint8_t theirs[NEW_ROOM];
    const uint8_t *before = any + random_below(NEW_ROOM);
    memcpy(theirs, before, new_length);
    lent b = lend(from, length, random_below(16)), n = lend(before, new_length, random_below(16));
    uint32_t number = lambukir_carry_over(b.bytes, length, n.bytes, new_length);
    same(number, model_carry_over(from, length, theirs, new_length), "%s: number", about);
    same_kept(&b, "book of version 1");
    memcpy(carried, n.bytes, new_length);
    same_out(&n, theirs, number == 0 ? new_length : 0);
    given[number % NUMBERS]++;
    return number;
}

static void expect_given(uint32_t number, uint32_t least)
{
    same(given[number] >= least, 1, "%" PRIu32 " came up %" PRIu32 " times", number, given[number]);
}

#define SETTINGS_BY_HAND                                                                                    \
    0, 2, 30, 'N', 'O', 0, 0, 1, 90, 'D', 'E', 0, 0, 0, 1, 'N', '2', 1, 1, 2, 31, '0', '3', 0,              \
    0, 0, 30, '0', '4', 0, 0, 0, 30, '0', '5', 0, 0, 0, 30, '0', '6', 0, 0, 0, 30, '0', '7', 0,             \
    0, 0, 30, '0', '8', 0, 0, 0, 30, '0', '9', 0, 0, 0, 30, 'A', 'A', 0, 0, 0, 30, 'A', 'B', 0,             \
    0, 0, 30, 'A', 'C', 0, 0, 0, 30, 'A', 'D', 0, 0, 0, 30, 'A', 'E', 0, 0, 9, 30, 'Z', 'Z', 0
#define FIRST_BY_HAND 0, 'N', 'O', '4', 'D', '0', '6', '1', '3', 3, 231, 193, 203, 81, 142, 156, 66, 21, 113, 204, 102, 0, 0, 0
#define SECOND_BY_HAND 3, 'D', 'E', '4', '1', '6', '0', '8', '0', 0, 1, 1, 2, 3, 4, 5, 255, 254, 253, 252, 251, 0, 0, 0

/* Version, used length, settings, two records: the third tenant is a branch of the first. */
static void worked(void)
{
    static const uint8_t before[] = {1, 0, 0, 0, 149, SETTINGS_BY_HAND, FIRST_BY_HAND, SECOND_BY_HAND};
    static const uint8_t after[] = {2, 0, 0, 0, 157, SETTINGS_BY_HAND, FIRST_BY_HAND, 0, 0, 0, 0, SECOND_BY_HAND, 0, 0, 0, 0};
    ABOUT("the book of version 1 written down by hand");
    memset(old, 0, BOOK_1);
    memcpy(old, before, sizeof before);
    expect(compare_carry(old, BOOK_1, BOOK), 0);
    same((uint64_t)memcmp(carried, after, sizeof after), 0, "%s: the used bytes", about);
    for (size_t at = sizeof after; at < BOOK; at++)
        same(carried[at], 0, "%s: byte %zu", about, at);
    same(lambukir_ask_edition(carried, BOOK, 2, number_from("NO4D0613")).edition, 999, "%s: the branch's edition", about);
    same(lambukir_ask_edition(carried, BOOK, 3, number_from("DE416080")).edition, 1, "%s: edition", about);
    expect(lambukir_ask_edition(old, BOOK_1, 3, number_from("DE416080")).number, 101);
    expect(compare_carry(carried, BOOK, BOOK), 101);
    expect(compare_carry(old, BOOK_1, BOOK_1), 108);
}

/* A book of version 1 with so many records, and its lists; `book` is what it must become. */
static void some_old_book(uint32_t records, uint32_t quotas_sum)
{
    some_book(records, quotas_sum);
    memset(old, 0, sizeof old);
    model_bytes_of(&model_version_1, &lists, old);
    model_lists_of(&model_version_1, old, &lists);
    model_bytes_of_book(&lists, book);
}

/* The new book byte by byte: the old one's settings, its records with four zeros behind each, and zeros. */
static void same_parts(size_t records)
{
    static const uint8_t zeros[BOOK];
    size_t used = RECORDS + records * RECORD_SIZE;
    const uint8_t start[] = {2, 0, 0, (uint8_t)(used >> 8), (uint8_t)used};
    same((uint64_t)memcmp(carried, start, sizeof start), 0, "%s: version and used length", about);
    same((uint64_t)memcmp(carried + SETTINGS, old + SETTINGS, TENANTS * SETTING), 0, "%s: settings", about);
    for (size_t n = 0; n < records; n++) {
        const uint8_t *r = carried + RECORDS + n * RECORD_SIZE;
        same((uint64_t)memcmp(r, old + RECORDS + n * RECORD_SIZE_1, RECORD_SIZE_1), 0, "%s: record %zu", about, n);
        same((uint64_t)memcmp(r + LAST_EXPIRY_AT, zeros, RECORD_SIZE - LAST_EXPIRY_AT), 0, "%s: last expiry of record %zu", about, n);
    }
    same((uint64_t)memcmp(carried + used, zeros, BOOK - used), 0, "%s: the bytes past the used length", about);
    same((uint64_t)model_is_book(carried, BOOK), 1, "%s: undamaged by the model", about);
}

/* Undamaged books of every size, with branches, with room left and without. */
static void books(void)
{
    for (uint32_t records = 0; records <= MOST; records++)
        for (int round = 0; round < 6; round++) {
            some_old_book(records, round == 0 ? records : records + (uint32_t)random_below(MOST - records + 1));
            ABOUT("undamaged, %" PRIu32 " records, round %d", records, round);
            expect(compare_carry(old, BOOK_1, BOOK), 0);
            same_parts(records);
        }
}

/* One byte as another value. */
static void change_byte(size_t at, uint8_t value)
{
    if (old[at] == value)
        return;
    memcpy(spoilt_old, old, BOOK_1);
    spoilt_old[at] = value;
    ABOUT("byte %zu as %02X of a book with %zu records", at, value, record_count());
    expect(compare_carry(spoilt_old, BOOK_1, BOOK), model_is_book_of(&model_version_1, spoilt_old, BOOK_1) ? 0 : 101);
}

/* Every byte of an empty, a half-full and a full book. */
static void bytes(void)
{
    memset(given, 0, sizeof given);
    for (uint32_t records = 0; records <= MOST; records += MOST / 2) {
        some_old_book(records, MOST);
        for (size_t at = 0; at < BOOK_1; at++) {
            change_byte(at, (uint8_t)(old[at] + 1));
            change_byte(at, 255);
            change_byte(at, (uint8_t)random64());
            if (at >= RECORDS + records * RECORD_SIZE_1)
                continue;
            change_byte(at, 0);
            change_byte(at, (uint8_t)(old[at] - 1));
            change_byte(at, old[at] ^ 0x20);
        }
        for (unsigned version = 0; version < 256; version++)
            change_byte(0, (uint8_t)version);
    }
    expect_given(0, 1000);
    expect_given(101, 1000);
}

/* A book with one rule broken, for each rule in turn; the second buffer's length does not matter then. */
static void broken(void)
{
    for (int i = 0; i < 20000; i++) {
        if (i % 200 == 0)
            some_old_book(i % 400 ? MOST : 2 + (uint32_t)random_below(MOST - 2), MOST);
        memcpy(spoilt_old, old, sizeof old);
        size_t length = spoil_book(spoilt_old, &model_version_1);
        ABOUT("rule of version 1 broken %d", i);
        expect(compare_carry(spoilt_old, length, random_below(4) ? BOOK : random_below(NEW_ROOM)), 101);
    }
}

/* Every used length but the right one, in books whose last record ends with zeros. */
static void used_lengths(void)
{
    for (uint32_t records = 0; records <= MOST; records += MOST / 4) {
        some_old_book(records, MOST);
        uint32_t right = RECORDS + records * RECORD_SIZE_1;
        if (records > 0)
            memset(old + right - 4, 0, 4);
        for (uint32_t used = 0; used <= BOOK + 300; used++) {
            memcpy(spoilt_old, old, BOOK_1);
            put32(spoilt_old + 1, used);
            ABOUT("used length %" PRIu32 " with %" PRIu32 " records", used, records);
            expect(compare_carry(spoilt_old, BOOK_1, BOOK), used == right ? 0 : 101);
        }
    }
}

/* Buffers of more bytes than 32 bits can count, the first and the second. */
static void huge_buffers(void)
{
    size_t more = (size_t)1 << 32;
    uint8_t *map = mmap(NULL, more + BOOK, PROT_READ | PROT_WRITE, MAP_PRIVATE | MAP_ANONYMOUS | MAP_NORESERVE, -1, 0);
    same(map != MAP_FAILED, 1, "a map of %zu bytes", more + BOOK);
    if (map == MAP_FAILED)
        return;
    ABOUT("a second buffer that 32 bits cannot count");
    expect(lambukir_carry_over(old, BOOK_1, map, more + BOOK), 108);
    for (size_t at = 0; at < BOOK; at++)
        same(map[at], 0, "%s: byte %zu", about, at);
    ABOUT("a book that 32 bits cannot count");
    memcpy(map, old, BOOK_1);
    expect(lambukir_carry_over(map, more + BOOK_1, carried, BOOK), 101);
    munmap(map, more + BOOK);
}

/* Second buffers of each length near the right one, and of some far away, for an undamaged book and for a damaged one; and each length of the first. */
static void lengths(void)
{
    static const size_t far[] = {0, 1, 4, 5, 28, 100, 101, 129, 4096, 12388, BOOK_1, 12390, 12393, 16384, 2 * BOOK, NEW_ROOM};
    some_old_book(MOST, MOST);
    memcpy(spoilt_old, old, sizeof old);
    spoilt_old[BOOK_1 - 1] = 1;
    for (size_t i = 0; i < 1201 + COUNT(far); i++) {
        size_t length = i < 1201 ? BOOK - 600 + i : far[i - 1201];
        ABOUT("a second buffer of %zu bytes", length);
        expect(compare_carry(old, BOOK_1, length), length == BOOK ? 0 : 108);
        expect(compare_carry(spoilt_old, BOOK_1, length), 101);
        expect(compare_carry(old, BOOK_1 - 1, length), 101);
    }
    for (size_t length = 0; length <= sizeof old; length++) {
        ABOUT("a book of %zu bytes", length);
        expect(compare_carry(old, length, BOOK), length == BOOK_1 ? 0 : 101);
        expect(compare_carry(old, length, BOOK - 1), length == BOOK_1 ? 108 : 101);
    }
    huge_buffers();
}

/* Every call but the carry-over, on these bytes. */
static void compare_others(uint8_t *b, size_t length)
{
    for (int kind = 0; kind < KINDS; kind++) {
        call c = some_call(kind, (uint32_t)random_below(TENANTS), some_name());
        if (model_is_book(b, length))
            model_book_of_bytes(b, &changed);
        compare_call(b, length, &changed, &c);
    }
}

/* A book of one version for the calls of the other: as it is; cut, or filled up with zeros, to the other's length; and with the other's first byte. */
static void versions(void)
{
    for (int i = 0; i < 400; i++) {
        uint32_t records = i % 4 == 0 ? 0 : (uint32_t)random_below(MOST + 1);
        some_old_book(records, MOST);
        ABOUT("version 1 for the calls of version 2, %" PRIu32 " records", records);
        for (int kind = 0; kind < KINDS; kind++) {
            call c = some_call(kind, (uint32_t)random_below(TENANTS), some_name());
            expect(compare_call(old, BOOK_1, &changed, &c).number, 101);
        }
        expect(compare_open_book(old, BOOK_1, quotas, TENANTS, ids, sizeof ids, principals, TENANTS, &changed), 101);
        for (uint8_t version = 1; version <= 2; version++) {
            ABOUT("version 1 with the first byte %d, %" PRIu32 " records", version, records);
            memset(copy, 0, sizeof copy);
            memcpy(copy, old, BOOK_1);
            copy[0] = version;
            compare_others(copy, BOOK_1);
            compare_others(copy, BOOK);
            ABOUT("version 2 with the first byte %d, %" PRIu32 " records", version, records);
            memcpy(copy, book, BOOK);
            copy[0] = version;
            expect(compare_carry(copy, BOOK, BOOK), 101);
            compare_carry(copy, BOOK_1, BOOK);
        }
    }
}

/* A call on a desk of version 1 that the model keeps. */
static answer old_answer(const call *c)
{
    model_lists_of(&model_version_1, old, &lists);
    answer a = their_answer(&lists, c);
    model_bytes_of(&model_version_1, &lists, old);
    return a;
}

/* A call as a desk of version 1 may get it, now and then spoilt: it gives no last expiry. */
static call old_call(const uint32_t tenants[4], const uint64_t names[6])
{
    call c = some_call((int)random_below(KINDS), tenants[random_below(4)], names[random_below(6)]);
    if (random_below(6) == 0)
        spoil(&c, orders_of[c.kind][1 + random_below(9)]);
    c.last_expiry = 0;
    return c;
}

/* A desk is carried over, and goes on by the library as it would have by version 1's rules: each call gives the same answer, and the desk that is carried
   over after it is the same to the last byte. */
static void go_on(int which)
{
    uint32_t tenants[4];
    uint64_t names[6];
    for (size_t i = 0; i < COUNT(tenants); i++)
        tenants[i] = (uint32_t)random_below(TENANTS);
    if (is_branch(tenants[0]))
        tenants[1] = reads(tenants[0]);
    for (size_t i = 0; i < COUNT(names); i++)
        names[i] = cells_of(tenants[i % 4]) > 0 && i % 2 ? held_name(tenants[i % 4]) : absent_name(tenants[i % 4]);
    ABOUT("desk %d", which);
    expect(compare_carry(old, BOOK_1, BOOK), 0);
    memcpy(copy, carried, BOOK);
    for (int n = 0; n < 40; n++) {
        call c = old_call(tenants, names);
        ABOUT("desk %d, call %d: %s", which, n, kind_names[c.kind]);
        answer ours = run_ours(copy, BOOK, &c), theirs = old_answer(&c);
        same_answer(&ours, &theirs);
        expect(compare_carry(old, BOOK_1, BOOK), 0);
        same((uint64_t)memcmp(copy, carried, BOOK), 0, "%s: the book, against what is carried over after it", about);
        if (ours.number < NUMBERS)
            seen[c.kind][ours.number]++;
    }
}

static void desks(void)
{
    memset(seen, 0, sizeof seen);
    for (int i = 0; i < 600; i++) {
        some_old_book(i % 3 == 0 ? 0 : i % 3 == 1 ? MOST : (uint32_t)random_below(64), i % 3 == 1 ? MOST : 64);
        go_on(i);
    }
    for (int kind = 0; kind < KINDS; kind++)
        for (const uint32_t *number = orders_of[kind] + 1; *number != 0 && *number != 112; number++)
            same(seen[kind][*number] >= 20, 1, "%s: %" PRIu32 " came up %" PRIu32 " times", kind_names[kind], *number, seen[kind][*number]);
    same(seen[ISSUE][112], 0, "issue: 112, which version 1 did not have");
}

int main(int argc, char **argv)
{
    static const subject subjects[] = {
        {"carrying-worked", worked},
        {"carrying-books", books},
        {"carrying-bytes", bytes},
        {"carrying-broken", broken},
        {"carrying-used-lengths", used_lengths},
        {"carrying-lengths", lengths},
        {"carrying-versions", versions},
        {"carrying-desks", desks},
    };
    seed_random();
    make_materials();
    random_bytes(any, sizeof any);
    return run_subjects(subjects, COUNT(subjects), argc, argv);
}
