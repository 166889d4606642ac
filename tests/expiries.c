/* Last expiries: one written down by hand, expiries on all sides of the last one, and every kind of number in the place of a date. Against the model, and
   against what the rules say of each case. */
#include "books.h"

/* The number of an issue by the library. */
static uint32_t issued(uint32_t tenant, uint64_t name, uint32_t expiry, uint32_t level)
{
    call c = some_call(ISSUE, tenant, name);
    c.expiry = expiry;
    c.level = level;
    return run_ours(book, BOOK, &c).number;
}

/* Issues at both levels, by Oslo and by its branch. */
static void expect_issued(uint64_t name, uint32_t expiry, uint32_t number)
{
    for (uint32_t level = 0; level < 2; level++) {
        expect(issued(3, name, expiry, level), number);
        expect(issued(7, name, expiry, level), number);
    }
}

/* Oslo may sell NO4D0613 until 20250630, and so may its branch; NO4D0614 for ever. */
static void worked(void)
{
    static const uint16_t given[TENANTS] = {[3] = 2, [4] = 1};
    static const uint8_t named[TENANTS] = {[7] = 4};
    const uint64_t name = number_from("NO4D0613"), other = number_from("NO4D0614");
    ABOUT("a last expiry written down by hand");
    expect(lambukir_open_book(book, BOOK, given, TENANTS, (const uint8_t *)"GBGBGBNOGBGBGBN7GBGBGBGBGBGBGBGB", 32, named, TENANTS), 0);
    expect(lambukir_enter(book, BOOK, 3, name, 9, 1, 2, 20250630), 0);
    expect(lambukir_enter(book, BOOK, 3, other, 9, 1, 2, 0), 0);
    expect(lambukir_enter(book, BOOK, 4, name, 9, 1, 2, 20250701), 0);
    expect_issued(name, 20250629, 0);
    expect_issued(name, 20250630, 0);
    expect_issued(name, 20250701, 112);
    expect_issued(name, 19000101, 0);
    expect_issued(name, 29991231, 112);
    expect_issued(other, 20250701, 0);
    expect_issued(other, 29991231, 0);
    expect(issued(4, name, 20250701, 0), 0); /* its own cell of that name */
    expect_issued(name, 20250631, 103);
    expect_issued(number_from("NO4D0615"), 20250701, 104);
    expect(lambukir_enter(book, BOOK, 3, name, 10, 1, 2, 20250631), 103);
    expect(lambukir_enter(book, BOOK, 3, name, 10, 1, 2, 1), 103);
    expect_issued(name, 20250701, 112);
    expect(lambukir_enter(book, BOOK, 3, name, 10, 1, 2, 0), 0);
    expect_issued(name, 20250701, 0);
    expect_issued(name, 29991231, 0);
    expect(lambukir_house_enter(book, BOOK, 3, name, 10, 1, 2, 20250629).number, 0);
    expect_issued(name, 20250630, 112);
    expect(lambukir_withdraw(book, BOOK, 3, name), 0);
    expect_issued(name, 20250630, 104);
    expect(lambukir_enter(book, BOOK, 3, name, 10, 1, 2, 0), 0);
    expect_issued(name, 20250630, 0);
}

/* A full book of eight tenants, each with a branch. */
static void fill_with_branches(void)
{
    for (size_t t = 0; t < TENANTS; t++) {
        quotas[t] = t < TENANTS / 2 ? MOST / (TENANTS / 2) : 0;
        principals[t] = (uint8_t)(t < TENANTS / 2 ? 0 : t - TENANTS / 2 + 1);
    }
    fill_book(MOST);
}

/* A tenant with cells to sell, its own or its principal's. */
static uint32_t some_seller(void)
{
    uint32_t tenant = (uint32_t)random_below(TENANTS);
    while (cells_of(tenant) == 0)
        tenant = (tenant + 1) % TENANTS;
    return tenant;
}

/* A held cell gets a last expiry, and is issued for an expiry. */
static void issue_between(uint32_t last, uint32_t expiry, uint32_t level)
{
    uint32_t tenant = some_seller();
    uint64_t name = held_name(tenant);
    call entered = some_call(random_below(2) ? ENTER : HOUSE_ENTER, reads(tenant), name), c = some_call(ISSUE, tenant, name);
    ABOUT("last expiry %" PRIu32 ", issued until %" PRIu32 " at level %" PRIu32, last, expiry, level);
    entered.last_expiry = last;
    c.expiry = expiry;
    c.level = level;
    expect(compare_call(book, BOOK, &lists, &entered).number, 0);
    expect(compare_call(book, BOOK, &lists, &c).number, last != 0 && expiry > last ? 112 : 0);
}

/* Each limit of the calendar as the last expiry, none too; for these, the next day, and any date. */
static void around(void)
{
    fill_with_branches();
    for (size_t i = 0; i <= COUNT(limit_dates); i++)
        for (size_t j = 0; j < COUNT(limit_dates); j++)
            for (uint32_t level = 0; level < 2; level++) {
                uint32_t last = i < COUNT(limit_dates) ? limit_dates[i] : 0;
                issue_between(last, limit_dates[j], level);
                issue_between(last, day_after(limit_dates[j]), level);
                issue_between(day_after(limit_dates[j]), limit_dates[j], level);
                issue_between(some_last_expiry(), some_date(), level);
            }
}

/* A call on a full book in which one record or a few in a row have a number as the last expiry. */
static void compare_records(uint32_t number, size_t first)
{
    uint32_t tenant = some_seller();
    call c = some_call((int)random_below(KINDS), tenant, held_name(tenant));
    size_t after = first + 1 + random_below(4);
    ABOUT("%" PRIu32 " as the last expiry of records %zu to %zu: %s", number, first, after - 1, kind_names[c.kind]);
    memcpy(copy, book, BOOK);
    for (size_t n = first; n < after && n < MOST; n++)
        put32(copy + RECORDS + n * RECORD_SIZE + LAST_EXPIRY_AT, number);
    if (model_is_book(copy, BOOK))
        model_book_of_bytes(copy, &changed);
    compare_call(copy, BOOK, &changed, &c);
}

/* A number as the last expiry: of a cell that is entered again, and of records at the book's start, at its end and anywhere. */
static void compare_number(uint32_t number)
{
    uint32_t tenant = some_seller();
    call c = some_call(random_below(2) ? ENTER : HOUSE_ENTER, tenant, held_name(tenant));
    ABOUT("%" PRIu32 " as the last expiry of an entered cell", number);
    c.last_expiry = number;
    compare_call(book, BOOK, &lists, &c);
    compare_records(number, 0);
    compare_records(number, random_below(MOST));
    compare_records(number, MOST - 1);
}

/* Every month and day of some years, those that there are and others; and numbers that share many bits with a date, or only the lower ones. */
static void numbers(void)
{
    static const uint32_t years[] = {0, 1, 1000, 1899, 1900, 1904, 1999, 2000, 2023, 2024, 2100, 2400, 2999, 3000, 9999};
    memset(seen, 0, sizeof seen);
    fill_with_branches();
    for (size_t y = 0; y < COUNT(years); y++)
        for (uint32_t month = 0; month < 14; month++)
            for (uint32_t day = 0; day <= 40; day++)
                compare_number(years[y] * 10000 + month * 100 + day);
    for (size_t i = 0; i < COUNT(limit_dates); i++)
        for (int bit = 0; bit < 32; bit++)
            compare_number(limit_dates[i] ^ (uint32_t)1 << bit);
    for (size_t i = 0; i < COUNT(longer_no_dates); i++)
        compare_number(longer_no_dates[i]);
    for (int bit = 0; bit < 32; bit++)
        compare_number((uint32_t)1 << bit);
    for (int kind = 0; kind < KINDS; kind++)
        same(seen[kind][101] >= 50, 1, "%s: 101 came up %" PRIu32 " times", kind_names[kind], seen[kind][101]);
    same(seen[ENTER][0] >= 50 && seen[ENTER][103] >= 50, 1, "enter: 0 and 103 came up");
}

/* Two books that differ in their last expiries alone answer every call alike, but for an issue that one of them refuses with 112. */
static void unseen(void)
{
    memset(seen, 0, sizeof seen);
    for (int i = 0; i < 6000; i++) {
        if (i % 20 == 0) {
            some_book(i % 40 ? MOST : 40, MOST);
            changed = lists;
            for (size_t t = 0; t < TENANTS; t++)
                for (size_t n = 0; n < lists.tenants[t].held; n++)
                    changed.tenants[t].cells[n].last_expiry = some_last_expiry();
            model_bytes_of_book(&changed, copy);
        }
        uint32_t tenant = some_seller();
        call c = some_call(i % KINDS, tenant, random_below(4) ? held_name(tenant) : absent_name(tenant));
        ABOUT("other last expiries, call %d: %s", i, kind_names[c.kind]);
        answer one = compare_call(book, BOOK, &lists, &c), two = compare_call(copy, BOOK, &changed, &c);
        if (c.kind != ISSUE || (one.number != 112 && two.number != 112))
            same_answer(&one, &two);
    }
    same(seen[ISSUE][112] >= 50 && seen[ISSUE][0] >= 50, 1, "issue: 0 and 112 came up");
}

int main(int argc, char **argv)
{
    static const subject subjects[] = {
        {"expiries-worked", worked},
        {"expiries-around", around},
        {"expiries-numbers", numbers},
        {"expiries-unseen", unseen},
    };
    seed_random();
    make_materials();
    return run_subjects(subjects, COUNT(subjects), argc, argv);
}
