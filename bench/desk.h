/* The calls on a book, ours and by hand: a full book for those that read, one that is full of one tenant's cells, which fifteen branches read, one with
   room for one record for entering and withdrawing, one with a new date in each record, and one of version 1. */
#ifndef DESK_H
#define DESK_H

#include "book.h"
#include "permits.h"

#define QUOTA (MOST_RECORDS / TENANTS)
#define ROOMY 7 /* the tenant with room for one cell */
#define RECORD_BYTES 28
#define LAST_EXPIRIES (101 + 24) /* where the first one stands */

static uint8_t full_book[LAMBUKIR_BOOK_SIZE], one_tenants[LAMBUKIR_BOOK_SIZE], our_book[LAMBUKIR_BOOK_SIZE], their_book[LAMBUKIR_BOOK_SIZE];
static uint8_t new_dates[LAMBUKIR_BOOK_SIZE], version_1[LAMBUKIR_BOOK_SIZE_1], carried[LAMBUKIR_BOOK_SIZE];
static uint64_t held[TENANTS][QUOTA], absent[SAMPLES];

static const uint8_t servers[] = "NODEA2A3A4A5A6A7A8A9B0B1B2B3B4B5";

/* How late a cell may be sold: until the end of a quarter, which goes by the first character of its name. So a date comes in runs. */
static uint32_t quarter_end(uint64_t name)
{
    static const uint32_t ends[] = {20240331, 20240630, 20240930, 20241231};
    return ends[name >> 60 & 3];
}

/* A full book, filled by both sides. */
static void fill_books(void)
{
    static const uint8_t principals[TENANTS] = {0};
    uint16_t quotas[TENANTS];
    for (size_t t = 0; t < TENANTS; t++)
        quotas[t] = QUOTA;
    sum += lambukir_open_book(full_book, sizeof full_book, quotas, TENANTS, servers, 32, principals, TENANTS);
    sum += plain_open_book(their_book, sizeof their_book, quotas, TENANTS, servers, 32, principals, TENANTS);
    for (uint32_t i = 0; i < MOST_RECORDS; i++) {
        uint64_t name = held[i % TENANTS][i / TENANTS] = some_name(), one = some_key(), two = some_key();
        uint32_t edition = 1 + (uint32_t)random_below(999);
        sum += lambukir_enter(full_book, sizeof full_book, i % TENANTS, name, edition, one, two, quarter_end(name));
        sum += plain_enter(their_book, sizeof their_book, i % TENANTS, name, edition, one, two, quarter_end(name));
    }
}

/* The same cells as one tenant's, who has fifteen branches. */
static void fill_one_tenants(void)
{
    static const uint16_t quotas[TENANTS] = {MOST_RECORDS};
    uint8_t principals[TENANTS] = {0};
    memset(principals + 1, 1, sizeof principals - 1);
    sum += lambukir_open_book(one_tenants, sizeof one_tenants, quotas, TENANTS, servers, 32, principals, TENANTS);
    for (uint32_t i = 0; i < MOST_RECORDS; i++) {
        uint64_t name = held[i % TENANTS][i / TENANTS];
        sum += lambukir_enter(one_tenants, sizeof one_tenants, 0, name, 1, 2, 3, quarter_end(name));
    }
}

/* The full book, but each record has another last expiry than the one before it. */
static void put_new_dates(void)
{
    uint32_t last = 0;
    memcpy(new_dates, full_book, sizeof new_dates);
    for (size_t at = LAST_EXPIRIES; at < sizeof new_dates; at += RECORD_BYTES) {
        uint32_t date = some_date();
        while (date == last)
            date = some_date();
        for (int i = 0; i < 4; i++)
            new_dates[at + i] = (uint8_t)(date >> (24 - 8 * i));
        last = date;
    }
}

/* The full book as version 1 has it. Both sides carry it over alike. */
static bool carry_alike(void)
{
    static model_book lists;
    static uint8_t theirs[LAMBUKIR_BOOK_SIZE];
    model_book_of_bytes(full_book, &lists);
    model_bytes_of(&model_version_1, &lists, version_1);
    return lambukir_carry_over(version_1, sizeof version_1, carried, sizeof carried) == 0 &&
           plain_carry_over(version_1, sizeof version_1, theirs, sizeof theirs) == 0 && memcmp(carried, theirs, sizeof carried) == 0;
}

/* Books, the cells that are in them, and cells that are not. False where both sides do not fill a book alike, to its last record, or do not withdraw, judge
   or carry over alike. */
static bool make_books(void)
{
    fill_books();
    fill_one_tenants();
    put_new_dates();
    for (size_t i = 0; i < SAMPLES; i++)
        absent[i] = some_name();
    memcpy(our_book, full_book, sizeof our_book);
    if (memcmp(full_book, their_book, sizeof full_book) != 0 || full_book[LAMBUKIR_BOOK_SIZE - RECORD_BYTES] != TENANTS - 1)
        return false;
    if (lambukir_ask_edition(new_dates, sizeof new_dates, 0, held[0][0]).number != 0 ||
        plain_ask_edition(new_dates, sizeof new_dates, 0, held[0][0]).number != 0 || !carry_alike())
        return false;
    uint32_t moved = lambukir_house_withdraw(our_book, sizeof our_book, ROOMY, held[ROOMY][0]).moved;
    return plain_house_withdraw(their_book, sizeof their_book, ROOMY, held[ROOMY][0]).moved == moved && memcmp(our_book, their_book, sizeof our_book) == 0;
}

#define FULL full_book, sizeof full_book
#define NTH_TENANT ((uint32_t)i % TENANTS)
#define NTH_CELL held[NTH_TENANT][i / TENANTS % QUOTA]
BOTH(plain, edition, ask_edition(FULL, NTH_TENANT, NTH_CELL).edition)
BOTH(plain, judged, ask_edition(FULL, NTH_TENANT, absent[NTH]).number)
BOTH(plain, new_dates, ask_edition(new_dates, sizeof new_dates, NTH_TENANT, absent[NTH]).number)
BOTH(plain, carried, carry_over(version_1, sizeof version_1, carried, sizeof carried))
BOTH(plain, producer, ask_producer(FULL, NTH_TENANT, (uint32_t)(NTH_CELL >> 48)).held)
BOTH(plain, long_walk, ask_producer(one_tenants, sizeof one_tenants, 0, (uint32_t)(absent[NTH] >> 48)).held)
BOTH(plain, branch, ask_edition(one_tenants, sizeof one_tenants, 1 + (uint32_t)i % (TENANTS - 1), NTH_CELL).edition)
BOTH(plain, issue, issue(FULL, reg, reg_length, NTH_TENANT, NTH_CELL, 20240301, 0, permits[NTH], 28, written, sizeof written).length)
BOTH(plain, check, check(FULL, NTH_TENANT, hw_id, 20240131, lines[NTH], line_lengths[NTH]).key_one)

static void our_enter(int calls)
{
    for (int i = 0; i < calls; i++) {
        sum += lambukir_enter(our_book, sizeof our_book, ROOMY, absent[NTH], 1, 2, 3, 20240331);
        sum += lambukir_withdraw(our_book, sizeof our_book, ROOMY, absent[NTH]);
    }
}

static void their_enter(int calls)
{
    for (int i = 0; i < calls; i++) {
        sum += plain_enter(their_book, sizeof their_book, ROOMY, absent[NTH], 1, 2, 3, 20240331);
        sum += plain_withdraw(their_book, sizeof their_book, ROOMY, absent[NTH]);
    }
}

static void our_house(int calls)
{
    for (int i = 0; i < calls; i++) {
        sum += lambukir_house_enter(our_book, sizeof our_book, ROOMY, absent[NTH], 1, 2, 3, 20240331).moved;
        sum += lambukir_house_withdraw(our_book, sizeof our_book, ROOMY, absent[NTH]).moved;
    }
}

static void their_house(int calls)
{
    for (int i = 0; i < calls; i++) {
        sum += plain_house_enter(their_book, sizeof their_book, ROOMY, absent[NTH], 1, 2, 3, 20240331).moved;
        sum += plain_house_withdraw(their_book, sizeof their_book, ROOMY, absent[NTH]).moved;
    }
}

#endif
