/* Books of all kinds: the one at hand as bytes and as the model's lists, filled at random; and copies that break a rule. */
#ifndef BOOKS_H
#define BOOKS_H

#include "book_calls.h"

#define SETTINGS 5 /* where they begin in a book, and how long each is */
#define SETTING 6
#define RECORDS 101
#define RECORD_SIZE 28
#define MOST 512 /* records in a book */
#define DAYS_AT 2 /* in a setting */
#define ID_AT 3
#define SPARE_AT 5
#define NAME_AT 1 /* in a record */
#define EDITION_AT 9
#define ZEROS_AT 21
#define LAST_EXPIRY_AT 24

static model_book lists, changed; /* the lists of the book, and those of a changed copy */
static uint8_t book[BOOK_ROOM], copy[BOOK_ROOM];
static uint16_t quotas[TENANTS];
static uint8_t ids[2 * TENANTS], principals[TENANTS];

static inline void some_ids(void)
{
    for (size_t i = 0; i < sizeof ids; i++)
        ids[i] = (uint8_t)NAMES[random_below(sizeof NAMES - 1)];
}

/* Quotas of a sum: alike, or few tenants with much. */
static inline void some_quotas(uint32_t sum)
{
    int alike = random_below(2) == 0;
    for (size_t t = 0; t < TENANTS; t++)
        quotas[t] = alike ? (uint16_t)(sum / TENANTS) : 0;
    for (sum -= alike ? sum / TENANTS * TENANTS : 0; sum > 0;) {
        uint32_t add = 1 + (uint32_t)random_below(sum);
        quotas[random_below(TENANTS)] += (uint16_t)add;
        sum -= add;
    }
}

static inline void no_principals(void)
{
    memset(principals, 0, sizeof principals);
}

/* Of the tenants that have no quota some are branches, each of one that is none. */
static inline void some_principals(void)
{
    no_principals();
    for (size_t t = 0; t < TENANTS; t++) {
        size_t principal = random_below(TENANTS);
        if (quotas[t] == 0 && principal != t && principals[principal] == 0 && !memchr(principals, (int)t + 1, TENANTS) && random_below(2))
            principals[t] = (uint8_t)(principal + 1);
    }
}

/* The lists of an empty book with these quotas and principals; warning days of all kinds. */
static inline void open_lists(void)
{
    some_ids();
    model_open_book(&lists, BOOK, quotas, TENANTS, ids, sizeof ids, principals, sizeof principals);
    for (uint32_t t = 0; t < TENANTS; t++)
        model_set_days(&lists, t, some_days());
}

static inline int is_branch(uint32_t tenant)
{
    return lists.tenants[tenant].principal != 0;
}

/* The tenant whose cells this one reads. */
static inline uint32_t reads(uint32_t tenant)
{
    return is_branch(tenant) ? lists.tenants[tenant].principal - 1 : tenant;
}

/* How many cells it reads. */
static inline size_t cells_of(uint32_t tenant)
{
    return lists.tenants[reads(tenant)].held;
}

/* A name that is none of the tenant's, often one that is near to one of these. */
static inline uint64_t absent_name(uint32_t tenant)
{
    const model_tenant *t = &lists.tenants[reads(tenant)];
    for (;;) {
        uint64_t name = t->held > 0 && random_below(2) ? near_name(t->cells[random_below(t->held)].name) : some_name();
        if (model_ask_edition(&lists, tenant, name).number == 104)
            return name;
    }
}

static inline const model_cell *held_cell(uint32_t tenant)
{
    const model_tenant *t = &lists.tenants[reads(tenant)];
    return &t->cells[random_below(t->held)];
}

static inline uint64_t held_name(uint32_t tenant)
{
    return held_cell(tenant)->name;
}

/* Lets a tenant hold so many cells, in the lists. */
static inline void fill(uint32_t tenant, size_t count)
{
    while (lists.tenants[tenant].held < count)
        model_enter(&lists, tenant, absent_name(tenant), 1 + (uint32_t)random_below(999), some_key(), some_key(), some_last_expiry());
}

/* A book with so many records, which its quotas allow. */
static inline void fill_book(uint32_t records)
{
    open_lists();
    for (; records > 0; records--) {
        uint32_t tenant = (uint32_t)random_below(TENANTS);
        while (lists.tenants[tenant].held >= quotas[tenant])
            tenant = (tenant + 1) % TENANTS;
        fill(tenant, lists.tenants[tenant].held + 1);
    }
    model_bytes_of_book(&lists, book);
}

/* And with quotas of a sum that allows them, and principals. */
static inline void some_book(uint32_t records, uint32_t quotas_sum)
{
    some_quotas(quotas_sum);
    some_principals();
    fill_book(records);
}

/* Of an undamaged book whose records have a size. */
static inline size_t records_of(const uint8_t *b, size_t record_size)
{
    return ((size_t)b[3] * 256 + b[4] - RECORDS) / record_size;
}

/* Of the book. */
static inline size_t record_count(void)
{
    return records_of(book, RECORD_SIZE);
}

static inline void put16(uint8_t *at, size_t value)
{
    at[0] = (uint8_t)(value >> 8);
    at[1] = (uint8_t)value;
}

static inline void put32(uint8_t *at, uint32_t value)
{
    put16(at, value >> 16);
    put16(at + 2, value & 0xFFFF);
}

static inline void exchange(uint8_t *record, size_t size)
{
    uint8_t first[RECORD_SIZE];
    memcpy(first, record, size);
    memcpy(record, record + size, size);
    memcpy(record + size, first, size);
}

static inline size_t quota_sum(void)
{
    size_t sum = 0;
    for (size_t t = 0; t < TENANTS; t++)
        sum += lists.tenants[t].quota;
    return sum;
}

/* Lets a tenant name nobody that there is, itself, one who names somebody, or anybody while it has a quota. */
static inline void spoil_principal(uint8_t *b)
{
    size_t t = random_below(TENANTS), other = (t + 1 + random_below(TENANTS - 1)) % TENANTS;
    uint8_t *own = b + SETTINGS + t * SETTING;
    switch (random_below(4)) {
    case 0: own[SPARE_AT] = (uint8_t)(TENANTS + 1 + random_below(255 - TENANTS)); break;
    case 1: own[SPARE_AT] = (uint8_t)(t + 1); break;
    case 2:
        b[SETTINGS + other * SETTING + SPARE_AT] = (uint8_t)(1 + random_below(TENANTS));
        own[SPARE_AT] = (uint8_t)(other + 1);
        break;
    default:
        while (lists.tenants[t].quota == 0)
            t = (t + 1) % TENANTS;
        b[SETTINGS + t * SETTING + SPARE_AT] = (uint8_t)(1 + random_below(TENANTS));
    }
}

/* Breaks one rule of a book of a version, which has the lists and two records at least, and 64 bytes of room behind it; the answer is its length. */
static inline size_t spoil_book(uint8_t *b, const model_version *v)
{
    size_t n = records_of(b, v->record);
    uint8_t *setting = b + SETTINGS + random_below(TENANTS) * SETTING;
    uint8_t *record = b + RECORDS + random_below(n - 1) * v->record, *end = b + RECORDS + n * v->record; /* one that another follows */
    uint8_t *any = b + RECORDS + random_below(n) * v->record;
    switch (random_below(v->last_expiry > 0 ? 19 : 18)) {
    case 0: b[0] = (uint8_t)(v->number + 1 + random_below(255)); break;
    case 1: b[1 + random_below(2)]++; break;
    case 2: b[4] = (uint8_t)(b[4] + 1 + random_below(v->record - 1)); break;
    case 3: put16(b + 3, RECORDS + random_below(n) * v->record); break;
    case 4: put16(b + 3, RECORDS + (n + 1) * v->record); break;
    case 5: put16(setting, MOST + 1 - quota_sum() + setting[0] * 256u + setting[1]); break;
    case 6: put16(b + SETTINGS + any[0] * SETTING, lists.tenants[any[0]].held - 1); break;
    case 7: setting[DAYS_AT] = (uint8_t)(random_below(2) ? 0 : 91 + random_below(165)); break;
    case 8: setting[ID_AT + random_below(2)] = (uint8_t)NO_NAMES[random_below(sizeof NO_NAMES)]; break;
    case 9: spoil_principal(b); break;
    case 10: *(end - v->record) = (uint8_t)(16 + random_below(240)); break;
    case 11: any[NAME_AT + random_below(8)] = (uint8_t)NO_NAMES[random_below(sizeof NO_NAMES)]; break;
    case 12: put16(any + EDITION_AT, random_below(2) ? 0 : 1000 + random_below(64536)); break;
    case 13: any[ZEROS_AT + random_below(3)] = (uint8_t)(1 + random_below(255)); break;
    case 14: exchange(record, v->record); break;
    case 15: memcpy(record + v->record, record, EDITION_AT); break;
    case 16: return random_below(2) ? random_below(v->size) : v->size + 1 + random_below(BOOK_ROOM - BOOK);
    case 17: b[n < MOST ? RECORDS + n * v->record + random_below((MOST - n) * v->record) : 0] |= 4; break;
    default: put32(any + LAST_EXPIRY_AT, no_last_expiry());
    }
    return v->size;
}

/* A call on a damaged copy of the book: 101, and the copy stays as it is. */
static inline void compare_damaged(const call *c)
{
    memset(copy + BOOK, 0, BOOK_ROOM - BOOK);
    memcpy(copy, book, BOOK);
    size_t length = spoil_book(copy, &model_version_2);
    same((uint64_t)model_is_book(copy, length), 0, "%s: damaged by the model", about);
    expect(compare_call(copy, length, &lists, c).number, 101);
}

#endif
