/* The book that sixteen tenants share, against the model and against what the rules say of each case. */
#define _DEFAULT_SOURCE
#include <sys/mman.h>

#include "books.h"

/* P12 of the rules, and a book written down by hand. */
static void worked(void)
{
    static const uint8_t expected[] = {
        2,   0,   0,   0,   129,                                                  /* version, used length */
        0,   1,   30,  'G', 'B', 0, 1, 2, 31, 'N', 'O', 0,                        /* quota 1; quota 258, days 31 */
        0,   0,   30,  '0', '0', 0, 0, 0, 30, '0', '1', 0, 0, 0, 30, '0', '2', 0, /* the rest has quota 0 */
        0,   0,   30,  '0', '3', 0, 0, 0, 30, '0', '4', 0, 0, 0, 30, '0', '5', 0,
        0,   0,   30,  '0', '6', 0, 0, 0, 30, '0', '7', 0, 0, 0, 30, '0', '8', 0,
        0,   0,   30,  '0', '9', 0, 0, 0, 30, 'A', 'A', 0, 0, 0, 30, 'A', 'A', 0,
        0,   0,   30,  'Z', '9', 0, 0, 9, 30, '9', 'Z', 0,                        /* the last has quota 9 */
        1,   'N', 'O', '4', 'D', '0', '6', '1', '3', 3, 231,                      /* tenant, name, edition 999 */
        193, 203, 81,  142, 156, 66, 21, 113, 204, 102, 0, 0, 0,                  /* the keys of S-63's worked permit */
        1,   53,  0,   6,                                                         /* last expiry 20250630, which is 1350006 in hex */
    };
    static const uint16_t given[TENANTS] = {1, 258, [15] = 9};
    const uint64_t name = number_from("NO4D0613");
    ABOUT("the book written down by hand");
    memset(book, 0xEE, sizeof book);
    no_principals();
    expect(lambukir_open_book(book, BOOK, given, TENANTS, (const uint8_t *)"GBNO00010203040506070809AAAAZ99Z", 32, principals, TENANTS), 0);
    expect(lambukir_enter(book, BOOK, 1, name, 999, 0xC1CB518E9C, 0x421571CC66, 20250630), 0);
    expect(lambukir_set_days(book, BOOK, 1, 31), 0);
    same((uint64_t)memcmp(book, expected, sizeof expected), 0, "%s: its used bytes", about);
    for (size_t at = sizeof expected; at < BOOK; at++)
        same(book[at], 0, "%s: byte %zu", about, at);
    same(book[BOOK], 0xEE, "%s: the byte after it", about);
    same((uint64_t)model_is_book(book, BOOK), 1, "%s: undamaged by the model", about);
    expect(lambukir_ask_edition(book, BOOK, 1, name).number, 0);
    same(lambukir_ask_edition(book, BOOK, 1, name).edition, 999, "%s: edition", about);
    expect(lambukir_ask_edition(book, BOOK, 0, name).number, 104);
    same(lambukir_ask_producer(book, BOOK, 1, 0x4E4F).held, 1, "%s: a cell of NO is held", about);
    same(lambukir_ask_producer(book, BOOK, 1, 0x4E50).held, 0, "%s: none of NP is", about);
    same(lambukir_ask_producer(book, BOOK, 0, 0x4E4F).held, 0, "%s: nor one of NO by another tenant", about);
}

/* The book of a sequence: an opened one with small quotas, and branches where they are 0; crowded, the last eight tenants fill up all that these leave. */
static void start_sequence(int crowded)
{
    uint32_t left = MOST;
    for (uint32_t t = 0; t < TENANTS; t++) {
        quotas[t] = (uint16_t)(crowded && t >= TENANTS / 2 ? left / (TENANTS - t) : random_below(5));
        left -= quotas[t];
    }
    some_ids();
    some_principals();
    random_bytes(book, BOOK);
    ABOUT("opening the book of a sequence");
    expect(compare_open_book(book, BOOK, quotas, TENANTS, ids, sizeof ids, principals, sizeof principals, &lists), 0);
    for (uint32_t t = TENANTS / 2; crowded && t < TENANTS; t++)
        fill(t, quotas[t] - random_below(2));
    model_bytes_of_book(&lists, book);
}

/* A call of a sequence, now and then spoilt. `issued` is the line that was issued last. */
static call call_of_sequence(const uint32_t *tenants, const uint64_t *names, const ship_line *issued)
{
    static const int kinds[] = {ENTER,    ENTER,       ENTER,       HOUSE_ENTER,  HOUSE_ENTER,  WITHDRAW, WITHDRAW, HOUSE_WITHDRAW,
                                SET_DAYS, ASK_EDITION, ASK_EDITION, ASK_PRODUCER, ASK_PRODUCER, ISSUE,    ISSUE,    CHECK, CHECK};
    call c = some_call(PICK(kinds), tenants[random_below(4)], names[random_below(6)]);
    if (c.kind == CHECK && issued->length > 0 && random_below(2))
        put_ship_line(&c, issued);
    if (random_below(5) == 0)
        spoil(&c, orders_of[c.kind][1 + random_below(9)]);
    return c;
}

/* Each call has given each number that it may give, and often. */
static void expect_seen(uint32_t least)
{
    for (int kind = 0; kind < KINDS; kind++) {
        same(seen[kind][0] >= least, 1, "%s: 0 came up %" PRIu32 " times", kind_names[kind], seen[kind][0]);
        for (const uint32_t *number = orders_of[kind]; *number != 0; number++)
            same(seen[kind][*number] >= least, 1, "%s: %" PRIu32 " came up %" PRIu32 " times", kind_names[kind], *number, seen[kind][*number]);
    }
    same(seen[CHECK][15] >= least && seen[CHECK][20] >= least, 1, "check: 15 and 20 came up");
    same(seen_held[0] >= least && seen_held[1] >= least, 1, "ask producer: no and yes came up");
}

/* Of a written line, CR LF included. */
static int is_line_length(uint64_t length)
{
    return length >= 74 && length <= WRITTEN;
}

/* 60 calls of a few tenants on a few names, each compared. Where one of the tenants is a branch, its principal is another. */
static void sequence(int which)
{
    uint32_t tenants[4];
    uint64_t names[6] = {some_name()};
    ship_line issued = {0};
    for (size_t i = 0; i < COUNT(tenants); i++)
        tenants[i] = (uint32_t)random_below(TENANTS);
    if (is_branch(tenants[0]))
        tenants[1] = reads(tenants[0]);
    for (size_t i = 1; i < COUNT(names); i++)
        names[i] = near_name(names[random_below(i)]);
    for (int n = 0; n < 60; n++) {
        call c = call_of_sequence(tenants, names, &issued);
        ABOUT("sequence %d, call %d: %s", which, n, kind_names[c.kind]);
        if (record_count() >= 2 && random_below(40) == 0) {
            compare_damaged(&c);
            continue;
        }
        answer a = compare_call(book, BOOK, &lists, &c);
        if (c.kind == ISSUE && is_line_length(a.length)) {
            issued.hw_id = c.hw_id;
            issued.length = a.length - 2;
            memcpy(issued.bytes, a.out, issued.length);
        }
    }
}

static void sequences(void)
{
    memset(seen, 0, sizeof seen);
    memset(seen_held, 0, sizeof seen_held);
    for (int i = 0; i < 2400; i++) {
        start_sequence(i % 4 == 3);
        sequence(i);
    }
    expect_seen(50);
}

/* The calls of some tenants, with what each one's calls alone are answered. */
#define MIXED 5
#define OWN_CALLS 16
static struct {
    uint32_t tenant;
    size_t count;
    call calls[OWN_CALLS];
    answer answers[OWN_CALLS];
} mixed[MIXED];

/* Calls of a tenant on few names, of its own cells and others. */
static void make_own_calls(size_t m, uint32_t tenant)
{
    uint64_t names[6];
    uint32_t tenants[4] = {tenant, tenant, tenant, tenant};
    for (size_t i = 0; i < COUNT(names); i++)
        names[i] = cells_of(tenant) > 0 && i % 2 ? held_name(tenant) : absent_name(tenant);
    mixed[m].tenant = tenant;
    mixed[m].count = 1 + random_below(OWN_CALLS);
    for (size_t i = 0; i < mixed[m].count; i++) {
        mixed[m].calls[i] = call_of_sequence(tenants, names, &(ship_line){0});
        mixed[m].calls[i].tenant = tenant; /* a call for no tenant is nobody's own */
    }
}

/* A tenant's own calls in a book where the others have nothing, by model and library. Its list afterwards goes to the lists. */
static void run_alone(size_t m)
{
    model_tenant *own = &changed.tenants[mixed[m].tenant];
    for (size_t t = 0; t < TENANTS; t++)
        changed.tenants[t] = (model_tenant){.quota = 0, .days = 1, .server = 0x3030};
    *own = lists.tenants[mixed[m].tenant];
    model_bytes_of_book(&changed, copy);
    for (size_t i = 0; i < mixed[m].count; i++) {
        ABOUT("%s, call %zu of tenant %" PRIu32 " alone", kind_names[mixed[m].calls[i].kind], i, mixed[m].tenant);
        mixed[m].answers[i] = compare_call(copy, BOOK, &changed, &mixed[m].calls[i]);
        mixed[m].answers[i].moved = 0; /* no tenant's answer: it depends on the others */
    }
    lists.tenants[mixed[m].tenant] = *own;
}

/* One mixing that keeps each tenant's own order. */
static void run_mixed(int which, int mixing)
{
    size_t next[MIXED] = {0}, left = 0;
    for (size_t m = 0; m < MIXED; m++)
        left += mixed[m].count;
    memcpy(copy, book, BOOK);
    for (; left > 0; left--) {
        size_t m = 0, nth = random_below(left);
        for (; nth >= mixed[m].count - next[m]; m++)
            nth -= mixed[m].count - next[m];
        const call *c = &mixed[m].calls[next[m]];
        ABOUT("sequence %d, mixing %d: %s, call %zu of tenant %" PRIu32, which, mixing, kind_names[c->kind], next[m], c->tenant);
        answer ours = run_ours(copy, BOOK, c);
        ours.moved = 0;
        same_answer(&ours, &mixed[m].answers[next[m]++]);
    }
    ABOUT("sequence %d, mixing %d", which, mixing);
    same_book(copy, &lists);
}

/* However the calls are mixed, the book is the same in the end, and each tenant is answered what its own calls alone are answered. (tests/branches.c has
   the mixings with branches.) */
static void mixings(void)
{
    no_principals();
    for (int i = 0; i < 200; i++) {
        uint32_t first = (uint32_t)random_below(TENANTS);
        some_quotas(i % 3 == 2 ? 64 : MOST);
        fill_book(i % 3 == 0 ? 0 : i % 3 == 1 ? MOST : 40);
        for (size_t m = 0; m < MIXED; m++)
            make_own_calls(m, (first + 3 * (uint32_t)m) % TENANTS);
        for (size_t m = 0; m < MIXED; m++)
            run_alone(m);
        for (int mixing = 0; mixing < 50; mixing++)
            run_mixed(i, mixing);
    }
}

/* A call of a kind on the copy, in which one byte was changed: by the model, or 101 and the copy as it is. */
static void compare_changed(int kind, int damaged)
{
    uint32_t tenant = (uint32_t)random_below(TENANTS);
    call c = some_call(kind, tenant, cells_of(tenant) > 0 ? held_name(tenant) : some_name());
    if (!damaged) {
        compare_call(copy, BOOK, &changed, &c);
        return;
    }
    answer ours = run_ours(copy, BOOK, &c), theirs = damaged_answer(&c);
    same_answer(&ours, &theirs);
}

/* One byte as another value. Where that damages the book every call is made on it, where not one of them. */
static void change_byte(size_t at, uint8_t value)
{
    if (book[at] == value)
        return;
    memcpy(copy, book, BOOK);
    copy[at] = value;
    ABOUT("byte %zu as %02X of a book with %zu records", at, value, record_count());
    if (model_is_book(copy, BOOK)) {
        model_book_of_bytes(copy, &changed);
        compare_changed((int)random_below(KINDS), 0);
        return;
    }
    for (int kind = 0; kind < KINDS; kind++)
        compare_changed(kind, 1);
}

/* Every byte of an empty, a half-full and a full book. */
static void damage(void)
{
    for (uint32_t records = 0; records <= MOST; records += MOST / 2) {
        some_book(records, MOST);
        size_t used = RECORDS + record_count() * RECORD_SIZE;
        for (size_t at = 0; at < BOOK; at++) {
            change_byte(at, (uint8_t)(book[at] + 1));
            change_byte(at, 255);
            change_byte(at, (uint8_t)random64());
            if (at >= used)
                continue;
            change_byte(at, 0);
            change_byte(at, (uint8_t)(book[at] - 1));
            change_byte(at, book[at] ^ 0x20);
        }
    }
}

/* A book with one rule broken, for each rule in turn. */
static void broken(void)
{
    for (int i = 0; i < 12000; i++) {
        if (i % 500 == 0)
            some_book(i % 1000 ? MOST : 2 + (uint32_t)random_below(MOST - 2), MOST);
        call c = some_call(i % KINDS, (uint32_t)random_below(TENANTS), some_name());
        ABOUT("rule of the book broken %d: %s", i, kind_names[c.kind]);
        compare_damaged(&c);
    }
}

/* Every used length but the right one, in books whose last record ends with zeros. */
static void used_lengths(void)
{
    for (uint32_t records = 0; records <= MOST; records += MOST / 4) {
        some_book(records, MOST);
        uint32_t right = RECORDS + records * RECORD_SIZE;
        if (records > 0)
            memset(book + right - 8, 0, 8);
        for (uint32_t used = 0; used <= BOOK + 300; used++) {
            call c = some_call((int)(used % KINDS), (uint32_t)random_below(TENANTS), some_name());
            memcpy(copy, book, BOOK);
            copy[3] = (uint8_t)(used >> 8);
            copy[4] = (uint8_t)used;
            ABOUT("used length %" PRIu32 " with %" PRIu32 " records: %s", used, records, kind_names[c.kind]);
            if (used != right)
                expect(compare_call(copy, BOOK, &lists, &c).number, 101);
        }
    }
}

/* Every call on a book of a length. */
static void compare_length(uint8_t *b, size_t length)
{
    for (int kind = 0; kind < KINDS; kind++) {
        call c = some_call(kind, (uint32_t)random_below(TENANTS), some_name());
        ABOUT("%s on a book of %zu bytes", kind_names[kind], length);
        answer ours = run_ours(b, length, &c), theirs = damaged_answer(&c);
        same_answer(&ours, &theirs);
    }
    ABOUT("opening a book of %zu bytes", length);
    expect(compare_open_book(b, length, quotas, TENANTS, ids, sizeof ids, principals, sizeof principals, &changed), 101);
}

/* A good book of more bytes than 32 bits can count. */
static void huge_book(void)
{
    size_t more = (size_t)1 << 32;
    uint8_t *map = mmap(NULL, more + BOOK, PROT_READ | PROT_WRITE, MAP_PRIVATE | MAP_ANONYMOUS | MAP_NORESERVE, -1, 0);
    same(map != MAP_FAILED, 1, "a map of %zu bytes", more + BOOK);
    if (map == MAP_FAILED)
        return;
    memcpy(map, book, BOOK);
    for (int kind = 0; kind < KINDS; kind++) {
        call c = some_call(kind, 0, some_name());
        ABOUT("%s on a book that 32 bits cannot count", kind_names[kind]);
        expect(our_answer(map, more + BOOK, &c).number, 101);
    }
    expect(lambukir_open_book(map, more + BOOK, quotas, TENANTS, ids, sizeof ids, principals, TENANTS), 101);
    expect(lambukir_open_book(book, BOOK, quotas, TENANTS, map, more + sizeof ids, principals, TENANTS), 103);
    expect(lambukir_open_book(book, BOOK, (const uint16_t *)(const void *)map, more / 2 + TENANTS, ids, sizeof ids, principals, TENANTS), 103);
    expect(lambukir_open_book(book, BOOK, quotas, TENANTS, ids, sizeof ids, map, more + TENANTS), 103);
    munmap(map, more + BOOK);
}

/* Slices of no bytes, in place of each that a call is lent. */
static void empty_slices(void)
{
    uint32_t tenant = 0;
    while (cells_of(tenant) == 0)
        tenant++;
    static const struct { int reg, permit, out; uint32_t number; } rows[] = {{1, 0, 0, 107}, {0, 1, 0, 106}, {0, 0, 1, 108}, {1, 1, 1, 108}, {1, 1, 0, 106}};
    for (size_t i = 0; i < COUNT(rows); i++) {
        call c = some_call(ISSUE, tenant, held_name(tenant));
        c.reg_length = rows[i].reg ? 0 : c.reg_length;
        c.permit_length = rows[i].permit ? 0 : c.permit_length;
        c.out_length = rows[i].out ? 0 : c.out_length;
        ABOUT("issue with empty slices %zu", i);
        expect(compare_call(book, BOOK, &lists, &c).number, rows[i].number);
    }
    call c = some_call(CHECK, tenant, 0);
    c.line_length = 0;
    ABOUT("check of an empty line");
    expect(compare_call(book, BOOK, &lists, &c).number, 12);
    ABOUT("opening with empty slices");
    expect(compare_open_book(book, BOOK, quotas, 0, ids, sizeof ids, principals, TENANTS, &changed), 103);
    expect(compare_open_book(book, BOOK, quotas, TENANTS, ids, 0, principals, TENANTS, &changed), 103);
    expect(compare_open_book(book, BOOK, quotas, TENANTS, ids, sizeof ids, principals, 0, &changed), 103);
    expect(compare_open_book(book, 0, quotas, 0, ids, 0, principals, 0, &changed), 101);
}

/* Each length but the right one, of the start of a full book. */
static void lengths(void)
{
    some_book(MOST, MOST);
    memset(book + BOOK, 0, BOOK_ROOM - BOOK);
    for (size_t length = 0; length <= BOOK_ROOM; length++)
        if (length != BOOK)
            compare_length(book, length);
    empty_slices();
    huge_book();
}

/* Opens over random bytes, with the principals at hand. */
static uint32_t compare_opening(size_t length, const uint16_t *q, size_t quotas_length, const uint8_t *i, size_t ids_length)
{
    random_bytes(book, 512);
    return compare_open_book(book, length, q, quotas_length, i, ids_length, principals, TENANTS, &lists);
}

/* Sums of quotas on both sides of 512, and those that 16 bits would take for small ones. */
static void sums(void)
{
    static const uint32_t given[] = {0, 1, 15, 16, 17, 255, 256, 257, 511, 512, 513, 514, 600, 1024, 32768, 65535};
    for (int round = 0; round < 60; round++)
        for (size_t i = 0; i < COUNT(given); i++) {
            some_quotas(given[i]);
            some_principals();
            some_ids();
            ABOUT("quotas of sum %" PRIu32, given[i]);
            expect(compare_opening(BOOK, quotas, TENANTS, ids, sizeof ids), given[i] <= MOST ? 0 : 103);
        }
    no_principals();
    for (size_t t = 0; t + 1 < TENANTS; t++)
        for (uint32_t add = 1; add <= 512; add += 511) {
            memset(quotas, 0, sizeof quotas);
            quotas[t] = 65535;
            quotas[t + 1] = (uint16_t)add;
            ABOUT("quotas 65535 and %" PRIu32 " from tenant %zu", add, t);
            expect(compare_opening(BOOK, quotas, TENANTS, ids, sizeof ids), 103);
        }
    for (size_t t = 0; t < TENANTS; t++)
        quotas[t] = 4096;
    ABOUT("sixteen quotas of 4096, 65536 together");
    expect(compare_opening(BOOK, quotas, TENANTS, ids, sizeof ids), 103);
    memset(quotas, 0xFF, sizeof quotas);
    ABOUT("sixteen quotas of 65535");
    expect(compare_opening(BOOK, quotas, TENANTS, ids, sizeof ids), 103);
}

/* Each byte as each tenant's principal, where the others have branches and where they have none, and each number of principals. */
static void given_principals(void)
{
    uint8_t more[40] = {0};
    for (int round = 0; round < 24; round++)
        for (size_t t = 0; t < TENANTS; t++)
            for (unsigned byte = 0; byte < 256; byte++) {
                some_quotas(round % 2 ? MOST : 5);
                some_principals();
                if (round % 3 == 0)
                    quotas[t] = 0;
                principals[t] = (uint8_t)byte;
                ABOUT("principal byte %zu as %02X", t, byte);
                compare_opening(BOOK, quotas, TENANTS, ids, sizeof ids);
            }
    memset(quotas, 0, sizeof quotas);
    no_principals();
    for (size_t t = 0; t < TENANTS; t++) {
        ABOUT("tenant %zu as a branch of the next one", t);
        principals[t] = (uint8_t)((t + 1) % TENANTS + 1);
        expect(compare_opening(BOOK, quotas, TENANTS, ids, sizeof ids), 0);
        ABOUT("tenant %zu as a branch of a branch", (t + 5) % TENANTS);
        principals[(t + 5) % TENANTS] = (uint8_t)(t + 1);
        expect(compare_opening(BOOK, quotas, TENANTS, ids, sizeof ids), 103);
        ABOUT("tenant %zu with a quota as a branch", t);
        principals[(t + 5) % TENANTS] = 0;
        quotas[t] = 1;
        expect(compare_opening(BOOK, quotas, TENANTS, ids, sizeof ids), 103);
        ABOUT("tenant %zu as its own principal", t);
        quotas[t] = 0;
        principals[t] = (uint8_t)(t + 1);
        expect(compare_opening(BOOK, quotas, TENANTS, ids, sizeof ids), 103);
        principals[t] = 0;
    }
    for (size_t n = 0; n <= sizeof more; n++) {
        ABOUT("%zu principals", n);
        expect(compare_open_book(book, BOOK, quotas, TENANTS, ids, sizeof ids, more, n, &lists), n == TENANTS ? 0 : 103);
    }
}

/* Each byte at each place of the IDs, each number of quotas and of ID bytes, principals, and a book of another length before all that. */
static void opening(void)
{
    uint16_t more_quotas[40] = {0};
    uint8_t more_ids[80];
    memset(more_ids, 'A', sizeof more_ids);
    memset(book, 0, sizeof book);
    sums();
    given_principals();
    some_quotas(MOST);
    some_ids();
    for (size_t at = 0; at < sizeof ids; at++)
        for (unsigned byte = 0; byte < 256; byte++) {
            uint8_t was = ids[at];
            ids[at] = (uint8_t)byte;
            ABOUT("ID byte %zu as %02X", at, byte);
            expect(compare_opening(BOOK, quotas, TENANTS, ids, sizeof ids), byte != 0 && strchr(NAMES, (int)byte) ? 0 : 103);
            ids[at] = was;
        }
    for (size_t n = 0; n <= COUNT(more_quotas); n++)
        for (size_t m = 0; m <= sizeof more_ids; m++) {
            ABOUT("%zu quotas, %zu bytes of IDs", n, m);
            expect(compare_opening(BOOK, more_quotas, n, more_ids, m), n == TENANTS && m == sizeof ids ? 0 : 103);
        }
    for (size_t length = BOOK - 30; length <= BOOK + 30; length++)
        for (int bad = 0; bad < 4; bad++) {
            some_quotas(bad == 1 ? MOST + 1 : MOST);
            ABOUT("book of %zu bytes, and reason %d", length, bad);
            expect(compare_opening(length, quotas, bad == 2 ? 15 : TENANTS, ids, bad == 3 ? 31 : sizeof ids), length != BOOK ? 101 : bad ? 103 : 0);
        }
}

/* Whether a number is among a call's reasons to be refused. */
static int is_due(int kind, unsigned reasons, uint32_t number)
{
    for (size_t i = 0; orders_of[kind][i] != 0; i++)
        if (reasons >> i & 1 && orders_of[kind][i] == number)
            return 1;
    return 0;
}

/* A call with a set of reasons to refuse it at once. Even tenants have used their quota, odd ones have not; the last four are branches of some of these,
   even ones of even ones. */
static void compare_reasons(int kind, unsigned reasons, size_t count)
{
    int due = is_due(kind, reasons, 111), never = !is_enter(kind) && kind != WITHDRAW && kind != HOUSE_WITHDRAW;
    uint32_t pairs = due ? 2 : never ? TENANTS / 2 : TENANTS / 2 - 2;
    uint32_t tenant = 2 * (uint32_t)random_below(pairs) + !is_due(kind, reasons, 105) + (due ? TENANTS - 4 : 0);
    int absent = is_due(kind, reasons, 104) || is_due(kind, reasons, 105);
    const model_cell *cell = held_cell(tenant);
    call c = some_call(kind, tenant, absent || (is_enter(kind) && random_below(2)) ? absent_name(tenant) : cell->name);
    c.expiry = is_due(kind, reasons, 112) ? date_beyond(cell->last_expiry) : date_until(cell->last_expiry);
    for (size_t i = count; i-- > 0;)
        if (reasons >> i & 1)
            spoil(&c, orders_of[kind][i]);
    ABOUT("%s, reasons %X", kind_names[kind], reasons);
    if (reasons & 1) {
        compare_damaged(&c);
        return;
    }
    memcpy(copy, book, BOOK);
    model_book_of_bytes(book, &changed);
    uint32_t number = compare_call(copy, BOOK, &changed, &c).number;
    expect(is_refusal(number) ? number : 0, first_of(orders_of[kind], count, reasons));
}

/* Lets each cell of a tenant have a last expiry. */
static void limit_cells(model_tenant *t)
{
    for (size_t i = 0; i < t->held; i++)
        t->cells[i].last_expiry = PICK(few_dates);
}

/* Every set of reasons to refuse at once, of every call: the first of the order wins. */
static void orders(void)
{
    for (int round = 0; round < 12; round++) {
        for (size_t t = 0; t < TENANTS; t++) {
            quotas[t] = t >= TENANTS - 4 ? 0 : t % 2 ? 5 : 3;
            principals[t] = t >= TENANTS - 4 ? (uint8_t)(2 * random_below(TENANTS / 2 - 2) + t % 2 + 1) : 0;
        }
        open_lists();
        for (uint32_t t = 0; t < TENANTS - 4; t++) {
            fill(t, t % 2 ? 1 + random_below(4) : 3);
            limit_cells(&lists.tenants[t]);
        }
        model_bytes_of_book(&lists, book);
        for (int kind = 0; kind < KINDS; kind++) {
            size_t count = 0;
            while (orders_of[kind][count] != 0)
                count++;
            for (unsigned reasons = 0; reasons < 1u << count; reasons++)
                compare_reasons(kind, reasons, count);
        }
    }
}

/* The line of a cell: issued to a ship, it reads back as the cell that is held, by check and by read_line. */
static void issue_and_read(uint32_t tenant, const model_cell *cell)
{
    const model_tenant *t = &lists.tenants[tenant];
    call c = some_call(ISSUE, tenant, cell->name), check = some_call(CHECK, tenant, 0);
    c.expiry = allowed_expiry(cell->last_expiry);
    answer issued = compare_call(book, BOOK, &lists, &c);
    expect(issued.number, 0);
    same(issued.length, cell->edition < 10 ? 74 : cell->edition < 100 ? 75 : 76, "%s: length", about);
    if (!is_line_length(issued.length))
        return;
    same((uint64_t)memcmp(issued.out + issued.length - 2, "\r\n", 2), 0, "%s: CR LF at the end", about);
    put_ship_line(&check, &(ship_line){.hw_id = c.hw_id});
    check.line_length = issued.length - 2;
    memcpy(check.line, issued.out, check.line_length);
    type_hex(check.line + CIPHER_PARTS, CELL_PERMIT - CIPHER_PARTS);
    lambukir_line read = compare_call(book, BOOK, &lists, &check).line;
    lambukir_line expected = {cell->name, cell->key_one, cell->key_two, c.expiry, c.level, cell->edition, t->server, read.number};
    same((uint64_t)is_refusal(read.number), 0, "%s: a record", about);
    if (c.level == 1 || c.expiry < TODAY)
        expect(read.number, c.level == 1 ? 0 : 15);
    same_line(&read, &expected);
    read = compare_read_line(c.hw_id, TODAY, t->days, check.line, check.line_length);
    expected.number = read.number;
    same_line(&read, &expected);
}

/* Every cell of full books, for branches some of them, and outputs of each length. */
static void issue(void)
{
    for (int i = 0; i < 12; i++) {
        some_book(MOST, MOST);
        for (uint32_t t = 0; t < TENANTS; t++)
            for (size_t n = 0; n < cells_of(t); n += is_branch(t) ? 1 + random_below(32) : 1) {
                ABOUT("full book %d, cell %zu of tenant %" PRIu32, i, n, t);
                issue_and_read(t, &lists.tenants[reads(t)].cells[n]);
            }
        for (uint32_t t = 0; t < TENANTS; t++)
            for (size_t length = 0; length <= 80 && cells_of(t) > 0; length++) {
                const model_cell *cell = held_cell(t);
                call c = some_call(ISSUE, t, cell->name);
                c.expiry = allowed_expiry(cell->last_expiry);
                random_bytes(c.out, c.out_length = length);
                ABOUT("full book %d, output of %zu bytes", i, length);
                expect(compare_call(book, BOOK, &lists, &c).number, length < WRITTEN ? 108 : 0);
            }
    }
}

static uint32_t compare_kind(int kind, uint32_t tenant, uint64_t name)
{
    call c = some_call(kind, tenant, name);
    return compare_call(book, BOOK, &lists, &c).number;
}

/* A tenant with its quota used: what it holds is replaced, what is new is refused, and what it gives up is free at once. A branch enters and withdraws
   nothing. */
static void use_quota(uint32_t tenant)
{
    ABOUT("tenant %" PRIu32 " with its quota of %" PRIu32 " used", tenant, lists.tenants[tenant].quota);
    expect(compare_kind(ENTER, tenant, absent_name(tenant)), is_branch(tenant) ? 111 : 105);
    if (is_branch(tenant) && cells_of(tenant) > 0) {
        expect(compare_kind(ENTER, tenant, held_name(tenant)), 111);
        expect(compare_kind(WITHDRAW, tenant, held_name(tenant)), 111);
    }
    if (lists.tenants[tenant].held == 0)
        return;
    for (int i = 0; i < 3; i++) {
        uint64_t withdrawn = held_name(tenant);
        expect(compare_kind(ENTER, tenant, held_name(tenant)), 0);
        expect(compare_kind(WITHDRAW, tenant, withdrawn), 0);
        expect(compare_kind(WITHDRAW, tenant, withdrawn), 104);
        expect(compare_kind(ASK_EDITION, tenant, withdrawn), 104);
        expect(compare_kind(ENTER, tenant, i == 0 ? withdrawn : absent_name(tenant)), 0);
        expect(compare_kind(ENTER, tenant, absent_name(tenant)), 105);
    }
}

/* Books from empty to the last record, each tenant entering up to its quota while the others hold all that they may, or nothing. */
static void quota(void)
{
    for (int i = 0; i < 12; i++) {
        some_quotas(i % 3 == 2 ? 100 : MOST);
        some_principals();
        open_lists();
        model_bytes_of_book(&lists, book);
        for (uint32_t n = 0; n < TENANTS; n++) {
            uint32_t tenant = (5 * n + (uint32_t)i) % TENANTS;
            ABOUT("tenant %" PRIu32 " below its quota, round %d", tenant, i);
            while (lists.tenants[tenant].held < lists.tenants[tenant].quota)
                expect(compare_kind(ENTER, tenant, absent_name(tenant)), 0);
            use_quota(tenant);
        }
        for (uint32_t t = 0; t < TENANTS; t++)
            use_quota(t);
        same(record_count(), i % 3 == 2 ? 100 : MOST, "round %d: records in the end", i);
    }
}

/* Which producers a tenant has a cell of, by every record of the bytes. */
static void held_producers(uint32_t tenant, uint8_t held[65536])
{
    memset(held, 0, 65536);
    for (const uint8_t *r = book + RECORDS; r < book + RECORDS + record_count() * RECORD_SIZE; r += RECORD_SIZE)
        if (r[0] == reads(tenant))
            held[r[NAME_AT] * 256 + r[NAME_AT + 1]] = 1;
}

/* Each pair of bytes, asked of one tenant; and numbers that are no pair. */
static void every_pair(uint32_t tenant)
{
    static uint8_t held[65536];
    held_producers(tenant, held);
    for (uint32_t pair = 0; pair < 65536; pair++) {
        int good = pair >> 8 && pair & 255 && strchr(NAMES, (int)(pair >> 8)) && strchr(NAMES, (int)(pair & 255));
        lambukir_held ours = lambukir_ask_producer(book, BOOK, tenant, pair);
        same(ours.number, good ? 0 : 103, "producer %04" PRIX32 " of tenant %" PRIu32 ": number", pair, tenant);
        same(ours.held, held[pair], "producer %04" PRIX32 " of tenant %" PRIu32 ": held", pair, tenant);
    }
    for (int i = 0; i < 4000; i++) {
        uint32_t more = some_two() + (1 + (uint32_t)random_below(65535)) * 65536;
        lambukir_held ours = lambukir_ask_producer(book, BOOK, tenant, more);
        same(ours.number, 103, "producer %08" PRIX32 " of tenant %" PRIu32 ": number", more, tenant);
        same(ours.held, 0, "producer %08" PRIX32 " of tenant %" PRIu32 ": held", more, tenant);
    }
}

/* A book whose names begin with few characters, so that each tenant's producers are its neighbours' too: what all tenants are answered of those near them. */
static void few_producers(const char *first, const char *second)
{
    static uint8_t held[65536];
    some_quotas(MOST);
    some_principals();
    open_lists();
    for (uint32_t t = 0; t < TENANTS; t++)
        while (lists.tenants[t].held < quotas[t] && random_below(40) != 0)
            model_enter(&lists, t, (some_text(first, 1) << 8 | some_text(second, 1)) << 48 | some_text(NAMES, 6), 1, some_key(), some_key(), 0);
    model_bytes_of_book(&lists, book);
    for (uint32_t t = 0; t < TENANTS; t++) {
        held_producers(t, held);
        for (const char *a = "09ABYZ"; *a; a++)
            for (const char *b = "09ABYZ"; *b; b++) {
                call c = some_call(ASK_PRODUCER, t, 0);
                c.producer = (uint32_t)*a << 8 | (uint32_t)*b;
                ABOUT("producer %c%c of tenant %" PRIu32 ", names of %s and then %s", *a, *b, t, first, second);
                same(compare_call(book, BOOK, &lists, &c).held, held[c.producer], "%s: held, by every record", about);
            }
    }
}

static void producers(void)
{
    static const uint32_t filled[] = {0, 40, MOST};
    static const char *const characters[] = {"0", "Z", "0Z", "AB", "9A", "YZ"};
    for (size_t i = 0; i < COUNT(filled); i++) {
        some_book(filled[i], MOST);
        every_pair(filled[i] == 0 ? 0 : book[RECORDS + random_below(filled[i]) * RECORD_SIZE]); /* a tenant that holds something */
    }
    for (size_t i = 0; i < COUNT(characters); i++)
        for (size_t j = 0; j < COUNT(characters); j++)
            few_producers(characters[i], characters[j]);
}

/* A call of the house that is done, and tells so many records moved: those that stand after the cell in the bytes of the new book. */
static void compare_house(int kind, uint32_t tenant, uint64_t name, int replaces)
{
    call c = some_call(kind, tenant, name);
    uint8_t own[9] = {(uint8_t)tenant};
    uint32_t after = 0;
    for (size_t i = 0; i < 8; i++)
        own[1 + i] = (uint8_t)(name >> (56 - 8 * i));
    answer ours = compare_call(book, BOOK, &lists, &c);
    for (const uint8_t *r = book + RECORDS; r < book + RECORDS + record_count() * RECORD_SIZE; r += RECORD_SIZE)
        after += memcmp(r, own, sizeof own) > 0;
    expect(ours.number, 0);
    same(ours.moved, replaces ? 0 : after, "%s: moved, by every record", about);
}

/* A name that is out and in again by the house, and is replaced. */
static void out_and_in(uint32_t tenant, uint64_t name)
{
    ABOUT("%" PRIX64 " of tenant %" PRIu32 " in a book with %zu records", name, tenant, record_count());
    compare_house(HOUSE_WITHDRAW, tenant, name, 0);
    compare_house(HOUSE_ENTER, tenant, name, 0);
    compare_house(HOUSE_ENTER, tenant, name, 1);
}

/* The first and the last name that there is, of a tenant that has room for one; then again, as it holds them. */
static void at_the_ends(uint32_t tenant)
{
    static const char *const ends[] = {"00000000", "ZZZZZZZZ"};
    for (size_t i = 0; i < COUNT(ends); i++) {
        uint64_t name = number_from(ends[i]);
        ABOUT("%s of tenant %" PRIu32 " in a book with %zu records", ends[i], tenant, record_count());
        if (lists.tenants[tenant].held == lists.tenants[tenant].quota) {
            expect(compare_kind(HOUSE_ENTER, tenant, absent_name(tenant)), 105);
            compare_house(HOUSE_WITHDRAW, tenant, held_name(tenant), 0);
        }
        compare_house(HOUSE_ENTER, tenant, name, 0);
        out_and_in(tenant, name);
        expect(compare_kind(HOUSE_WITHDRAW, tenant, absent_name(tenant)), 104);
        if (i == 1 || random_below(2))
            compare_house(HOUSE_WITHDRAW, tenant, name, 0);
    }
}

/* Each record of the book, and both ends of each tenant's. */
static void every_place(void)
{
    for (uint32_t t = 0; t < TENANTS; t++) {
        for (size_t n = 0; n < lists.tenants[t].held; n++)
            out_and_in(t, lists.tenants[t].cells[n].name);
        if (lists.tenants[t].quota > 0)
            at_the_ends(t);
    }
}

/* Empty, nearly empty, half-full and full books: of sixteen tenants that hold something like the same, and of some that hold much. */
static void house(void)
{
    static const uint32_t filled[] = {0, 1, 2, 40, MOST / 2, MOST - 1, MOST};
    for (size_t i = 0; i < COUNT(filled); i++) {
        for (size_t t = 0; t < TENANTS; t++)
            quotas[t] = MOST / TENANTS;
        no_principals();
        fill_book(filled[i]);
        every_place();
        some_book(filled[i], MOST);
        every_place();
    }
}

int main(int argc, char **argv)
{
    static const subject subjects[] = {
        {"book-worked", worked},
        {"book-sequences", sequences},
        {"book-mixings", mixings},
        {"book-damage", damage},
        {"book-broken", broken},
        {"book-used-lengths", used_lengths},
        {"book-lengths", lengths},
        {"book-opening", opening},
        {"book-orders", orders},
        {"book-issue", issue},
        {"book-quota", quota},
        {"book-producers", producers},
        {"book-house", house},
    };
    seed_random();
    make_materials();
    return run_subjects(subjects, COUNT(subjects), argc, argv);
}
