/* Branches, who read their principals' cells: one written down by hand, mixings that keep the order of the two and that break it, and every byte that may
   name a principal. Against the model, and against what each is due by the calls that it hears. */
#include "books.h"

/* Oslo sells NO4D0613, and its branch from the same list: under its own Data Server ID, with its own warning days. */
static void worked(void)
{
    static const uint16_t given[TENANTS] = {[3] = 2};
    static const uint8_t named[TENANTS] = {[7] = 4};
    const uint64_t name = number_from("NO4D0613"), other = number_from("NO4D0614");
    call issued = some_call(ISSUE, 7, name);
    ABOUT("a branch written down by hand");
    expect(lambukir_open_book(book, BOOK, given, TENANTS, (const uint8_t *)"GBGBGBNOGBGBGBN7GBGBGBGBGBGBGBGB", 32, named, TENANTS), 0);
    same((uint64_t)memcmp(book + SETTINGS + 7 * SETTING, "\0\0\x1EN7\4", SETTING), 0, "%s: its setting", about);
    same((uint64_t)memcmp(book + SETTINGS + 3 * SETTING, "\0\2\x1ENO\0", SETTING), 0, "%s: its principal's", about);
    expect(lambukir_ask_edition(book, BOOK, 7, name).number, 104);
    expect(lambukir_enter(book, BOOK, 3, name, 9, 0xC1CB518E9C, 0x421571CC66, 0), 0);
    same(lambukir_ask_edition(book, BOOK, 7, name).edition, 9, "%s: edition", about);
    same(lambukir_ask_producer(book, BOOK, 7, 0x4E4F).held, 1, "%s: a cell of NO", about);
    expect(lambukir_ask_edition(book, BOOK, 6, name).number, 104);
    expect(lambukir_set_days(book, BOOK, 3, 90), 0);
    expect(lambukir_set_days(book, BOOK, 7, 10), 0);
    issued.expiry = days_after(TODAY, 50);
    issued.level = 0;
    answer line = run_ours(book, BOOK, &issued);
    expect(line.number, 0);
    same((uint64_t)memcmp(line.out + CELL_PERMIT, ",0,9,N7,\r\n", 10), 0, "%s: its line's end", about);
    expect(lambukir_check(book, BOOK, 7, issued.hw_id, TODAY, line.out, line.length - 2).number, 0);
    expect(lambukir_check(book, BOOK, 3, issued.hw_id, TODAY, line.out, line.length - 2).number, 20);
    expect(lambukir_enter(book, BOOK, 7, name, 10, 1, 2, 0), 111);
    expect(lambukir_enter(book, BOOK, 7, other, 10, 1, 2, TODAY), 111);
    expect(lambukir_enter(book, BOOK, 7, other, 0, 1, 2, 0), 103);
    expect(lambukir_enter(book, BOOK, 7, other, 10, 1, 2, 1), 103);
    expect(lambukir_withdraw(book, BOOK, 7, name), 111);
    expect(lambukir_withdraw(book, BOOK, 7, other), 111);
    expect(lambukir_house_enter(book, BOOK, 7, other, 10, 1, 2, 0).number, 111);
    expect(lambukir_house_withdraw(book, BOOK, 7, name).number, 111);
    expect(lambukir_withdraw(book, BOOK, 3, name), 0);
    expect(lambukir_ask_edition(book, BOOK, 7, name).number, 104);
}

/* A desk: two principals, two branches of the first and one of the second, and one that shares no list. */
#define MEMBERS 6
#define CALLS 60
static const size_t principal_of[MEMBERS] = {0, 1, 0, 0, 1, 5};
static uint32_t members[MEMBERS];
static struct {
    size_t member;
    call made;
    answer given; /* as they were made one after the other */
} calls[CALLS];
static model_book after_all;

static void open_desk(void)
{
    uint32_t first = (uint32_t)random_below(TENANTS), step = 1 + 2 * (uint32_t)random_below(8);
    some_quotas(200);
    no_principals();
    for (size_t m = 0; m < MEMBERS; m++) {
        members[m] = (first + step * (uint32_t)m) % TENANTS;
        quotas[members[m]] = principal_of[m] == m ? (uint16_t)random_below(40) : 0;
    }
    for (size_t m = 0; m < MEMBERS; m++)
        principals[members[m]] = principal_of[m] == m ? 0 : (uint8_t)(members[principal_of[m]] + 1);
    open_lists();
    for (uint32_t t = 0; t < TENANTS; t++)
        fill(t, random_below(quotas[t] + 1u));
    model_bytes_of_book(&lists, book);
}

static int changes_cells(const call *c)
{
    return is_enter(c->kind) || c->kind == WITHDRAW || c->kind == HOUSE_WITHDRAW;
}

/* Whether a member's answers go by a call: its own, or its principal's that enters or withdraws. */
static int hears(size_t member, size_t n)
{
    return calls[n].member == member || (calls[n].member == principal_of[member] && changes_cells(&calls[n].made));
}

/* 60 calls of the members, each about one of a few names of the list that it reads. Now and then one has a wrong value. */
static void make_calls(void)
{
    static const int kinds[] = {ENTER,    ENTER,       WITHDRAW,    WITHDRAW,     HOUSE_ENTER, HOUSE_WITHDRAW,
                                SET_DAYS, ASK_EDITION, ASK_EDITION, ASK_PRODUCER, ISSUE,       ISSUE, CHECK};
    uint64_t names[MEMBERS][4]; /* of each list, under the member that keeps it */
    for (size_t m = 0; m < MEMBERS; m++)
        for (size_t i = 0; i < COUNT(names[m]); i++)
            names[m][i] = cells_of(members[m]) > 0 && i % 2 ? held_name(members[m]) : absent_name(members[m]);
    for (size_t n = 0; n < CALLS; n++) {
        size_t m = calls[n].member = random_below(MEMBERS);
        calls[n].made = some_call(PICK(kinds), members[m], PICK(names[principal_of[m]]));
        if (random_below(8) == 0)
            spoil(&calls[n].made, calls[n].made.kind == CHECK ? 18 : 103);
    }
}

/* One after the other, by library and model. */
static void run_in_turn(int which)
{
    memcpy(copy, book, BOOK);
    after_all = lists;
    for (size_t n = 0; n < CALLS; n++) {
        ABOUT("desk %d, call %zu: %s", which, n, kind_names[calls[n].made.kind]);
        calls[n].given = compare_call(copy, BOOK, &after_all, &calls[n].made);
        calls[n].given.moved = 0; /* no tenant's answer: it depends on the others */
    }
}

/* The calls that a member hears, in a book with nobody else's cells: it gets the same answers. */
static void run_heard(int which, size_t m)
{
    uint32_t own = members[m], keeper = members[principal_of[m]];
    for (size_t t = 0; t < TENANTS; t++)
        changed.tenants[t] = t == own || t == keeper ? lists.tenants[t] : (model_tenant){.days = 1, .server = 0x3030};
    model_bytes_of_book(&changed, copy);
    for (size_t n = 0; n < CALLS; n++) {
        ABOUT("desk %d, call %zu of those that tenant %" PRIu32 " hears: %s", which, n, own, kind_names[calls[n].made.kind]);
        if (!hears(m, n))
            continue;
        answer ours = compare_call(copy, BOOK, &changed, &calls[n].made);
        ours.moved = 0;
        if (calls[n].member == m)
            same_answer(&ours, &calls[n].given);
    }
}

/* Two calls that must keep their order: of one tenant; or, where that is asked for, of a branch and of its principal that enters or withdraws. */
static int in_order(size_t one, size_t two, int kept)
{
    return calls[one].member == calls[two].member || (kept && (hears(calls[one].member, two) || hears(calls[two].member, one)));
}

/* A mixing at random: each time one of the calls that need wait for no other. */
static void mix(size_t mixed[CALLS], int kept)
{
    int done[CALLS] = {0};
    for (size_t at = 0; at < CALLS; at++) {
        size_t ready[CALLS], count = 0;
        for (size_t n = 0; n < CALLS; n++) {
            size_t earlier = 0;
            while (earlier < n && (done[earlier] || !in_order(earlier, n, kept)))
                earlier++;
            if (!done[n] && earlier == n)
                ready[count++] = n;
        }
        mixed[at] = ready[random_below(count)];
        done[mixed[at]] = 1;
    }
}

/* Whether a member hears the calls of a mixing in the order in which they were made. */
static int heard_in_order(size_t m, const size_t mixed[CALLS])
{
    size_t last = 0;
    for (size_t at = 0; at < CALLS; at++) {
        if (!hears(m, mixed[at]))
            continue;
        if (mixed[at] < last)
            return 0;
        last = mixed[at];
    }
    return 1;
}

static int is_same(const answer *one, const answer *two)
{
    return one->number == two->number && one->edition == two->edition && one->held == two->held && one->length == two->length
           && memcmp(one->out, two->out, OUT_ROOM) == 0 && memcmp(&one->line, &two->line, sizeof one->line) == 0;
}

static uint32_t differing, unbroken; /* answers that a broken order changed; and branches whose order a mixing that did not care kept */

/* One mixing. Whoever hears its calls in their order gets the answers that it got; the book in the end is the same to the last byte in any case. */
static void run_mixed(int which, int mixing, int kept)
{
    size_t mixed[CALLS];
    int in_turn[MEMBERS];
    mix(mixed, kept);
    for (size_t m = 0; m < MEMBERS; m++) {
        in_turn[m] = heard_in_order(m, mixed);
        if (kept || principal_of[m] == m)
            same((uint64_t)in_turn[m], 1, "desk %d, mixing %d: the order of member %zu", which, mixing, m);
        else
            unbroken += in_turn[m] != 0;
    }
    memcpy(copy, book, BOOK);
    changed = lists;
    for (size_t at = 0; at < CALLS; at++) {
        size_t n = mixed[at];
        ABOUT("desk %d, mixing %d: call %zu, %s of tenant %" PRIu32, which, mixing, n, kind_names[calls[n].made.kind], calls[n].made.tenant);
        answer ours = kept ? run_ours(copy, BOOK, &calls[n].made) : compare_call(copy, BOOK, &changed, &calls[n].made);
        ours.moved = 0;
        if (in_turn[calls[n].member])
            same_answer(&ours, &calls[n].given);
        else
            differing += !is_same(&ours, &calls[n].given);
    }
    ABOUT("desk %d, mixing %d", which, mixing);
    same_book(copy, &after_all);
}

static void mixings(void)
{
    memset(seen, 0, sizeof seen);
    for (int i = 0; i < 120; i++) {
        open_desk();
        make_calls();
        run_in_turn(i);
        for (size_t m = 0; m < MEMBERS; m++)
            run_heard(i, m);
        for (int mixing = 0; mixing < 20; mixing++)
            run_mixed(i, mixing, 1);
        for (int mixing = 20; mixing < 28; mixing++)
            run_mixed(i, mixing, 0);
    }
    same(differing >= 100, 1, "a broken order changed %" PRIu32 " answers", differing);
    same(unbroken >= 1, 1, "a branch's order was kept by chance %" PRIu32 " times", unbroken);
    for (int kind = 0; kind < KINDS; kind++)
        if (orders_of[kind][3] == 111)
            same(seen[kind][111] >= 50, 1, "%s: 111 came up %" PRIu32 " times", kind_names[kind], seen[kind][111]);
}

/* Each call of a tenant on the copy, about a cell that somebody holds: by the model, or 101. */
static void compare_copy(uint32_t tenant)
{
    int damaged = !model_is_book(copy, BOOK);
    if (!damaged)
        model_book_of_bytes(copy, &changed);
    for (int kind = 0; kind < KINDS; kind++) {
        call c = some_call(kind, tenant, lists.tenants[book[RECORDS]].cells[0].name);
        compare_call(copy, BOOK, &changed, &c);
    }
    same((uint64_t)model_is_book(copy, BOOK), (uint64_t)!damaged, "%s: damaged or not, as before", about);
}

/* Every byte in each setting's last place, in full books: of tenants with a quota and without, with branches and without. */
static void every_byte(void)
{
    for (int i = 0; i < 6; i++) {
        some_quotas(MOST);
        if (i % 2)
            some_principals();
        else
            no_principals();
        fill_book(MOST);
        for (uint32_t t = 0; t < TENANTS; t++)
            for (unsigned byte = 0; byte < 256; byte++) {
                memcpy(copy, book, BOOK);
                copy[SETTINGS + t * SETTING + SPARE_AT] = (uint8_t)byte;
                ABOUT("full book %d, principal of tenant %" PRIu32 " as %02X", i, t, byte);
                compare_copy(t);
            }
    }
}

int main(int argc, char **argv)
{
    static const subject subjects[] = {
        {"branches-worked", worked},
        {"branches-mixings", mixings},
        {"branches-every-byte", every_byte},
    };
    seed_random();
    make_materials();
    return run_subjects(subjects, COUNT(subjects), argc, argv);
}
