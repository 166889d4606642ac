/* A tenant's call on a book as a value: it can be made at random, spoilt so that a given number is due, kept, mixed with others, and run by the library
   and by the model. */
#ifndef BOOK_CALLS_H
#define BOOK_CALLS_H

#include "calls.h"
#include "values.h"

#define BOOK LAMBUKIR_BOOK_SIZE
#define TENANTS MODEL_TENANTS
#define BOOK_ROOM (BOOK + 64) /* room for a book that is too long */
#define LINE_ROOM (LONGEST_LINE + 40)
#define PERMIT 28
#define PERMIT_ROOM (PERMIT + 9)
#define WRITTEN 76
#define OUT_ROOM 100
#define TODAY 20240131
#define SHIPS 16
#define LINES 48
#define NUMBERS 128

/* Those that change the book come first. Enter and withdraw have a form for the house. */
enum { ENTER, WITHDRAW, HOUSE_ENTER, HOUSE_WITHDRAW, SET_DAYS, ASK_EDITION, ASK_PRODUCER, ISSUE, CHECK, KINDS };
static const char *const kind_names[KINDS] = {"enter", "withdraw", "house enter", "house withdraw", "set days", "ask edition", "ask producer", "issue", "check"};

/* The rules' order of refusals of each call, ended by 0. */
static const uint32_t orders_of[KINDS][12] = {
    [ENTER] = {101, 102, 103, 111, 105},
    [WITHDRAW] = {101, 102, 103, 111, 104},
    [HOUSE_ENTER] = {101, 102, 103, 111, 105},
    [HOUSE_WITHDRAW] = {101, 102, 103, 111, 104},
    [SET_DAYS] = {101, 102, 103},
    [ASK_EDITION] = {101, 102, 103, 104},
    [ASK_PRODUCER] = {101, 102, 103},
    [ISSUE] = {101, 109, 102, 108, 103, 106, 17, 107, 18, 104, 112},
    [CHECK] = {101, 102, 18, 14, 12, 13, 21},
};

/* A call with all that its kind asks for; the rest is not looked at. */
typedef struct {
    int kind;
    uint32_t tenant, producer, edition, last_expiry, days, expiry, level, today;
    uint64_t name, key_one, key_two, hw_id;
    const uint8_t *reg;
    size_t reg_length, permit_length, line_length, out_length;
    uint8_t permit[PERMIT_ROOM], line[LINE_ROOM], out[OUT_ROOM]; /* out as it is before the call */
} call;

/* All that a call answers; what its kind does not answer is 0. */
typedef struct {
    uint32_t number, edition, held, moved;
    uint64_t length;
    lambukir_line line;
    uint8_t out[OUT_ROOM];
} answer;

typedef struct {
    uint64_t hw_id;
    uint8_t permit[PERMIT];
} ship;

typedef struct {
    uint64_t hw_id;
    size_t length;
    uint8_t bytes[LINE_ROOM];
} ship_line;

/* What calls are made of: a register and others that are damaged, ships with their user permits, lines. */
static uint8_t good_register[40 * ENTRY_BYTES], bad_registers[4][41 * ENTRY_BYTES];
static size_t good_register_length, bad_register_lengths[4];
static ship ships[SHIPS], no_ships[SHIPS], strangers[SHIPS]; /* no_ships decipher to no HW_ID, strangers have an M_ID that is not in the register */
static ship_line lines[LINES], unpadded[LINES];
static uint32_t seen[KINDS][NUMBERS]; /* how often each number was compared */
static uint32_t seen_held[2];         /* how often no and yes were, of a producer */

static inline void make_registers(void)
{
    size_t length = good_register_length = some_register(good_register, 40);
    for (size_t i = 0; i < COUNT(bad_registers); i++) {
        memcpy(bad_registers[i], good_register, length);
        bad_register_lengths[i] = length;
    }
    bad_register_lengths[0] = length - 1;
    memcpy(bad_registers[1] + ENTRY_BYTES, bad_registers[1], 2);
    bad_registers[2][3 * ENTRY_BYTES + 1] = '@';
    bad_registers[3][length - 1] = 'G';
}

/* An M_ID that the register has not. */
static inline uint32_t absent_m_id(void)
{
    for (;;) {
        uint32_t m_id = some_two();
        size_t entry = 0;
        while (entry < good_register_length / ENTRY_BYTES && m_id_at(good_register, entry) != m_id)
            entry++;
        if (entry == good_register_length / ENTRY_BYTES)
            return m_id;
    }
}

/* A block that deciphers to no HW_ID: a bad character, a small letter too, or a bad padding. */
static inline uint64_t no_hw_id_block(void)
{
    if (random_below(2))
        return (some_text(HEX, 4) << 8 | (uint8_t)NO_UPPER_HEX[random_below(sizeof NO_UPPER_HEX)]) << 24 | 0x030303;
    return (some_hw_id() << 24 | 0x030303) ^ (uint64_t)1 << random_below(24);
}

/* A ship's user permits: a good one, one over a block that holds no HW_ID, and one of an unknown manufacturer. */
static inline void make_ship(size_t i)
{
    size_t entry = random_below(good_register_length / ENTRY_BYTES);
    const uint8_t *m_key = good_register + entry * ENTRY_BYTES + 2;
    uint64_t hw_id = some_hw_id(), block = hw_id << 24 | 0x030303;
    ships[i].hw_id = no_ships[i].hw_id = strangers[i].hw_id = hw_id;
    model_user_permit_of(m_key, block, m_id_at(good_register, entry), ships[i].permit);
    model_user_permit_of(m_key, no_hw_id_block(), m_id_at(good_register, entry), no_ships[i].permit);
    model_user_permit_of(m_key, block, absent_m_id(), strangers[i].permit);
}

/* A good line of some ship, and one with a key that is wrongly padded. */
static inline void make_line(size_t i)
{
    uint64_t hw_id = ships[i % SHIPS].hw_id;
    record r = some_record(i % 4 == 0 ? some_date() : days_after(TODAY, random_below(95)));
    uint64_t one = r.key_one << 24 | 0x030303, two = r.key_two << 24 | 0x030303;
    lines[i].hw_id = unpadded[i].hw_id = hw_id;
    lines[i].length = line_of(&r, hw_id, lines[i].bytes);
    *(i % 2 ? &one : &two) ^= (uint64_t)1 << random_below(24);
    unpadded[i].length = line_over(&r, hw_id, one, two, unpadded[i].bytes);
}

static inline void make_materials(void)
{
    make_registers();
    for (size_t i = 0; i < SHIPS; i++)
        make_ship(i);
    for (size_t i = 0; i < LINES; i++)
        make_line(i);
}

/* User permits, HW_IDs and cipher parts are typed in either case. */
static inline void put_permit(call *c, const ship *s)
{
    c->hw_id = s->hw_id;
    memcpy(c->permit, s->permit, PERMIT);
    type_hex(c->permit, PERMIT);
    c->permit_length = PERMIT;
}

static inline void put_ship_line(call *c, const ship_line *l)
{
    c->hw_id = typed_hw_id(l->hw_id);
    memcpy(c->line, l->bytes, l->length);
    if (l->length > 0)
        type_hex(c->line + CIPHER_PARTS, CELL_PERMIT - CIPHER_PARTS);
    c->line_length = l->length;
}

/* A name that differs from another in one character at most. */
static inline uint64_t near_name(uint64_t name)
{
    size_t shift = 8 * random_below(8);
    return (name & ~((uint64_t)0xFF << shift)) | (uint64_t)(uint8_t)NAMES[random_below(sizeof NAMES - 1)] << shift;
}

/* The producer of a name: its first two characters. */
static inline uint32_t producer_of(uint64_t name)
{
    return (uint32_t)(name >> 48);
}

/* An expiry, often one of few, so that cells are issued for their very last day, for the day before and for the day after. */
static const uint32_t few_dates[] = {20240228, 20240229, 20240301};

static inline uint32_t some_expiry(void)
{
    switch (random_below(4)) {
    case 0: return some_date();
    case 1: return days_after(TODAY, random_below(95));
    default: return PICK(few_dates);
    }
}

/* Of a cell: none, or a date. */
static inline uint32_t some_last_expiry(void)
{
    return random_below(3) ? some_expiry() : 0;
}

/* An expiry that a cell with this last expiry allows. */
static inline uint32_t allowed_expiry(uint32_t last)
{
    return last == 0 ? some_expiry() : date_until(last);
}

/* A call of a kind with good values, for a tenant and a name. */
static inline call some_call(int kind, uint32_t tenant, uint64_t name)
{
    call c = {.kind = kind, .tenant = tenant, .name = name};
    c.producer = producer_of(random_below(4) ? name : some_name());
    c.edition = random_below(3) ? 1 + (uint32_t)random_below(999) : 1 + (uint32_t)random_below(12);
    c.key_one = some_key();
    c.key_two = some_key();
    c.last_expiry = some_last_expiry();
    c.days = some_days();
    c.expiry = some_expiry();
    c.level = (uint32_t)random_below(2);
    c.today = TODAY;
    c.reg = good_register;
    c.reg_length = good_register_length;
    c.out_length = WRITTEN + random_below(OUT_ROOM - WRITTEN + 1);
    random_bytes(c.out, c.out_length);
    memset(c.permit, 'A', sizeof c.permit);
    if (kind == CHECK)
        put_ship_line(&c, &PICK(lines));
    else
        put_permit(&c, &PICK(ships));
    return c;
}

static const uint32_t no_tenants[] = {16, 17, 31, 32, 255, 256, 257, 271, 65536, 65541, 2147483648, 2147483651, 4294967295};
static const uint32_t no_editions[] = {0, 1000, 1001, 1023, 1024, 9999, 65535, 65536, 65537, 66535, 2147483649, 4294967295};

static inline int is_enter(int kind)
{
    return kind == ENTER || kind == HOUSE_ENTER;
}

/* Puts one of the call's values out of its range. */
static inline void spoil_value(call *c)
{
    uint64_t which = random_below(is_enter(c->kind) ? 5 : c->kind == ISSUE ? 3 : 1);
    if (c->kind == SET_DAYS)
        c->days = PICK(no_days);
    else if (c->kind == ASK_PRODUCER)
        c->producer = no_two();
    else if (which == 0)
        c->name = no_name();
    else if (c->kind == ISSUE && which == 1)
        c->expiry = no_date(1);
    else if (c->kind == ISSUE)
        c->level = 2 + (uint32_t)(random64() >> (32 + random_below(32))) % 4294967294;
    else if (which == 1)
        c->edition = PICK(no_editions);
    else if (which == 4)
        c->last_expiry = no_last_expiry();
    else
        *(which == 2 ? &c->key_one : &c->key_two) = no_key();
}

/* Another length, or a character that is no hex. */
static inline void spoil_permit(call *c)
{
    if (random_below(2))
        c->permit[random_below(PERMIT)] = (uint8_t)NO_HEX[random_below(sizeof NO_HEX)];
    else
        c->permit_length = random_below(2) ? random_below(PERMIT) : PERMIT + 1 + random_below(PERMIT_ROOM - PERMIT);
}

static inline void spoil_register(call *c)
{
    size_t which = random_below(COUNT(bad_registers));
    c->reg = bad_registers[which];
    c->reg_length = bad_register_lengths[which];
}

/* Spoils a call so that a number is due, of those that come neither from the book's damage nor from what it holds and
   whom a tenant names (101, 104, 105, 111, 112).
   For two numbers at once the later one of the rules' order is to be spoilt first. */
static inline void spoil(call *c, uint32_t number)
{
    switch (number) {
    case 102: c->tenant = PICK(no_tenants); break;
    case 103: spoil_value(c); break;
    case 109: spoil_register(c); break;
    case 108: c->out_length = random_below(WRITTEN); break;
    case 106: spoil_permit(c); break;
    case 17: change_hex(c->permit + random_below(24)); break;
    case 107: put_permit(c, &PICK(strangers)); break;
    case 18: if (c->kind == CHECK) c->hw_id = no_hw_id(); else put_permit(c, &PICK(no_ships)); break;
    case 14: c->today = no_date(1); break;
    case 12: c->line_length = spoil_shape(c->line, c->line_length); break;
    case 13: change_hex(c->line + 48 + random_below(16)); break;
    case 21: put_ship_line(c, &PICK(unpadded)); break;
    }
}

/* The library issues; register, permit and out lie between guard bytes. */
static inline void our_issue(const uint8_t *book, size_t length, const call *c, answer *a)
{
    lent r = lend(c->reg, c->reg_length, random_below(16)), p = lend(c->permit, c->permit_length, random_below(16));
    lent out = lend(c->out, c->out_length, random_below(16));
    lambukir_written w = lambukir_issue(book, length, r.bytes, r.length, c->tenant, c->name, c->expiry, c->level, p.bytes, p.length, out.bytes, out.length);
    a->number = w.number;
    a->length = w.length;
    memcpy(a->out, out.bytes, out.length);
    same_kept(&r, "register");
    same_kept(&p, "user permit");
    same_out(&out, a->out, w.length <= out.length ? w.length : out.length);
}

static inline void our_check(const uint8_t *book, size_t length, const call *c, answer *a)
{
    lent l = lend(c->line, c->line_length, random_below(16));
    a->line = lambukir_check(book, length, c->tenant, c->hw_id, c->today, l.bytes, l.length);
    a->number = a->line.number;
    same_kept(&l, "line");
}

/* What the house is answered. */
static inline void tell_moved(answer *a, lambukir_moved m)
{
    a->number = m.number;
    a->moved = m.moved;
}

/* The library's answer on a book that the caller has lent. */
static inline answer our_answer(uint8_t *book, size_t length, const call *c)
{
    answer a = {0};
    lambukir_edition e;
    lambukir_held h;
    switch (c->kind) {
    case ENTER: a.number = lambukir_enter(book, length, c->tenant, c->name, c->edition, c->key_one, c->key_two, c->last_expiry); break;
    case WITHDRAW: a.number = lambukir_withdraw(book, length, c->tenant, c->name); break;
    case HOUSE_ENTER: tell_moved(&a, lambukir_house_enter(book, length, c->tenant, c->name, c->edition, c->key_one, c->key_two, c->last_expiry)); break;
    case HOUSE_WITHDRAW: tell_moved(&a, lambukir_house_withdraw(book, length, c->tenant, c->name)); break;
    case SET_DAYS: a.number = lambukir_set_days(book, length, c->tenant, c->days); break;
    case ASK_EDITION:
        e = lambukir_ask_edition(book, length, c->tenant, c->name);
        a.number = e.number;
        a.edition = e.edition;
        break;
    case ASK_PRODUCER:
        h = lambukir_ask_producer(book, length, c->tenant, c->producer);
        a.number = h.number;
        a.held = h.held;
        break;
    case ISSUE: our_issue(book, length, c, &a); break;
    default: our_check(book, length, c, &a);
    }
    return a;
}

/* The model's answer on the lists of an undamaged book. */
static inline answer their_answer(model_book *b, const call *c)
{
    answer a = {0};
    lambukir_edition e;
    lambukir_held h;
    lambukir_written w;
    switch (c->kind) {
    case ENTER: a.number = model_enter(b, c->tenant, c->name, c->edition, c->key_one, c->key_two, c->last_expiry); break;
    case WITHDRAW: a.number = model_withdraw(b, c->tenant, c->name); break;
    case HOUSE_ENTER: tell_moved(&a, model_house_enter(b, c->tenant, c->name, c->edition, c->key_one, c->key_two, c->last_expiry)); break;
    case HOUSE_WITHDRAW: tell_moved(&a, model_house_withdraw(b, c->tenant, c->name)); break;
    case SET_DAYS: a.number = model_set_days(b, c->tenant, c->days); break;
    case ASK_EDITION:
        e = model_ask_edition(b, c->tenant, c->name);
        a.number = e.number;
        a.edition = e.edition;
        break;
    case ASK_PRODUCER:
        h = model_ask_producer(b, c->tenant, c->producer);
        a.number = h.number;
        a.held = h.held;
        break;
    case ISSUE:
        memcpy(a.out, c->out, c->out_length);
        w = model_issue(b, c->reg, c->reg_length, c->tenant, c->name, c->expiry, c->level, c->permit, c->permit_length, a.out, c->out_length);
        a.number = w.number;
        a.length = w.length;
        break;
    default:
        a.line = model_check(b, c->tenant, c->hw_id, c->today, c->line, c->line_length);
        a.number = a.line.number;
    }
    return a;
}

/* The answer to a call on a damaged book. */
static inline answer damaged_answer(const call *c)
{
    answer a = {.number = 101};
    if (c->kind == CHECK)
        a.line.number = 101;
    if (c->kind == ISSUE)
        memcpy(a.out, c->out, c->out_length);
    return a;
}

/* Every field of two answers, and every byte of their outputs. */
static inline void same_answer(const answer *ours, const answer *theirs)
{
    same(ours->number, theirs->number, "%s: number", about);
    same(ours->edition, theirs->edition, "%s: edition", about);
    same(ours->held, theirs->held, "%s: held", about);
    same(ours->moved, theirs->moved, "%s: moved", about);
    same(ours->length, theirs->length, "%s: length of the written line", about);
    same((uint64_t)memcmp(ours->out, theirs->out, OUT_ROOM), 0, "%s: out", about);
    same_line(&ours->line, &theirs->line);
    if (is_refusal(ours->number))
        same(ours->edition | ours->held | ours->moved | ours->length, 0, "%s: values of a refusal", about);
}

/* Lends a copy of the book for one call of the library. What the call made of it comes back in its place. */
static inline answer run_ours(uint8_t *book, size_t length, const call *c)
{
    lent l = lend(book, length, random_below(16));
    answer ours = our_answer(l.bytes, length, c);
    int changes = ours.number == 0 && c->kind <= SET_DAYS;
    same((uint64_t)zones_kept(&l), 1, "%s: the guard bytes of the book", about);
    if (!changes)
        same((uint64_t)memcmp(l.bytes, book, length), 0, "%s: the book, against what it was", about);
    memcpy(book, l.bytes, length);
    give_back(&l);
    return ours;
}

/* The bytes are those of the lists. */
static inline void same_book(const uint8_t *book, const model_book *lists)
{
    static uint8_t theirs[BOOK];
    model_bytes_of_book(lists, theirs);
    same((uint64_t)memcmp(book, theirs, BOOK), 0, "%s: the book, against the model's", about);
}

/* One call of both: on an undamaged book, whose lists these are, or on a damaged one, whose lists do not matter. The book goes on as the model's. */
static inline answer compare_call(uint8_t *book, size_t length, model_book *lists, const call *c)
{
    int damaged = !model_is_book(book, length);
    answer ours = run_ours(book, length, c), theirs = damaged ? damaged_answer(c) : their_answer(lists, c);
    same_answer(&ours, &theirs);
    if (!damaged) {
        same_book(book, lists);
        model_bytes_of_book(lists, book);
    }
    if (ours.number < NUMBERS)
        seen[c->kind][ours.number]++;
    if (c->kind == ASK_PRODUCER && ours.number == 0)
        seen_held[ours.held != 0]++;
    return ours;
}

/* One opening of both, over bytes of any kind. */
static inline uint32_t compare_open_book(uint8_t *book, size_t length, const uint16_t *quotas, size_t quotas_length, const uint8_t *ids, size_t ids_length,
                                         const uint8_t *principals, size_t principals_length, model_book *lists)
{
    lent b = lend(book, length, random_below(16)), q = lend(quotas, quotas_length * sizeof *quotas, 2 * random_below(8));
    lent i = lend(ids, ids_length, random_below(16)), p = lend(principals, principals_length, random_below(16));
    uint32_t number =
        lambukir_open_book(b.bytes, length, (const uint16_t *)(const void *)q.bytes, quotas_length, i.bytes, ids_length, p.bytes, principals_length);
    same(number, model_open_book(lists, length, quotas, quotas_length, ids, ids_length, principals, principals_length), "%s: number of open", about);
    same((uint64_t)zones_kept(&b), 1, "%s: the guard bytes of the book", about);
    if (number == 0 && length == BOOK)
        same_book(b.bytes, lists);
    else
        same((uint64_t)memcmp(b.bytes, book, length), 0, "%s: the book, against what it was", about);
    memcpy(book, b.bytes, length);
    give_back(&b);
    same_kept(&q, "quotas");
    same_kept(&i, "IDs");
    same_kept(&p, "principals");
    return number;
}

#endif
