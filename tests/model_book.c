/* The model's book: for each tenant a list of cells in name order; a branch reads its principal's. The calls work on the lists; bytes are made of them,
   and judged, apart from that. The versions of the book differ in their bytes alone. */
#include "model_parts.h"

#define SETTINGS 5 /* where they begin, after the version and the used length */
#define SETTING 6
#define RECORDS 101
#define LAST_EXPIRY 24 /* where it stands in a record that has one */
#define MOST_CELLS 512
#define FIRST_DAYS 30

const model_version model_version_1 = {1, RECORDS + MOST_CELLS * 24, 24, 0};
const model_version model_version_2 = {2, RECORDS + MOST_CELLS * 28, 28, 4};

/* A tenant names nobody; or it has no quota, and names a tenant other than itself that names nobody. named[0] to named[15] are what the tenants name. */
static bool may_name(size_t tenant, uint64_t quota, const uint8_t *named)
{
    size_t principal = named[tenant];
    if (principal == 0)
        return true;
    if (principal > MODEL_TENANTS || principal - 1 == tenant || quota != 0)
        return false;
    return named[principal - 1] == 0;
}

/* Quotas that fit, and sixteen settings of good form. */
static bool are_settings(const uint8_t *settings)
{
    uint64_t quotas = 0;
    uint8_t named[MODEL_TENANTS];
    for (size_t t = 0; t < MODEL_TENANTS; t++)
        named[t] = settings[t * SETTING + 5];
    for (size_t t = 0; t < MODEL_TENANTS; t++) {
        const uint8_t *s = settings + t * SETTING;
        quotas += number_of(s, 2);
        if (s[2] < 1 || s[2] > 90 || !is_name(s + 3, 2) || !may_name(t, number_of(s, 2), named))
            return false;
    }
    return quotas <= MOST_CELLS;
}

static bool is_last_expiry(uint32_t number)
{
    return number == 0 || is_date(number);
}

/* Of a record's bytes: 0 where its version has none. */
static uint32_t last_expiry_of(const model_version *v, const uint8_t *r)
{
    return (uint32_t)number_of(r + LAST_EXPIRY, v->last_expiry);
}

static bool is_record(const model_version *v, const uint8_t *r)
{
    uint64_t edition = number_of(r + 9, 2);
    return r[0] < MODEL_TENANTS && is_name(r + 1, 8) && edition >= 1 && edition <= 999 && number_of(r + 21, 3) == 0 &&
           is_last_expiry(last_expiry_of(v, r));
}

/* Good records, strictly rising, and of no tenant more than its quota. */
static bool are_records(const model_version *v, const uint8_t *book, size_t used)
{
    uint64_t held[MODEL_TENANTS] = {0};
    for (size_t at = RECORDS; at < used; at += v->record) {
        const uint8_t *r = book + at;
        if (!is_record(v, r) || (at > RECORDS && memcmp(r - v->record, r, 9) >= 0))
            return false;
        held[r[0]]++;
        if (held[r[0]] > number_of(book + SETTINGS + r[0] * SETTING, 2))
            return false;
    }
    return true;
}

bool model_is_book_of(const model_version *v, const uint8_t *book, size_t length)
{
    if (length != v->size || book[0] != v->number)
        return false;
    uint64_t used = number_of(book + 1, 4);
    if (used < RECORDS || used > v->size || (used - RECORDS) % v->record != 0)
        return false;
    for (size_t at = used; at < v->size; at++)
        if (book[at] != 0)
            return false;
    return are_settings(book + SETTINGS) && are_records(v, book, used);
}

void model_bytes_of(const model_version *v, const model_book *b, uint8_t *book)
{
    uint8_t *record = book + RECORDS;
    memset(book, 0, v->size);
    for (size_t i = 0; i < MODEL_TENANTS; i++) {
        const model_tenant *t = &b->tenants[i];
        uint8_t *setting = book + SETTINGS + i * SETTING;
        bytes_of(setting, 2, t->quota);
        bytes_of(setting + 2, 1, t->days);
        bytes_of(setting + 3, 2, t->server);
        bytes_of(setting + 5, 1, t->principal);
        for (size_t c = 0; c < t->held; c++, record += v->record) {
            record[0] = (uint8_t)i;
            bytes_of(record + 1, 8, t->cells[c].name);
            bytes_of(record + 9, 2, t->cells[c].edition);
            bytes_of(record + 11, 5, t->cells[c].key_one);
            bytes_of(record + 16, 5, t->cells[c].key_two);
            bytes_of(record + LAST_EXPIRY, v->last_expiry, t->cells[c].last_expiry);
        }
    }
    book[0] = v->number;
    bytes_of(book + 1, 4, (uint64_t)(record - book));
}

void model_lists_of(const model_version *v, const uint8_t *book, model_book *b)
{
    for (size_t i = 0; i < MODEL_TENANTS; i++) {
        const uint8_t *setting = book + SETTINGS + i * SETTING;
        model_tenant *t = &b->tenants[i];
        t->quota = (uint32_t)number_of(setting, 2);
        t->days = setting[2];
        t->server = (uint32_t)number_of(setting + 3, 2);
        t->principal = setting[5];
        t->held = 0;
    }
    for (const uint8_t *r = book + RECORDS; r < book + number_of(book + 1, 4); r += v->record) {
        model_tenant *t = &b->tenants[r[0]];
        t->cells[t->held++] = (model_cell){number_of(r + 1, 8), number_of(r + 11, 5), number_of(r + 16, 5), (uint32_t)number_of(r + 9, 2),
                                           last_expiry_of(v, r)};
    }
}

bool model_is_book(const uint8_t *book, size_t length)
{
    return model_is_book_of(&model_version_2, book, length);
}

void model_bytes_of_book(const model_book *b, uint8_t book[LAMBUKIR_BOOK_SIZE])
{
    model_bytes_of(&model_version_2, b, book);
}

void model_book_of_bytes(const uint8_t book[LAMBUKIR_BOOK_SIZE], model_book *b)
{
    model_lists_of(&model_version_2, book, b);
}

uint32_t model_carry_over(const uint8_t *book, size_t book_length, uint8_t *new_book, size_t new_book_length)
{
    model_book lists;
    if (!model_is_book_of(&model_version_1, book, book_length))
        return 101;
    if (new_book_length != model_version_2.size)
        return 108;
    model_lists_of(&model_version_1, book, &lists);
    model_bytes_of(&model_version_2, &lists, new_book);
    return 0;
}

uint32_t model_open_book(model_book *b, size_t book_length, const uint16_t *quotas, size_t quotas_length, const uint8_t *ids, size_t ids_length,
                         const uint8_t *principals, size_t principals_length)
{
    uint32_t sum = 0;
    if (book_length != model_version_2.size)
        return 101;
    if (quotas_length != MODEL_TENANTS || ids_length != 2 * MODEL_TENANTS || !is_name(ids, ids_length) || principals_length != MODEL_TENANTS)
        return 103;
    for (size_t i = 0; i < MODEL_TENANTS; i++) {
        sum += quotas[i];
        if (!may_name(i, quotas[i], principals))
            return 103;
    }
    if (sum > MOST_CELLS)
        return 103;
    for (size_t i = 0; i < MODEL_TENANTS; i++) {
        model_tenant *t = &b->tenants[i];
        t->quota = quotas[i];
        t->days = FIRST_DAYS;
        t->server = (uint32_t)number_of(ids + 2 * i, 2);
        t->principal = principals[i];
        t->held = 0;
    }
    return 0;
}

/* Who keeps the cells that a tenant reads: its principal, or itself. */
static const model_tenant *keeper_of(const model_book *b, uint32_t tenant)
{
    uint32_t principal = b->tenants[tenant].principal;
    return &b->tenants[principal != 0 ? principal - 1 : tenant];
}

/* Where the first cell stands whose name is not below this one. */
static size_t place_of(const model_tenant *t, uint64_t name)
{
    size_t at = 0;
    while (at < t->held && t->cells[at].name < name)
        at++;
    return at;
}

/* The tenant's cell of this name, or NULL. */
static const model_cell *held_cell(const model_tenant *t, uint64_t name)
{
    size_t at = place_of(t, name);
    return at < t->held && t->cells[at].name == name ? &t->cells[at] : NULL;
}

uint32_t model_enter(model_book *b, uint32_t tenant, uint64_t name, uint32_t edition, uint64_t key_one, uint64_t key_two, uint32_t last_expiry)
{
    if (tenant >= MODEL_TENANTS)
        return 102;
    if (!is_name_number(name, 8) || edition < 1 || edition > 999 || key_one >> 40 != 0 || key_two >> 40 != 0 || !is_last_expiry(last_expiry))
        return 103;
    model_tenant *t = &b->tenants[tenant];
    if (t->principal != 0)
        return 111;
    size_t at = place_of(t, name);
    if (!held_cell(t, name)) {
        if (t->held >= t->quota)
            return 105;
        memmove(t->cells + at + 1, t->cells + at, (t->held - at) * sizeof *t->cells);
        t->held++;
    }
    t->cells[at] = (model_cell){name, key_one, key_two, edition, last_expiry};
    return 0;
}

uint32_t model_withdraw(model_book *b, uint32_t tenant, uint64_t name)
{
    if (tenant >= MODEL_TENANTS)
        return 102;
    if (!is_name_number(name, 8))
        return 103;
    model_tenant *t = &b->tenants[tenant];
    if (t->principal != 0)
        return 111;
    size_t at = place_of(t, name);
    if (!held_cell(t, name))
        return 104;
    t->held--;
    memmove(t->cells + at, t->cells + at + 1, (t->held - at) * sizeof *t->cells);
    return 0;
}

/* How many cells of all tenants come after this one: all of later tenants, and of this one those with a later name. */
static uint32_t cells_after(const model_book *b, uint32_t tenant, uint64_t name)
{
    uint32_t after = 0;
    for (uint32_t t = tenant; t < MODEL_TENANTS; t++)
        for (size_t c = 0; c < b->tenants[t].held; c++)
            after += t > tenant || b->tenants[t].cells[c].name > name;
    return after;
}

lambukir_moved model_house_enter(model_book *b, uint32_t tenant, uint64_t name, uint32_t edition, uint64_t key_one, uint64_t key_two, uint32_t last_expiry)
{
    bool replaced = tenant < MODEL_TENANTS && held_cell(&b->tenants[tenant], name);
    lambukir_moved answer = {.number = model_enter(b, tenant, name, edition, key_one, key_two, last_expiry)};
    if (answer.number == 0 && !replaced)
        answer.moved = cells_after(b, tenant, name);
    return answer;
}

lambukir_moved model_house_withdraw(model_book *b, uint32_t tenant, uint64_t name)
{
    lambukir_moved answer = {.number = model_withdraw(b, tenant, name)};
    if (answer.number == 0)
        answer.moved = cells_after(b, tenant, name);
    return answer;
}

uint32_t model_set_days(model_book *b, uint32_t tenant, uint32_t days)
{
    if (tenant >= MODEL_TENANTS)
        return 102;
    if (days < 1 || days > 90)
        return 103;
    b->tenants[tenant].days = days;
    return 0;
}

lambukir_edition model_ask_edition(const model_book *b, uint32_t tenant, uint64_t name)
{
    if (tenant >= MODEL_TENANTS)
        return (lambukir_edition){.number = 102};
    if (!is_name_number(name, 8))
        return (lambukir_edition){.number = 103};
    const model_cell *cell = held_cell(keeper_of(b, tenant), name);
    return cell ? (lambukir_edition){.edition = cell->edition} : (lambukir_edition){.number = 104};
}

/* Looks at every cell that the tenant reads, and compares the first two characters of its name. */
lambukir_held model_ask_producer(const model_book *b, uint32_t tenant, uint32_t producer)
{
    lambukir_held answer = {0};
    uint8_t asked[2], name[8];
    if (tenant >= MODEL_TENANTS)
        return (lambukir_held){.number = 102};
    if (!is_name_number(producer, 2))
        return (lambukir_held){.number = 103};
    bytes_of(asked, 2, producer);
    const model_tenant *keeper = keeper_of(b, tenant);
    for (size_t c = 0; c < keeper->held; c++) {
        bytes_of(name, 8, keeper->cells[c].name);
        if (memcmp(name, asked, 2) == 0)
            answer.held = 1;
    }
    return answer;
}

lambukir_written model_issue(const model_book *b, const uint8_t *reg, size_t reg_length, uint32_t tenant, uint64_t name, uint32_t expiry,
                             uint32_t level, const uint8_t *permit, size_t permit_length, uint8_t *out, size_t out_length)
{
    if (!is_register(reg, reg_length))
        return (lambukir_written){.number = 109};
    if (tenant >= MODEL_TENANTS)
        return (lambukir_written){.number = 102};
    if (out_length < WRITTEN_LINE)
        return (lambukir_written){.number = 108};
    if (!is_name_number(name, 8) || !is_date(expiry) || level > 1)
        return (lambukir_written){.number = 103};
    lambukir_user_permit ship = read_by_register(reg, reg_length, permit, permit_length);
    if (ship.number != 0)
        return (lambukir_written){.number = ship.number};
    const model_cell *cell = held_cell(keeper_of(b, tenant), name);
    if (!cell)
        return (lambukir_written){.number = 104};
    if (cell->last_expiry != 0 && expiry > cell->last_expiry)
        return (lambukir_written){.number = 112};
    return model_write_line(ship.hw_id, name, expiry, cell->key_one, cell->key_two, level, cell->edition, b->tenants[tenant].server, out, out_length);
}

lambukir_line model_check(const model_book *b, uint32_t tenant, uint64_t hw_id, uint32_t today, const uint8_t *line, size_t line_length)
{
    if (tenant >= MODEL_TENANTS)
        return (lambukir_line){.number = 102};
    return model_read_line(hw_id, today, b->tenants[tenant].days, line, line_length);
}
