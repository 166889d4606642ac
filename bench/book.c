/* The book by hand, written for speed: one pass judges it, tenant by tenant, and tells where each tenant's records begin; a binary search among
   the tenant's own finds a record, memmove makes and closes its room. A version's judging is compiled for its records' size. Permits and lines are the
   model's. */
#include "book.h"
#include "model_parts.h"

#define SETTINGS 5
#define SETTING 6
#define RECORDS 101
#define RECORD_SIZE 28
#define RECORD_SIZE_1 24 /* in a book of version 1, which has no last expiries */
#define LAST_EXPIRY 24
#define INLINED static inline __attribute__((always_inline))
#define EACH(byte) ((byte) * 0x0101010101010101u)

/* Where the records of each tenant begin, and where the last tenant's end. */
typedef struct {
    const uint8_t *starts[TENANTS + 1];
} parts;

static uint32_t read16(const uint8_t *p)
{
    return (uint32_t)p[0] << 8 | p[1];
}

static uint32_t read32(const uint8_t *p)
{
    uint32_t v;
    memcpy(&v, p, sizeof v);
    return __builtin_bswap32(v);
}

static uint64_t read64(const uint8_t *p)
{
    uint64_t v;
    memcpy(&v, p, sizeof v);
    return __builtin_bswap64(v);
}

static void write32(uint8_t *p, uint32_t v)
{
    v = __builtin_bswap32(v);
    memcpy(p, &v, sizeof v);
}

/* The first bytes of v, as many as asked for. */
static void write_first(uint8_t *p, size_t bytes, uint64_t v)
{
    v = __builtin_bswap64(v);
    memcpy(p, &v, bytes);
}

static uint8_t principal_of(const uint8_t *book, size_t tenant)
{
    return book[SETTINGS + tenant * SETTING + 5];
}

/* The tenant whose records a tenant reads. */
static uint32_t list_of(const uint8_t *book, uint32_t tenant)
{
    uint32_t principal = principal_of(book, tenant);
    return principal == 0 ? tenant : principal - 1;
}

static bool are_settings(const uint8_t *book)
{
    static const uint8_t is[256] = {['0' ... '9'] = 1, ['A' ... 'Z'] = 1};
    uint32_t sum = 0;
    for (size_t t = 0; t < TENANTS; t++) {
        const uint8_t *s = book + SETTINGS + t * SETTING;
        sum += read16(s);
        if (s[2] - 1u >= 90 || !(is[s[3]] & is[s[4]]))
            return false;
        if (s[5] != 0 && (s[5] > TENANTS || read16(s) != 0 || principal_of(book, s[5] - 1u) != 0))
            return false;
    }
    return sum <= MOST_RECORDS;
}

/* Eight characters of A-Z 0-9: of the four sums an odd number has a byte's top bit exactly where the byte is one of these. */
static bool is_cell_name(uint64_t x)
{
    return (x & EACH(0x80)) == 0 &&
           (((x + EACH(0x80 - '0')) ^ (x + EACH(0x7f - '9')) ^ (x + EACH(0x80 - 'A')) ^ (x + EACH(0x7f - 'Z'))) & EACH(0x80)) == EACH(0x80);
}

/* 0 or a date; only the end of a month asks how long the month is. */
static bool is_last_expiry(uint32_t number)
{
    uint32_t year = number / 10000, month = number / 100 % 100, day = number % 100;
    if (number == 0)
        return true;
    return year - 1900 < 1100 && month - 1 < 12 && day - 1 < 31 && (day <= 28 || day <= month_length(year, month));
}

/* Where the records of tenant t end that begin at r; null where one of them is wrong. A last expiry that was just judged is not judged again. */
INLINED const uint8_t *part_end(const uint8_t *r, const uint8_t *end, uint32_t t, size_t record_size, uint32_t *judged)
{
    for (uint64_t name = 0; r < end && r[0] == t; r += record_size) {
        uint64_t next = read64(r + 1);
        if (next <= name || !is_cell_name(next) || read16(r + 9) - 1 >= 999 || (read32(r + 20) & 0xffffff) != 0)
            return NULL;
        name = next;
        if (record_size > LAST_EXPIRY && read32(r + LAST_EXPIRY) != *judged) {
            *judged = read32(r + LAST_EXPIRY);
            if (!is_last_expiry(*judged))
                return NULL;
        }
    }
    return r;
}

INLINED bool are_records(const uint8_t *book, size_t used, size_t record_size, parts *found)
{
    const uint8_t *r = book + RECORDS;
    uint32_t judged = 0;
    for (uint32_t t = 0; t < TENANTS; t++) {
        found->starts[t] = r;
        r = part_end(r, book + used, t, record_size, &judged);
        if (r == NULL || (size_t)(r - found->starts[t]) > record_size * read16(book + SETTINGS + t * SETTING))
            return false;
    }
    found->starts[TENANTS] = r;
    return r == book + used;
}

static bool are_zeros(const uint8_t *from, const uint8_t *to)
{
    uint64_t all = 0;
    for (; to - from >= 8; from += 8)
        all |= read64(from);
    for (; from < to; from++)
        all |= *from;
    return all == 0;
}

INLINED bool is_book_of(const uint8_t *book, size_t length, uint8_t version, size_t record_size, parts *found)
{
    size_t size = RECORDS + MOST_RECORDS * record_size;
    if (length != size || book[0] != version)
        return false;
    uint32_t used = read32(book + 1);
    if (used < RECORDS || used > size || (used - RECORDS) % record_size != 0)
        return false;
    return are_settings(book) && are_records(book, used, record_size, found) && are_zeros(book + used, book + size);
}

static bool is_book_1(const uint8_t *book, size_t length)
{
    parts found;
    return is_book_of(book, length, 1, RECORD_SIZE_1, &found);
}

static bool is_book(const uint8_t *book, size_t length, parts *found)
{
    return is_book_of(book, length, 2, RECORD_SIZE, found);
}

/* The first of the tenant's records whose name is not below this one; past the last where all are. */
static const uint8_t *place_of(const parts *found, uint32_t tenant, uint64_t name)
{
    const uint8_t *low = found->starts[tenant];
    size_t left = (size_t)(found->starts[tenant + 1] - low) / RECORD_SIZE;
    while (left > 0) {
        size_t half = left / 2;
        const uint8_t *middle = low + half * RECORD_SIZE;
        bool up = read64(middle + 1) < name;
        low = up ? middle + RECORD_SIZE : low;
        left = up ? left - half - 1 : half;
    }
    return low;
}

/* The record at this place is the tenant's and has this name. */
static bool is_held(const parts *found, const uint8_t *place, uint32_t tenant, uint64_t name)
{
    return place < found->starts[tenant + 1] && read64(place + 1) == name;
}

uint32_t plain_open_book(uint8_t *book, size_t book_length, const uint16_t *quotas, size_t quotas_length, const uint8_t *ids, size_t ids_length,
                         const uint8_t *principals, size_t principals_length)
{
    uint32_t sum = 0;
    if (book_length != LAMBUKIR_BOOK_SIZE)
        return 101;
    if (quotas_length != TENANTS || ids_length != 2 * TENANTS || !is_name(ids, 2 * TENANTS) || principals_length != TENANTS)
        return 103;
    for (size_t t = 0; t < TENANTS; t++) {
        sum += quotas[t];
        if (principals[t] != 0 && (principals[t] > TENANTS || quotas[t] != 0 || principals[principals[t] - 1] != 0))
            return 103;
    }
    if (sum > MOST_RECORDS)
        return 103;
    memset(book, 0, LAMBUKIR_BOOK_SIZE);
    book[0] = 2;
    write32(book + 1, RECORDS);
    for (size_t t = 0; t < TENANTS; t++) {
        uint8_t setting[SETTING] = {(uint8_t)(quotas[t] >> 8), (uint8_t)quotas[t], 30, ids[2 * t], ids[2 * t + 1], principals[t]};
        memcpy(book + SETTINGS + t * SETTING, setting, SETTING);
    }
    return 0;
}

uint32_t plain_carry_over(const uint8_t *book, size_t book_length, uint8_t *new_book, size_t new_book_length)
{
    if (!is_book_1(book, book_length))
        return 101;
    if (new_book_length != LAMBUKIR_BOOK_SIZE)
        return 108;
    const uint8_t *from = book + RECORDS, *end = book + read32(book + 1);
    uint8_t *to = new_book + RECORDS;
    memcpy(new_book, book, RECORDS);
    for (; from < end; from += RECORD_SIZE_1, to += RECORD_SIZE) {
        memcpy(to, from, RECORD_SIZE_1);
        memset(to + LAST_EXPIRY, 0, RECORD_SIZE - LAST_EXPIRY);
    }
    memset(to, 0, (size_t)(new_book + LAMBUKIR_BOOK_SIZE - to));
    new_book[0] = 2;
    write32(new_book + 1, (uint32_t)(to - new_book));
    return 0;
}

/* Makes room for a record, where the tenant's quota allows one more. */
static bool make_room(uint8_t *book, const parts *found, uint32_t tenant, uint8_t *r)
{
    uint32_t used = read32(book + 1);
    if ((size_t)(found->starts[tenant + 1] - found->starts[tenant]) >= RECORD_SIZE * read16(book + SETTINGS + tenant * SETTING))
        return false;
    memmove(r + RECORD_SIZE, r, (size_t)(book + used - r));
    write32(book + 1, used + RECORD_SIZE);
    return true;
}

lambukir_moved plain_house_enter(uint8_t *book, size_t book_length, uint32_t tenant, uint64_t name, uint32_t edition, uint64_t key_one, uint64_t key_two,
                                 uint32_t last_expiry)
{
    parts found;
    lambukir_moved answer = {0};
    if (!is_book(book, book_length, &found))
        return (lambukir_moved){.number = 101};
    if (tenant >= TENANTS)
        return (lambukir_moved){.number = 102};
    if (!is_cell_name(name) || edition - 1 >= 999 || (key_one | key_two) >> 40 != 0 || !is_last_expiry(last_expiry))
        return (lambukir_moved){.number = 103};
    if (principal_of(book, tenant) != 0)
        return (lambukir_moved){.number = 111};
    uint8_t *r = book + (place_of(&found, tenant, name) - book);
    if (!is_held(&found, r, tenant, name)) {
        answer.moved = (uint32_t)(found.starts[TENANTS] - r) / RECORD_SIZE;
        if (!make_room(book, &found, tenant, r))
            return (lambukir_moved){.number = 105};
    }
    r[0] = (uint8_t)tenant;
    write_first(r + 1, 8, name);
    write_first(r + 9, 2, (uint64_t)edition << 48);
    write_first(r + 11, 5, key_one << 24);
    write_first(r + 16, 8, key_two << 24);
    write32(r + LAST_EXPIRY, last_expiry);
    return answer;
}

uint32_t plain_enter(uint8_t *book, size_t book_length, uint32_t tenant, uint64_t name, uint32_t edition, uint64_t key_one, uint64_t key_two,
                     uint32_t last_expiry)
{
    return plain_house_enter(book, book_length, tenant, name, edition, key_one, key_two, last_expiry).number;
}

lambukir_moved plain_house_withdraw(uint8_t *book, size_t book_length, uint32_t tenant, uint64_t name)
{
    parts found;
    if (!is_book(book, book_length, &found))
        return (lambukir_moved){.number = 101};
    if (tenant >= TENANTS)
        return (lambukir_moved){.number = 102};
    if (!is_cell_name(name))
        return (lambukir_moved){.number = 103};
    if (principal_of(book, tenant) != 0)
        return (lambukir_moved){.number = 111};
    uint8_t *r = book + (place_of(&found, tenant, name) - book);
    if (!is_held(&found, r, tenant, name))
        return (lambukir_moved){.number = 104};
    uint32_t used = read32(book + 1) - RECORD_SIZE;
    memmove(r, r + RECORD_SIZE, (size_t)(book + used - r));
    memset(book + used, 0, RECORD_SIZE);
    write32(book + 1, used);
    return (lambukir_moved){.moved = (uint32_t)(book + used - r) / RECORD_SIZE};
}

uint32_t plain_withdraw(uint8_t *book, size_t book_length, uint32_t tenant, uint64_t name)
{
    return plain_house_withdraw(book, book_length, tenant, name).number;
}

uint32_t plain_set_days(uint8_t *book, size_t book_length, uint32_t tenant, uint32_t days)
{
    parts found;
    if (!is_book(book, book_length, &found))
        return 101;
    if (tenant >= TENANTS)
        return 102;
    if (days < 1 || days > 90)
        return 103;
    book[SETTINGS + tenant * SETTING + 2] = (uint8_t)days;
    return 0;
}

lambukir_edition plain_ask_edition(const uint8_t *book, size_t book_length, uint32_t tenant, uint64_t name)
{
    parts found;
    if (!is_book(book, book_length, &found))
        return (lambukir_edition){.number = 101};
    if (tenant >= TENANTS)
        return (lambukir_edition){.number = 102};
    if (!is_cell_name(name))
        return (lambukir_edition){.number = 103};
    uint32_t list = list_of(book, tenant);
    const uint8_t *r = place_of(&found, list, name);
    if (!is_held(&found, r, list, name))
        return (lambukir_edition){.number = 104};
    return (lambukir_edition){.edition = read16(r + 9)};
}

/* Walks through the records that the tenant reads, which are in order, as far as their names can begin so. */
lambukir_held plain_ask_producer(const uint8_t *book, size_t book_length, uint32_t tenant, uint32_t producer)
{
    parts found;
    if (!is_book(book, book_length, &found))
        return (lambukir_held){.number = 101};
    if (tenant >= TENANTS)
        return (lambukir_held){.number = 102};
    if (producer > 0xffff || !is_cell_name(0x303030303030 | (uint64_t)producer << 48))
        return (lambukir_held){.number = 103};
    uint32_t list = list_of(book, tenant);
    const uint8_t *r = found.starts[list];
    while (r < found.starts[list + 1] && read16(r + 1) < producer)
        r += RECORD_SIZE;
    return (lambukir_held){.held = r < found.starts[list + 1] && read16(r + 1) == producer};
}

/* The refusals that come before the user permit is looked at: 101, 109, 102, 108, 103; or 0. */
static uint32_t refuse_issue(const uint8_t *book, size_t book_length, const uint8_t *reg, size_t reg_length, uint32_t tenant, uint64_t name, uint32_t expiry,
                             uint32_t level, size_t out_length, parts *found)
{
    if (!is_book(book, book_length, found))
        return 101;
    if (!is_register(reg, reg_length))
        return 109;
    if (tenant >= TENANTS)
        return 102;
    if (out_length < WRITTEN_LINE)
        return 108;
    return !is_cell_name(name) || !is_date(expiry) || level > 1 ? 103 : 0;
}

lambukir_written plain_issue(const uint8_t *book, size_t book_length, const uint8_t *reg, size_t reg_length, uint32_t tenant, uint64_t name, uint32_t expiry,
                             uint32_t level, const uint8_t *permit, size_t permit_length, uint8_t *out, size_t out_length)
{
    parts found;
    uint32_t refused = refuse_issue(book, book_length, reg, reg_length, tenant, name, expiry, level, out_length, &found);
    if (refused != 0)
        return (lambukir_written){.number = refused};
    lambukir_user_permit ship = read_by_register(reg, reg_length, permit, permit_length);
    if (ship.number != 0)
        return (lambukir_written){.number = ship.number};
    uint32_t list = list_of(book, tenant);
    const uint8_t *r = place_of(&found, list, name), *setting = book + SETTINGS + tenant * SETTING;
    if (!is_held(&found, r, list, name))
        return (lambukir_written){.number = 104};
    if (read32(r + LAST_EXPIRY) != 0 && expiry > read32(r + LAST_EXPIRY))
        return (lambukir_written){.number = 112};
    return model_write_line(ship.hw_id, name, expiry, number_of(r + 11, 5), number_of(r + 16, 5), level, read16(r + 9), read16(setting + 3), out, out_length);
}

lambukir_line plain_check(const uint8_t *book, size_t book_length, uint32_t tenant, uint64_t hw_id, uint32_t today, const uint8_t *line, size_t line_length)
{
    parts found;
    if (!is_book(book, book_length, &found))
        return (lambukir_line){.number = 101};
    if (tenant >= TENANTS)
        return (lambukir_line){.number = 102};
    return model_read_line(hw_id, today, book[SETTINGS + tenant * SETTING + 2], line, line_length);
}
