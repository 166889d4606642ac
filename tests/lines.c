/* Permit lines read, and their comments, against the model and against what the rules say of each case. */
#define _DEFAULT_SOURCE
#include <sys/mman.h>

#include "calls.h"
#include "values.h"

#define ROOM 256

/* The worked cell permit of S-63 (10.6.2 and 11.5.4). */
static void worked(void)
{
    static const uint8_t line[] = "NO4D061320000830BEB9BFE3C7C6CE68B16411FD09F96982795C77B204F54D48,0,5,GB,a, b";
    const uint64_t hw_id = number_from("12348");
    ABOUT("S-63's cell permit");
    lambukir_line read = compare_read_line(hw_id, 20000801, 30, line, sizeof line - 1);
    expect(read.number, 20);
    same(read.name, number_from("NO4D0613"), "%s: name", about);
    same(read.key_one, 0xC1CB518E9C, "%s: key one", about);
    same(read.key_two, 0x421571CC66, "%s: key two", about);
    same(read.expiry, 20000830, "%s: expiry", about);
    same(read.edition, 5, "%s: edition", about);
    same(read.server, number_from("GB"), "%s: server", about);
    same(lambukir_crc32(line, 48), 780699093, "%s: CRC-32", about);
    lambukir_part part = compare_comment(line, sizeof line - 1);
    same(part.start, 72, "%s: start of the comment", about);
    same(part.length, 4, "%s: length of the comment", about);
    expect(compare_read_line(number_from("12347"), 20000801, 30, line, sizeof line - 1).number, 13);
}

/* A record as a subscription, which gives this number, and as a single purchase, which gives 0; read by itself and as a line of a file. */
static void compare_notice(record r, uint64_t hw_id, uint32_t today, uint32_t days, uint32_t number)
{
    uint8_t line[ROOM];
    for (r.level = 0; r.level < 2; r.level++) {
        size_t length = line_of(&r, hw_id, line);
        memcpy(line + length, "\r\n", 2);
        ABOUT("service level %" PRIu32 ", %" PRIu32 " to %" PRIu32 " with %" PRIu32 " days", r.level, today, r.expiry, days);
        expect(compare_read_line(hw_id, today, days, line, length).number, r.level == 0 ? number : 0);
        expect(compare_file_line(hw_id, today, days, line, length + 2, 0).number, r.level == 0 ? number : 0);
    }
}

/* P1 to P5 of the rules, and each side of each limit. */
static void notices(void)
{
    static const struct { uint32_t today, expiry, number; } rows[] = {
        {20240131, 20240301, 0}, {20240131, 20240229, 20}, {20230131, 20230301, 20}, {20240301, 20240229, 15}, {20240131, 20240131, 20},
        {19000101, 29991231, 0}, {29991231, 19000101, 15}, {29991231, 29991231, 20}, {19000101, 19000101, 20},
    };
    static const uint32_t days[] = {1, 2, 29, 30, 31, 89, 90};
    uint64_t hw_id = some_hw_id();
    for (size_t i = 0; i < COUNT(rows); i++)
        compare_notice(some_record(rows[i].expiry), hw_id, rows[i].today, 30, rows[i].number);
    for (int i = 0; i < 10; i++) {
        uint32_t today = some_date();
        for (size_t d = 0; d < COUNT(days); d++)
            for (uint64_t left = days[d] - 1; left < days[d] + 2; left++) {
                record r = some_record(days_after(today, left));
                if (r.expiry >= today) /* else it was the calendar's last day */
                    compare_notice(r, hw_id, today, days[d], left < days[d] ? 20 : 0);
            }
    }
}

static void same_record(const lambukir_line *read, const record *r)
{
    same(read->name, r->name, "%s: name", about);
    same(read->key_one, r->key_one, "%s: key one", about);
    same(read->key_two, r->key_two, "%s: key two", about);
    same(read->expiry, r->expiry, "%s: expiry", about);
    same(read->level, r->level, "%s: service level", about);
    same(read->edition, r->edition, "%s: edition", about);
    same(read->server, r->server, "%s: Data Server ID", about);
}

/* Reading tells what the line was made of, the comment as the caller's own bytes; another HW_ID is refused. */
static void good(void)
{
    uint8_t line[ROOM];
    for (int i = 0; i < 4000; i++) {
        uint64_t hw_id = i == 0 ? number_from("11111") : some_hw_id(), other = some_hw_id();
        uint32_t today = some_date();
        record r = some_record(random_below(2) ? some_date() : days_after(today, random_below(95)));
        size_t length = line_of(&r, hw_id, line);
        ABOUT("good line %d", i);
        type_hex(line + CIPHER_PARTS, CELL_PERMIT - CIPHER_PARTS);
        lambukir_line read = compare_read_line(typed_hw_id(hw_id), today, some_days(), line, length);
        same((uint64_t)is_refusal(read.number), 0, "%s: a record", about);
        same_record(&read, &r);
        lambukir_part part = compare_comment(line, length);
        same(part.start + part.length, length, "%s: end of the comment", about);
        same(part.length, strlen(r.comment), "%s: length of the comment", about);
        if (other != hw_id)
            expect(compare_read_line(other, today, 30, line, length).number, 13);
    }
}

/* Each position as each other byte: refused within the permit, but for the same letter of a cipher part in the other case. Then a byte too many and one
   too few at each position. */
static void damaged(void)
{
    uint8_t line[ROOM], changed[ROOM];
    for (int i = 0; i < 3; i++) {
        uint64_t hw_id = some_hw_id();
        record r = some_record(20240301);
        size_t length = line_of(&r, hw_id, line);
        for (size_t at = 0; at < length; at++)
            for (int add = 1; add < 256; add++) {
                memcpy(changed, line, length);
                changed[at] = (uint8_t)(line[at] + add);
                ABOUT("damaged line %d, byte %zu as %02X", i, at, changed[at]);
                uint32_t number = compare_read_line(hw_id, 20240131, 30, changed, length).number;
                int typed = at >= CIPHER_PARTS && changed[at] == other_case(line[at]);
                if (at < CELL_PERMIT)
                    same((uint64_t)is_refusal(number), !typed, "%s: refused", about);
            }
        for (size_t at = 0; at <= length; at++) {
            ABOUT("damaged line %d, a byte more or less at %zu", i, at);
            memcpy(changed, line, at);
            memcpy(changed + at + 1, line + at, length - at);
            changed[at] = (uint8_t)PICK("0A,9 ");
            compare_read_line(hw_id, 20240131, 30, changed, length + 1);
            if (at < length) {
                memcpy(changed + at, line + at + 1, length - at - 1);
                compare_read_line(hw_id, 20240131, 30, changed, length - 1);
            }
        }
    }
}

/* Every set of reasons to refuse at once: the first of the order wins. */
static void refusals(void)
{
    static const uint32_t order[] = {18, 14, 103, 12, 13, 21};
    uint8_t line[ROOM];
    for (int i = 0; i < 64 * 150; i++) {
        unsigned mask = (unsigned)i % 64;
        uint64_t hw_id = some_hw_id();
        uint32_t today = 20240131;
        record r = some_record(days_after(today, 90));
        uint64_t one = r.key_one << 24 | 0x030303, two = r.key_two << 24 | 0x030303;
        if (mask & 32)
            *(random_below(2) ? &one : &two) ^= (uint64_t)1 << random_below(24);
        size_t length = line_over(&r, hw_id, one, two, line);
        type_hex(line + CIPHER_PARTS, CELL_PERMIT - CIPHER_PARTS);
        if (mask & 16)
            change_hex(line + 48 + random_below(16));
        if (mask & 8)
            length = spoil_shape(line, length);
        ABOUT("reasons %X, round %d", mask, i / 64);
        expect(compare_read_line(mask & 1 ? no_hw_id() : typed_hw_id(hw_id), mask & 2 ? no_date(1) : today, mask & 4 ? PICK(no_days) : some_days(), line, length).number,
               first_of(order, 6, mask));
    }
}

/* A line with these texts for its fields after a good permit; edition is what it must read as. */
static void compare_fields(const char *level, const char *edition, const char *server, int good, uint32_t value)
{
    uint8_t line[ROOM];
    uint64_t hw_id = number_from("A79AB");
    record r = some_record(20240801);
    line_of(&r, hw_id, line);
    int length = snprintf((char *)line + CELL_PERMIT, ROOM - CELL_PERMIT, ",%s,%s,%s,%s", level, edition, server, r.comment);
    ABOUT("level '%s', edition '%s', Data Server ID '%s'", level, edition, server);
    lambukir_line read = compare_read_line(hw_id, 20240131, 30, line, CELL_PERMIT + (size_t)length);
    expect(read.number, good ? 0 : 12);
    same(read.edition, good ? value : 0, "%s: edition", about);
}

static void fields(void)
{
    static const char *const no_levels[] = {"", "2", "9", "/", ":", "00", "01", "10", " 0", "0 ", "A"};
    static const char *const no_editions[] = {"0", "00", "01", "000", "001", "010", "099", "1000", "9999", "0999",
                                              " ", " 1", "1 ", "+1", "-1", "1A", "A", "1.", "/", ":"};
    static const char *const no_servers[] = {"", "A", "ABC", "a1", "Ab", "A ", " A", "@A", "[A", "/0", ":0", "0/", "0:", "A@", "A[", "\x80\x80"};
    static const char *const servers[] = {"00", "09", "90", "AZ", "ZA", "A0", "9Z", "GB"};
    char edition[12];
    for (size_t i = 0; i < COUNT(no_levels); i++)
        compare_fields(no_levels[i], "1", "GB", 0, 0);
    for (size_t i = 0; i < COUNT(no_editions); i++)
        compare_fields("1", no_editions[i], "GB", 0, 0);
    for (size_t i = 0; i < COUNT(no_servers); i++)
        compare_fields("0", "12", no_servers[i], 0, 0);
    for (uint32_t i = 0; i <= 1100; i++) {
        snprintf(edition, sizeof edition, "%" PRIu32, i);
        compare_fields(i % 2 ? "0" : "1", edition, servers[i % COUNT(servers)], i >= 1 && i <= 999, i);
    }
    compare_fields("0", "", "GB", 1, 0);
}

/* Each byte in a comment, at its start, middle and end; comments of commas; each length up to 200 and beyond. */
static void comments(void)
{
    uint8_t line[400];
    uint64_t hw_id = some_hw_id();
    record r = some_record(20240801);
    strcpy(r.comment, "first,second,,third");
    size_t length = line_of(&r, hw_id, line), start = length - strlen(r.comment);
    for (size_t at = start; at < length; at += 9)
        for (unsigned byte = 0; byte < 256; byte++) {
            uint8_t was = line[at];
            line[at] = (uint8_t)byte;
            ABOUT("comment with byte %02X at %zu", byte, at - start);
            expect(compare_read_line(hw_id, 20240131, 30, line, length).number, byte >= 0x20 && byte <= 0x7E ? 0 : 12);
            line[at] = was;
        }
    for (int filler = 0; filler < 3; filler++) {
        memset(line + start, ",~ "[filler], sizeof line - start);
        for (length = start; length <= 390; length++) {
            ABOUT("comment of %zu bytes, line of %zu", length - start, length);
            expect(compare_read_line(hw_id, 20240131, 30, line, length).number, length <= LONGEST_LINE ? 0 : 12);
            same(compare_comment(line, length).length, length <= LONGEST_LINE ? length - start : 0, "%s: length of the comment", about);
        }
    }
}

/* Each length from 0 to 200 of a line, and of a line of one byte's copies. */
static void lengths(void)
{
    uint8_t line[ROOM];
    for (int i = 0; i < 20; i++) {
        uint64_t hw_id = some_hw_id();
        record r = some_record(20240801);
        memset(line, 'x', sizeof line);
        size_t least = line_of(&r, hw_id, line) - strlen(r.comment);
        for (size_t length = 0; length <= 200; length++) {
            ABOUT("line %d, its first %zu bytes", i, length);
            expect(compare_read_line(hw_id, 20240131, 30, line, length).number, length >= least && length <= LONGEST_LINE ? 0 : 12);
        }
        memset(line, "\0\xFF,0A:\r\n ~"[i % 10], sizeof line);
        for (size_t length = 0; length <= 200; length++) {
            ABOUT("%zu bytes %02X", length, line[0]);
            expect(compare_read_line(hw_id, 20240131, 30, line, length).number, 12);
        }
    }
}

/* Each bit and each byte of the HW_ID, each limit of today and days, and lines of more bytes than 32 bits can count. */
static void given(void)
{
    uint8_t line[ROOM];
    uint64_t hw_id = some_hw_id();
    record r = some_record(20240801);
    size_t length = line_of(&r, hw_id, line), more = (size_t)1 << 32;
    for (int bit = 0; bit < 64; bit++) {
        ABOUT("HW_ID with bit %d changed", bit);
        compare_read_line(hw_id ^ (uint64_t)1 << bit, 20240131, 30, line, length);
    }
    for (uint64_t byte = 0; byte < 256 * 5; byte++) {
        ABOUT("HW_ID with byte %" PRIu64 " as %02X", byte / 256, (unsigned)(byte % 256));
        compare_read_line((hw_id & ~((uint64_t)0xFF << byte / 256 * 8)) | byte % 256 << byte / 256 * 8, 20240131, 30, line, length);
    }
    for (uint32_t today = 20231200; today < 20240400; today++) {
        ABOUT("today %" PRIu32, today);
        compare_read_line(hw_id, today, 30, line, length);
    }
    for (uint32_t days = 0; days < 400; days++) {
        ABOUT("%" PRIu32 " days", days);
        expect(compare_read_line(hw_id, 20240131, days, line, length).number, days < 1 || days > 90 ? 103 : 0);
    }
    uint8_t *map = mmap(NULL, more + ROOM, PROT_READ | PROT_WRITE, MAP_PRIVATE | MAP_ANONYMOUS | MAP_NORESERVE, -1, 0);
    same(map != MAP_FAILED, 1, "a map of %zu bytes", more + ROOM);
    if (map == MAP_FAILED)
        return;
    memcpy(map, line, length);
    ABOUT("more than 32 bits can count");
    expect(lambukir_read_line(hw_id, 20240131, 30, map, more + length).number, 12);
    same(lambukir_comment(map, more + length).length, 0, "%s: length of the comment", about);
    munmap(map, more + ROOM);
}

/* The answer to a line as it was typed, for a HW_ID as it was typed, is the one to the line as it was made. */
static void compare_typed(uint64_t hw_id, const uint8_t *made, const uint8_t *typed, size_t length)
{
    lambukir_line theirs = lambukir_read_line(hw_id, 20240131, 30, made, length);
    lambukir_line ours = compare_read_line(typed_hw_id(hw_id), 20240131, 30, typed, length);
    same_line(&ours, &theirs);
    lambukir_part a = lambukir_comment(typed, length), b = lambukir_comment(made, length);
    same(a.start, b.start, "%s: start of the comment as typed", about);
    same(a.length, b.length, "%s: length of the comment as typed", about);
}

/* A line with each letter of its cipher parts in the other case, all of them, and mixed; and each character as a byte next to the letters. */
static void type_line(uint64_t hw_id, const uint8_t *made, size_t length, int which)
{
    uint8_t typed[ROOM];
    for (size_t at = CIPHER_PARTS; at < CELL_PERMIT; at++) {
        memcpy(typed, made, length);
        typed[at] = other_case(made[at]);
        ABOUT("line %d, character %zu in the other case", which, at);
        compare_typed(hw_id, made, typed, length);
        for (size_t i = 0; i < COUNT(beside_letters); i++) {
            typed[at] = beside_letters[i];
            ABOUT("line %d, character %zu as %02X", which, at, typed[at]);
            expect(compare_read_line(hw_id, 20240131, 30, typed, length).number, 12);
        }
    }
    for (int i = 0; i < 20; i++) {
        memcpy(typed, made, length);
        for (size_t at = CIPHER_PARTS; at < CELL_PERMIT; at++)
            typed[at] = i == 0 || random_below(2) ? other_case(typed[at]) : typed[at];
        ABOUT("line %d, typed in way %d", which, i);
        compare_typed(hw_id, made, typed, length);
    }
}

/* Each character before the cipher parts, and each of the Data Server ID, as a small letter: 12. */
static void small_elsewhere(uint64_t hw_id, const uint8_t *made, size_t length, size_t server)
{
    uint8_t typed[ROOM];
    for (size_t at = 0; at < server + 2; at = at + 1 == CIPHER_PARTS ? server : at + 1)
        for (uint8_t c = 'a'; c <= 'f'; c++) {
            memcpy(typed, made, length);
            typed[at] = c;
            ABOUT("character %zu as %c", at, c);
            expect(compare_read_line(hw_id, 20240131, 30, typed, length).number, 12);
        }
}

/* Lines of every answer from 12 on: good, of no shape, with another check part, with a wrong padding; and comments with letters in both cases, which stay. */
static void small_letters(void)
{
    static const uint32_t numbers[] = {0, 12, 13, 21};
    uint8_t line[ROOM];
    for (int i = 0; i < 120; i++) {
        uint64_t hw_id = some_hw_id();
        record r = some_record(20240801);
        strcpy(r.comment, "abc ABC, def DEF");
        r.edition = 12;
        size_t length = line_over(&r, hw_id, r.key_one << 24 | (i % 4 == 3 ? 0x030302 : 0x030303), r.key_two << 24 | 0x030303, line);
        if (i % 4 == 0)
            small_elsewhere(hw_id, line, length, 70);
        if (i % 4 == 1)
            line[CELL_PERMIT] = ';';
        if (i % 4 == 2)
            change_hex(line + 48 + random_below(16));
        ABOUT("line %d", i);
        expect(compare_read_line(hw_id, 20240131, 30, line, length).number, numbers[i % 4]);
        type_line(hw_id, line, length, i);
    }
}

int main(int argc, char **argv)
{
    static const subject subjects[] = {
        {"lines-worked", worked},
        {"lines-notices", notices},
        {"lines-good", good},
        {"lines-damaged", damaged},
        {"lines-refusals", refusals},
        {"lines-fields", fields},
        {"lines-comments", comments},
        {"lines-lengths", lengths},
        {"lines-given", given},
        {"lines-small-letters", small_letters},
    };
    seed_random();
    return run_subjects(subjects, COUNT(subjects), argc, argv);
}
