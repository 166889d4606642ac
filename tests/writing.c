/* Permit lines written, against the model and against what the rules say of each case. */
#define _DEFAULT_SOURCE
#include <sys/mman.h>

#include "calls.h"
#include "values.h"

#define ENOUGH 76

static given_line some_given(void)
{
    static const uint32_t below[] = {9, 99, 999};
    return (given_line){some_name(), some_key(), some_key(), some_date(), (uint32_t)random_below(2), 1 + (uint32_t)random_below(PICK(below)), some_two()};
}

/* The worked cell permit of S-63 (10.6.2), as a line. */
static void worked(void)
{
    static const char line[] = "NO4D061320000830BEB9BFE3C7C6CE68B16411FD09F96982795C77B204F54D48,1,5,GB,\r\n";
    uint8_t out[LONGEST_OUT];
    given_line g = {number_from("NO4D0613"), 0xC1CB518E9C, 0x421571CC66, 20000830, 1, 5, (uint32_t)number_from("GB")};
    ABOUT("S-63's cell permit");
    lambukir_written written = compare_write(number_from("12348"), &g, ENOUGH, out);
    expect(written.number, 0);
    same(written.length, sizeof line - 1, "%s: length", about);
    same((uint64_t)memcmp(out, line, sizeof line - 1), 0, "%s: the line", about);
}

/* What was written reads back as it was given, whatever the case of the HW_ID's letters; and it is all in capitals. */
static void good(void)
{
    uint8_t out[LONGEST_OUT];
    for (int i = 0; i < 4000; i++) {
        uint64_t hw_id = some_hw_id();
        given_line g = some_given();
        ABOUT("good line %d", i);
        lambukir_written written = compare_write(typed_hw_id(hw_id), &g, ENOUGH + random_below(50), out);
        expect(written.number, 0);
        if (written.number != 0)
            continue;
        same(written.length, g.edition < 10 ? 74 : g.edition < 100 ? 75 : 76, "%s: length", about);
        same((uint64_t)memcmp(out + written.length - 2, "\r\n", 2), 0, "%s: CR LF", about);
        for (size_t at = 0; at < written.length; at++)
            same((uint64_t)(islower(out[at]) != 0), 0, "%s: character %zu is a small letter", about, at);
        lambukir_line read = compare_read_line(hw_id, g.expiry, 1, out, written.length - 2);
        expect(read.number, g.level == 0 ? 20 : 0); /* on the expiry itself */
        same(read.name, g.name, "%s: name", about);
        same(read.key_one, g.key_one, "%s: key one", about);
        same(read.key_two, g.key_two, "%s: key two", about);
        same(read.expiry, g.expiry, "%s: expiry", about);
        same(read.level, g.level, "%s: service level", about);
        same(read.edition, g.edition, "%s: edition", about);
        same(read.server, g.server, "%s: Data Server ID", about);
    }
}

/* Puts one or more values out of their range or alphabet. */
static void spoil_given(given_line *g)
{
    static const uint32_t no_levels[] = {2, 3, 9, 48, 49, 256, 257, 65536, 2147483648, 4294967295};
    static const uint32_t no_editions[] = {0, 1000, 1001, 9999, 65536, 65537, 2147483649, 4294967295};
    do {
        switch (random_below(7)) {
        case 0: g->name = no_name(); break;
        case 1: g->expiry = no_date(1); break;
        case 2: g->key_one = no_key(); break;
        case 3: g->key_two = no_key(); break;
        case 4: g->level = PICK(no_levels); break;
        case 5: g->edition = PICK(no_editions); break;
        default: g->server = no_two();
        }
    } while (random_below(4) == 0);
}

/* Every set of reasons to refuse at once: the first of the order wins. */
static void refusals(void)
{
    static const uint32_t order[] = {108, 103, 18};
    uint8_t out[LONGEST_OUT];
    for (int i = 0; i < 8 * 1000; i++) {
        unsigned mask = (unsigned)i % 8;
        given_line g = some_given();
        if (mask & 2)
            spoil_given(&g);
        ABOUT("reasons %X, round %d", mask, i / 8);
        lambukir_written written =
            compare_write(mask & 4 ? no_hw_id() : some_hw_id(), &g, mask & 1 ? random_below(ENOUGH) : ENOUGH + random_below(9), out);
        expect(written.number, first_of(order, 3, mask));
    }
}

/* Each length of out from 0 to 200; 76 is asked for, however short the line. */
static void lengths(void)
{
    uint8_t out[LONGEST_OUT];
    for (int i = 0; i < 6; i++)
        for (size_t length = 0; length <= 200; length++) {
            given_line g = some_given();
            ABOUT("out of %zu bytes, edition %" PRIu32, length, g.edition);
            expect(compare_write(some_hw_id(), &g, length, out).number, length < ENOUGH ? 108 : 0);
        }
}

/* Each bit of each number changed; each edition, level and date about its limits. */
static void values(void)
{
    uint8_t out[LONGEST_OUT];
    uint64_t hw_id = some_hw_id();
    const given_line good = some_given();
    for (int bit = 0; bit < 64; bit++) {
        uint64_t one = (uint64_t)1 << bit;
        uint32_t low = (uint32_t)one; /* 0 for the upper bits, which changes nothing */
        given_line g[] = {good, good, good, good, good, good, good};
        g[0].name ^= one, g[1].key_one ^= one, g[2].key_two ^= one, g[3].expiry ^= low, g[4].level ^= low, g[5].edition ^= low, g[6].server ^= low;
        ABOUT("bit %d changed", bit);
        for (size_t i = 0; i < COUNT(g); i++)
            compare_write(hw_id, &g[i], ENOUGH, out);
        compare_write(hw_id ^ one, &good, ENOUGH, out);
    }
    for (uint32_t i = 0; i <= 1100; i++) {
        given_line g = good;
        g.edition = i;
        ABOUT("edition %" PRIu32, i);
        expect(compare_write(hw_id, &g, ENOUGH, out).number, i < 1 || i > 999 ? 103 : 0);
    }
    for (size_t i = 0; i < COUNT(limit_dates) + COUNT(no_dates); i++) {
        given_line g = good;
        g.expiry = i < COUNT(limit_dates) ? limit_dates[i] : no_dates[i - COUNT(limit_dates)];
        ABOUT("expiry %" PRIu32, g.expiry);
        expect(compare_write(hw_id, &g, ENOUGH, out).number, i < COUNT(limit_dates) ? 0 : 103);
    }
}

/* Each byte at each place of name and Data Server ID. */
static void characters(void)
{
    uint8_t out[LONGEST_OUT];
    for (uint64_t i = 0; i < 256 * 10; i++) {
        given_line g = some_given();
        uint64_t byte = i % 256, shift = i / 256 % 8 * 8;
        int good = memchr(NAMES, (int)byte, sizeof NAMES - 1) != NULL;
        if (i < 256 * 8)
            g.name = (g.name & ~((uint64_t)0xFF << shift)) | byte << shift;
        else
            g.server = (g.server & ~((uint32_t)0xFF << shift)) | (uint32_t)(byte << shift);
        ABOUT("byte %02X at place %d", (unsigned)byte, (int)(i / 256));
        expect(compare_write(some_hw_id(), &g, ENOUGH, out).number, good ? 0 : 103);
    }
}

/* An output of more bytes than 32 bits can count. */
static void huge(void)
{
    const size_t more = (size_t)1 << 32;
    uint8_t out[LONGEST_OUT], *map = mmap(NULL, more + 64, PROT_READ | PROT_WRITE, MAP_PRIVATE | MAP_ANONYMOUS | MAP_NORESERVE, -1, 0);
    same(map != MAP_FAILED, 1, "a map of %zu bytes", more);
    if (map == MAP_FAILED)
        return;
    uint64_t hw_id = some_hw_id();
    given_line g = some_given();
    ABOUT("more than 32 bits can count");
    lambukir_written theirs = compare_write(hw_id, &g, ENOUGH, out);
    lambukir_written ours = lambukir_write_line(hw_id, g.name, g.expiry, g.key_one, g.key_two, g.level, g.edition, g.server, map, more + 1);
    expect(ours.number, 0);
    same(ours.length, theirs.length, "%s: length", about);
    same((uint64_t)memcmp(map, out, ours.length), 0, "%s: the line", about);
    munmap(map, more + 64);
}

int main(int argc, char **argv)
{
    static const subject subjects[] = {
        {"writing-worked", worked},
        {"writing-good", good},
        {"writing-refusals", refusals},
        {"writing-lengths", lengths},
        {"writing-values", values},
        {"writing-characters", characters},
        {"writing-huge", huge},
    };
    seed_random();
    return run_subjects(subjects, COUNT(subjects), argc, argv);
}
