/* The product list, ours and by hand: the list of a world-wide service, with rows like those of S-63's example, in name order and shuffled; one that was
   made to be slow; and one of a few rows. */
#ifndef SERVICE_H
#define SERVICE_H

#include "measure.h"
#include "products.h"
#include "values.h"

#define ROWS 20000
#define FEW_ROWS 10
#define ROW_ROOM 128
#define SERVICE_HEADER ":DATE 20240131 09:00:00\r\n:VERSION 2\r\n:CONTENT FULL\r\n:ENC\r\n"
#define SLOW_ROUNDS 5
#define MARKS 262144

typedef struct {
    uint8_t bytes[ROWS * ROW_ROOM];
    size_t length;
} service;

static service in_order, shuffled, few, slow;
static uint64_t service_names[ROWS]; /* of all but the slow one, in order */

static int by_service_name(const void *one, const void *two)
{
    uint64_t a = *(const uint64_t *)one, b = *(const uint64_t *)two;
    return (a > b) - (a < b);
}

/* Names as cells have them: a producer's two letters, the chart's purpose, five characters. */
static void make_names(void)
{
    bool repeated;
    do {
        for (size_t i = 0; i < ROWS; i++)
            service_names[i] = some_text("ABCDEFGHIJKLMNOPQRSTUVWXYZ", 2) << 48 | some_text("123456", 1) << 40 | some_text(NAMES, 5);
        qsort(service_names, ROWS, sizeof *service_names, by_service_name);
        repeated = false;
        for (size_t i = 1; i < ROWS; i++)
            repeated |= service_names[i] == service_names[i - 1];
    } while (repeated);
}

/* The library keeps four marks for each name, and looks through the names before one whose marks are all set (crates/product_names). Whoever knows where they
   are can choose names that share a few: here all marks of all names lie in a tenth of the room, so that the names are soon looked for. */
static bool shares_marks(uint64_t name)
{
    static const uint64_t factors[] = {0x9e3779b97f4a7c15, 0xc2b2ae3d27d4eb4f, 0x165667b1d6e8feb9, 0x85ebca776659fd93};
    for (int i = 0; i < 4; i++) {
        uint64_t mixed = (name >> 32) * (factors[i] >> 32) + (uint32_t)name * (uint64_t)(uint32_t)factors[i];
        if (mixed / MARKS % MARKS >= MARKS / 10)
            return false;
    }
    return true;
}

/* Such names in falling order, from ZZZZZZZZ down: for each start of four characters all ends of four. */
static void make_slow_names(uint64_t names[ROWS])
{
    static const char falling[] = "ZYXWVUTSRQPONMLKJIHGFEDCBA9876543210";
    static uint32_t fours[36 * 36 * 36 * 36];
    size_t count = 0;
    for (int a = 0; a < 36; a++)
        for (int b = 0; b < 36; b++)
            for (int c = 0; c < 36; c++)
                for (int d = 0; d < 36; d++)
                    fours[count++] = (uint32_t)falling[a] << 24 | (uint32_t)falling[b] << 16 | (uint32_t)falling[c] << 8 | (uint32_t)falling[d];
    for (size_t i = 0, start = 0; i < ROWS; start++)
        for (size_t end = 0; end < count && i < ROWS; end++)
            if (shares_marks((uint64_t)fours[start] << 32 | fours[end]))
                names[i++] = (uint64_t)fours[start] << 32 | fours[end];
}

/* The limits have eight decimals, nine or ten coordinates are blank, half of the cells have an update, and some are cancelled. */
static size_t row_of(uint64_t name, char row[ROW_ROOM])
{
    char text[9] = "", limits[60] = "", update[16] = ",";
    for (int i = 0; i < 8; i++)
        text[i] = (char)(name >> 8 * (7 - i));
    for (int i = 0; i < 4; i++)
        snprintf(limits + strlen(limits), sizeof limits - strlen(limits), "%s%d.%08d,", random_below(2) ? "-" : "", (int)random_below(90),
                 (int)random_below(100000000));
    if (random_below(2))
        snprintf(update, sizeof update, "%" PRIu32 ",%d", some_date(), 1 + (int)random_below(20));
    return (size_t)snprintf(row, ROW_ROOM, "%s.000,%" PRIu32 ",%d,%s,,%s,,,,,,,,,%s1,1,0,0,B3,\r\n", text, some_date(),
                            random_below(50) == 0 ? 0 : 1 + (int)random_below(9), update, limits, random_below(2) ? "," : "");
}

static void begin_service(service *s)
{
    s->length = strlen(SERVICE_HEADER);
    memcpy(s->bytes, SERVICE_HEADER, s->length);
}

static void add_row(service *s, const char *row, size_t length)
{
    memcpy(s->bytes + s->length, row, length);
    s->length += length;
}

/* Both sides answer alike for some cells of a list, and for one that is not there. */
static bool answer_alike(const service *s)
{
    for (size_t i = 0; i < 40; i++) {
        uint64_t name = i < 4 ? some_name() : service_names[i < 20 ? i % FEW_ROWS : random_below(ROWS)];
        uint32_t edition = 1 + (uint32_t)random_below(9), update = (uint32_t)random_below(20);
        lambukir_standing ours = lambukir_product_standing(s->bytes, s->length, name, edition, update);
        lambukir_standing theirs = plain_product_standing(s->bytes, s->length, name, edition, update);
        if (ours.standing != theirs.standing || ours.number != theirs.number || (ours.number != 0 && ours.number != 27))
            return false;
    }
    return true;
}

/* Both refuse a list with a number, since something is wrong with its last row. */
static bool refuse_alike(const service *s, uint32_t number)
{
    return lambukir_product_standing(s->bytes, s->length, service_names[0], 1, 0).number == number &&
           plain_product_standing(s->bytes, s->length, service_names[0], 1, 0).number == number;
}

/* A row that is wrong, and one whose name stands at the list's start. */
static bool refuse_bad_rows(service *s)
{
    char row[ROW_ROOM];
    size_t length = s->length, row_length = row_of(service_names[0], row);
    add_row(s, row, row_length);
    bool alike = refuse_alike(s, 110);
    s->bytes[s->length - 3] = 'x';
    alike &= refuse_alike(s, 12);
    s->length = length;
    return alike;
}

/* The lists. False where both sides do not read them alike. */
static bool make_services(void)
{
    static char rows[ROWS][ROW_ROOM];
    static size_t lengths[ROWS], order[ROWS];
    static uint64_t slow_names[ROWS];
    char row[ROW_ROOM];
    make_names();
    make_slow_names(slow_names);
    begin_service(&in_order);
    begin_service(&shuffled);
    begin_service(&few);
    begin_service(&slow);
    for (size_t i = 0; i < ROWS; i++) {
        size_t j = random_below(i + 1);
        lengths[i] = row_of(service_names[i], rows[i]);
        order[i] = order[j];
        order[j] = i;
        add_row(&in_order, rows[i], lengths[i]);
        if (i < FEW_ROWS)
            add_row(&few, rows[i], lengths[i]);
        add_row(&slow, row, row_of(slow_names[i], row));
    }
    for (size_t i = 0; i < ROWS; i++)
        add_row(&shuffled, rows[order[i]], lengths[order[i]]);
    return answer_alike(&in_order) && answer_alike(&shuffled) && answer_alike(&few) && answer_alike(&slow) && refuse_bad_rows(&in_order) &&
           refuse_bad_rows(&shuffled) && refuse_bad_rows(&few);
}

#define NTH_NAME service_names[(size_t)i * 7919 % ROWS]
BOTH(plain, in_order, product_standing(in_order.bytes, in_order.length, NTH_NAME, 5, 10).standing)
BOTH(plain, shuffled, product_standing(shuffled.bytes, shuffled.length, NTH_NAME, 5, 10).standing)
BOTH(plain, few, product_standing(few.bytes, few.length, service_names[i % FEW_ROWS], 5, 10).standing)

static void our_slow(int calls)
{
    for (int i = 0; i < calls; i++)
        sum += lambukir_product_standing(slow.bytes, slow.length, NTH_NAME, 5, 10).standing;
}

/* The slow list against that in name order, both ours. */
static void measure_slow(void)
{
    double slowest = 1e30, best = 1e30;
    for (int round = 0; round < SLOW_ROUNDS; round++) {
        double took = nanoseconds(our_slow, 1), usual = nanoseconds(our_in_order, 1);
        slowest = took < slowest ? took : slowest;
        best = usual < best ? usual : best;
    }
    printf("%-18s ours %9.1f ms   %.1f times the list in name order\n", "list made slow", slowest / 1e6, slowest / best);
}

#endif
