/* Files opened and read line by line, against the model and against what the rules say of each case. */
#define _GNU_SOURCE /* memmem */
#include <sys/mman.h>

#include "calls.h"
#include "pieces.h"

#define TODAY 20240131

static pieces file;

/* Reads a file from its first line to its end. */
static void walk(uint64_t hw_id, uint32_t today, int which)
{
    ABOUT("file %d", which);
    lambukir_place first = compare_open(file.bytes, file.length);
    expect(first.number, file.lines == 0 ? 11 : 0);
    same(first.place, file.lines == 0 ? 0 : HEADER_LENGTH, "%s: place of the first line", about);
    size_t place = HEADER_LENGTH, count = 0;
    for (;; count++) {
        ABOUT("file %d, line %zu, place %zu", which, count, place);
        lambukir_file_line line = compare_file_line(hw_id, today, 30, file.bytes, file.length, place);
        if (line.at_end || line.next <= place)
            break;
        expect(is_refusal(line.number) ? line.number : RECORD, count < file.lines ? file.numbers[count] : UINT32_MAX);
        place = line.next;
    }
    same(count, file.lines, "file %d: lines before the end", which);
}

static void walks(void)
{
    for (int i = 0; i < 600; i++) {
        uint64_t hw_id = some_hw_id();
        uint32_t today = some_date();
        some_file(&file, hw_id, today, random_below(15));
        walk(typed_hw_id(hw_id), today, i);
    }
}

/* Every place of a file as a start, and places beyond it. */
static void places(void)
{
    static const size_t more[] = {4, 1000, 65536, (size_t)1 << 31, (size_t)1 << 32, (size_t)1 << 63, SIZE_MAX - 1, SIZE_MAX};
    for (int i = 0; i < 12; i++) {
        uint64_t hw_id = some_hw_id();
        some_file(&file, hw_id, TODAY, 12);
        for (size_t place = 0; place <= file.length + 3; place++) {
            ABOUT("file %d, place %zu of %zu", i, place, file.length);
            lambukir_file_line line = compare_file_line(hw_id, TODAY, 30, file.bytes, file.length, place);
            same((uint64_t)(line.next == place), line.at_end, "%s: the place comes back at the end alone", about);
        }
        for (size_t j = 0; j < COUNT(more); j++)
            for (size_t add = 0; add < 50; add += 10) {
                size_t place = more[j] > SIZE_MAX - 50 ? more[j] : more[j] + (more[j] < 65536 ? file.length : add);
                ABOUT("file %d, place %zu of %zu", i, place, file.length);
                lambukir_file_line line = compare_file_line(hw_id, TODAY, 30, file.bytes, file.length, place);
                expect(line.number, 12);
                same(line.next, file.length, "%s: next place", about);
            }
    }
}

/* A header, a good line and the end. */
static void put_whole(const char *header, uint64_t hw_id)
{
    file.length = file.lines = 0;
    put_text(&file, header);
    put_record(&file, hw_id, TODAY);
    put_text(&file, ":ECS");
}

static void compare_header(const char *header, uint32_t number)
{
    put_whole(header, some_hw_id());
    ABOUT("header %.22s", header);
    expect(compare_open(file.bytes, file.length).number, number);
}

/* Each byte of the header as each other byte; each time of four digits; dates about the limits. */
static void headers(void)
{
    char header[100];
    put_whole(HEADER_TEXT, some_hw_id());
    for (size_t at = 0; at < HEADER_LENGTH; at++)
        for (int add = 1; add < 256; add++) {
            file.bytes[at] = (uint8_t)(file.bytes[at] + add);
            ABOUT("header, byte %zu as %02X", at, file.bytes[at]);
            compare_open(file.bytes, file.length);
            file.bytes[at] = (uint8_t)(file.bytes[at] - add);
        }
    for (int time = 0; time < 10000; time++) {
        snprintf(header, sizeof header, ":DATE 20240131 %02d:%02d\r\n:VERSION 2\r\n:ENC\r\n", time / 100, time % 100);
        memcpy(file.bytes, header, HEADER_LENGTH);
        ABOUT("time %04d", time);
        expect(compare_open(file.bytes, file.length).number, time / 100 < 24 && time % 100 < 60 ? 0 : 12);
    }
    for (size_t i = 0; i < COUNT(limit_dates) + COUNT(no_dates); i++) {
        uint32_t date = i < COUNT(limit_dates) ? limit_dates[i] : no_dates[i - COUNT(limit_dates)];
        snprintf(header, sizeof header, ":DATE %08" PRIu32 " 00:00\r\n:VERSION 2\r\n:ENC\r\n", date);
        compare_header(header, i < COUNT(limit_dates) ? 0 : 12);
    }
}

/* Headers with a byte too many or too few, and every first part of a file. */
static void other_headers(void)
{
    static const char *const bad[] = {
        "",
        "\r\n" HEADER_TEXT,
        " " HEADER_TEXT,
        ":ENC\r\n",
        ":VERSION 2\r\n:ENC\r\n",
        ":DATE 20240131 09:30\r\n:ENC\r\n",
        ":DATE 20240131 09:30\r\n:VERSION 2\r\n",
        ":DATE 20240131 09:30\n:VERSION 2\n:ENC\n",
        ":DATE 20240131 09:30\r:VERSION 2\r:ENC\r",
        ":DATE  20240131 09:30\r\n:VERSION 2\r\n:ENC\r\n",
        ":DATE 20240131  09:30\r\n:VERSION 2\r\n:ENC\r\n",
        ":DATE 20240131 9:30\r\n:VERSION 2\r\n:ENC\r\n",
        ":DATE 20240131 09:30 \r\n:VERSION 2\r\n:ENC\r\n",
        ":DATE 20240131 09:30:00\r\n:VERSION 2\r\n:ENC\r\n",
        ":DATE 20240131 0930\r\n:VERSION 2\r\n:ENC\r\n",
        ":DATE 2024131 09:30\r\n:VERSION 2\r\n:ENC\r\n",
        ":DATE 20240131 09:30\r\n:VERSION 1\r\n:ENC\r\n",
        ":DATE 20240131 09:30\r\n:VERSION 3\r\n:ENC\r\n",
        ":DATE 20240131 09:30\r\n:VERSION 02\r\n:ENC\r\n",
        ":DATE 20240131 09:30\r\n:VERSION 20\r\n:ENC\r\n",
        ":DATE 20240131 09:30\r\n:VERSION 2 \r\n:ENC\r\n",
        ":DATE 20240131 09:30\r\n:VERSION  2\r\n:ENC\r\n",
        ":DATE 20240131 09:30\r\n:VERSION 2\r\n:ENC \r\n",
        ":DATE 20240131 09:30\r\n:VERSION 2\r\n:ECS\r\n",
        ":DATE 20240131 09:30\r\n:VERSION 2\r\n\r\n:ENC\r\n",
        ":VERSION 2\r\n:DATE 20240131 09:30\r\n:ENC\r\n",
    };
    for (size_t i = 0; i < COUNT(bad); i++)
        compare_header(bad[i], 12);
    compare_header(HEADER_TEXT, 0);
    for (size_t length = 0; length <= file.length; length++) {
        ABOUT("the first %zu bytes of a file", length);
        expect(compare_open(file.bytes, length).number, length < HEADER_LENGTH ? 12 : length == HEADER_LENGTH ? 11 : 0);
    }
}

/* What follows the header: whether it is a line, and what reading it gives. */
static void ends(void)
{
    static const struct { const char *rest; uint32_t open, number, at_end; size_t next; } rows[] = {
        {"", 11, 0, 1, 0},          {":ECS", 11, 0, 1, 0},      {":ECS\r\n", 11, 0, 1, 0},       {":ECS\r\nx\r\n", 11, 0, 1, 0},
        {":ECS\r", 0, 12, 0, 5},    {":ECS\n", 0, 12, 0, 5},    {":ECS ", 0, 12, 0, 5},          {":ECS \r\n", 0, 12, 0, 7},
        {":EC", 0, 12, 0, 3},       {":EC\r\n", 0, 12, 0, 5},   {":ecs\r\n", 0, 12, 0, 6},       {" :ECS\r\n", 0, 12, 0, 7},
        {"\r\n", 0, 12, 0, 2},      {"\r\n:ECS", 0, 12, 0, 2},  {"\r", 0, 12, 0, 1},             {"\n", 0, 12, 0, 1},
        {"x", 0, 12, 0, 1},         {"\r\r\n", 0, 12, 0, 3},    {"\n\r\n", 0, 12, 0, 3},         {":ENC\r\n:ECS", 0, 12, 0, 6},
        {":ECS\r:ECS", 0, 12, 0, 9}, {":ECS\n:ECS", 0, 12, 0, 9}, {":ECS\r\r\n", 0, 12, 0, 7},   {":ECS:ECS\r\n", 0, 12, 0, 10},
    };
    for (size_t i = 0; i < COUNT(rows); i++) {
        file.length = 0;
        put_text(&file, HEADER_TEXT);
        put_text(&file, rows[i].rest);
        ABOUT("end of kind %zu", i);
        expect(compare_open(file.bytes, file.length).number, rows[i].open);
        lambukir_file_line line = compare_file_line(some_hw_id(), TODAY, 30, file.bytes, file.length, HEADER_LENGTH);
        expect(line.number, rows[i].number);
        same(line.at_end, rows[i].at_end, "%s: whether it is the end", about);
        same(line.next, HEADER_LENGTH + rows[i].next, "%s: next place", about);
        file.bytes[0] = ';';
        expect(compare_open(file.bytes, file.length).number, 12);
    }
}

/* What a line's start may be, and where each reads on. */
enum state { GOOD, SHAPE, CHECK, PADDING, UNENDED, AT_LENGTH, AT_ECS, BEYOND, STATES };

/* Puts the file together; the answer is the place to read from, `next` the one to come back. */
static size_t put_state(enum state state, uint64_t hw_id, size_t *next)
{
    some_file(&file, hw_id, TODAY, random_below(3));
    size_t place = file.length;
    switch (state) {
    case GOOD: put_record(&file, hw_id, TODAY); break;
    case SHAPE: put_refused(&file, hw_id, TODAY, 12); break;
    case CHECK: put_refused(&file, hw_id, TODAY, 13); break;
    case PADDING: put_refused(&file, hw_id, TODAY, 21); break;
    case UNENDED: put_record(&file, hw_id, TODAY); file.length -= 1 + random_below(2); break;
    case AT_LENGTH: *next = place; return place;
    case AT_ECS: put_text(&file, ":ECS"); *next = place; break;
    default: *next = place; return place + 1 + random_below(3);
    }
    if (state < AT_ECS)
        *next = file.length;
    if (state != UNENDED) {
        put_text(&file, "\r\n" + (state == AT_ECS ? 0 : 2));
        put_text(&file, random_below(2) ? ":ECS\r\n" : "");
    }
    return place;
}

/* The number of a good line on its expiry: soon for a subscription, current for a single purchase. */
static uint32_t number_of_day(const uint8_t *line)
{
    return line[CELL_PERMIT + 1] == '0' ? 20 : 0;
}

/* Every set of reasons to refuse at once, before each kind of line: 18, 14 and 103 come first and give the place back. */
static void refusals(void)
{
    static const uint32_t order[] = {18, 14, 103}, numbers[STATES] = {0, 12, 13, 21, 12, 0, 0, 12};
    for (int i = 0; i < 8 * STATES * 40; i++) {
        unsigned mask = (unsigned)i % 8;
        enum state state = (enum state)(i / 8 % STATES);
        uint64_t hw_id = some_hw_id();
        size_t next, place = put_state(state, hw_id, &next);
        ABOUT("reasons %X, line of kind %d, round %d", mask, (int)state, i / 8 / STATES);
        lambukir_file_line line = compare_file_line(mask & 1 ? no_hw_id() : typed_hw_id(hw_id), mask & 2 ? no_date(1) : TODAY, mask & 4 ? PICK(no_days) : some_days(),
                                                    file.bytes, file.length, place);
        expect(line.number, mask ? first_of(order, 3, mask) : state == GOOD ? number_of_day(file.bytes + place) : numbers[state]);
        same(line.next, mask ? place : next, "%s: next place", about);
        same(line.at_end, !mask && (state == AT_LENGTH || state == AT_ECS), "%s: whether it is the end", about);
    }
}

/* A file of more bytes than 32 bits can count. */
static void huge(void)
{
    const size_t start = ((size_t)1 << 32) + 40, size = start + 1000;
    uint64_t hw_id = some_hw_id();
    uint8_t *map = mmap(NULL, size, PROT_READ | PROT_WRITE, MAP_PRIVATE | MAP_ANONYMOUS | MAP_NORESERVE, -1, 0);
    same(map != MAP_FAILED, 1, "a map of %zu bytes", size);
    if (map == MAP_FAILED)
        return;
    file.length = file.lines = 0;
    put_record(&file, hw_id, TODAY);
    memcpy(map, HEADER_TEXT "\r\n", 42);
    memcpy(map + start, file.bytes, file.length);
    ABOUT("more than 32 bits can count");
    lambukir_place first = lambukir_open_file(map, size);
    expect(first.number, 0);
    same(first.place, HEADER_LENGTH, "%s: place of the first line", about);
    lambukir_file_line line = lambukir_read_file_line(hw_id, TODAY, 30, map, size, start);
    expect(line.number, number_of_day(map + start));
    same(line.next, start + file.length, "%s: next place", about);
    line = lambukir_read_file_line(hw_id, TODAY, 30, map, size, line.next);
    expect(line.number, 12);
    same(line.next, size, "%s: next place of an unended line", about);
    line = lambukir_read_file_line(hw_id, TODAY, 30, map, size, size);
    same(line.at_end, 1, "%s: the end", about);
    munmap(map, size);
}

/* Turns the cipher parts' letters of each line that is a record, or is refused by 13 or 21, to the other case. The answers to come are those to the file as it was. */
static void retype_lines(void)
{
    size_t place = HEADER_LENGTH;
    for (size_t i = 0; i < file.lines; i++) {
        const uint8_t *end = memmem(file.bytes + place, file.length - place, "\r\n", 2);
        if (!end)
            return;
        for (size_t at = CIPHER_PARTS; file.numbers[i] != 12 && at < CELL_PERMIT; at++)
            file.bytes[place + at] = other_case(file.bytes[place + at]);
        place = (size_t)(end - file.bytes) + 2;
    }
}

/* A file typed in another way gives line by line the same values, the same numbers and the same next places. */
static void small_letters(void)
{
    static lambukir_file_line made[MOST_LINES];
    for (int i = 0; i < 400; i++) {
        uint64_t hw_id = some_hw_id();
        size_t place = HEADER_LENGTH, count = 0;
        some_file(&file, hw_id, TODAY, random_below(15));
        for (; count < file.lines; place = made[count++].next)
            made[count] = lambukir_read_file_line(hw_id, TODAY, 30, file.bytes, file.length, place);
        retype_lines();
        place = HEADER_LENGTH;
        for (size_t n = 0; n < count; n++) {
            ABOUT("file %d typed in another way, line %zu", i, n);
            lambukir_file_line line = compare_file_line(typed_hw_id(hw_id), TODAY, 30, file.bytes, file.length, place);
            same((uint64_t)memcmp(&line, &made[n], sizeof line), 0, "%s: the answer to the file as it was", about);
            place = line.next;
        }
        walk(typed_hw_id(hw_id), TODAY, i);
    }
}

int main(int argc, char **argv)
{
    static const subject subjects[] = {
        {"files-walks", walks},
        {"files-places", places},
        {"files-headers", headers},
        {"files-other-headers", other_headers},
        {"files-ends", ends},
        {"files-refusals", refusals},
        {"files-small-letters", small_letters},
        {"files-huge", huge},
    };
    seed_random();
    return run_subjects(subjects, COUNT(subjects), argc, argv);
}
