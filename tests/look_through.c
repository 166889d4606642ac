/* The look-through program against stored results and against the model. It is target/bin/look_through, or what LOOK_THROUGH in the environment names. */
#define _DEFAULT_SOURCE
#include <glob.h>

#include "calls.h"
#include "pieces.h"
#include "process.h"

#define STORED "tests/look_through/*.in"
#define FIRST_LENGTH 19
#define ROOM (MODEL_REPORT + 1)

static uint8_t input[FILE_ROOM + FIRST_LENGTH], ours[ROOM], theirs[ROOM];
static size_t length;
static pieces file;

static const char *program(void)
{
    const char *named = getenv("LOOK_THROUGH");
    return named ? named : "target/bin/look_through";
}

/* What the program prints, held against the expected bytes. */
static void compare_printed(int fd, const uint8_t *expected, size_t expected_length)
{
    int status;
    size_t printed = printed_by(program(), fd, ours, ROOM, &status);
    same((uint64_t)status, 0, "%s: exit status", about);
    same(printed, expected_length, "%s: bytes printed", about);
    same((uint64_t)memcmp(ours, expected, printed < expected_length ? printed : expected_length), 0, "%s: what is printed", about);
}

/* The input from a file, against the model. */
static void compare_input(void)
{
    compare_printed(file_of(input, length), theirs, model_look_through(input, length, theirs));
}

/* The input from a pipe, so many bytes at a time. */
static void compare_pieces(size_t piece)
{
    pid_t writer;
    int status, fd = pipe_of(input, length, piece, &writer);
    compare_printed(fd, theirs, model_look_through(input, length, theirs));
    need(waitpid(writer, &status, 0), "waitpid");
}

/* Reads a whole file; the answer is its length, SIZE_MAX where it cannot be read or is longer than there is room. */
static size_t read_whole(const char *path, uint8_t *bytes, size_t room)
{
    FILE *from = fopen(path, "rb");
    if (!from)
        return SIZE_MAX;
    size_t got = fread(bytes, 1, room, from);
    int whole = !ferror(from) && got < room;
    fclose(from);
    return whole ? got : SIZE_MAX;
}

/* One stored case: the program and the model both print what is stored. */
static void compare_stored(const char *path)
{
    static uint8_t stored[ROOM];
    char result[300];
    snprintf(result, sizeof result, "%.*s.out", (int)strlen(path) - 3, path);
    ABOUT("%s", path);
    length = read_whole(path, input, sizeof input);
    size_t stored_length = read_whole(result, stored, ROOM);
    same(length != SIZE_MAX && stored_length != SIZE_MAX, 1, "%s: read with its result", about);
    if (length == SIZE_MAX || stored_length == SIZE_MAX)
        return;
    compare_printed(file_of(input, length), stored, stored_length);
    size_t model_length = model_look_through(input, length, theirs);
    same(model_length == stored_length && memcmp(theirs, stored, stored_length) == 0, 1, "%s: the model's report is the stored one", about);
}

static void stored(void)
{
    glob_t found;
    same((uint64_t)glob(STORED, 0, NULL, &found), 0, "stored cases in %s", STORED);
    for (size_t i = 0; i < found.gl_pathc; i++)
        compare_stored(found.gl_pathv[i]);
    globfree(&found);
}

/* The first line, its HW_ID typed in either case, and what `file` holds. */
static void put_input(uint64_t given, uint32_t today, uint32_t days)
{
    uint64_t hw_id = typed_hw_id(given);
    char first[40];
    int first_length = snprintf(first, sizeof first, "xxxxx %08" PRIu32 " %02" PRIu32 "\r\n", today, days);
    for (int i = 0; i < 5; i++)
        first[i] = (char)(hw_id >> 8 * (4 - i));
    memcpy(input, first, (size_t)first_length);
    memcpy(input + first_length, file.bytes, file.length);
    length = (size_t)first_length + file.length;
}

/* Good inputs with good and bad lines. */
static void files(void)
{
    for (int i = 0; i < 300; i++) {
        uint64_t hw_id = some_hw_id();
        uint32_t today = some_date();
        some_file(&file, hw_id, today, random_below(i % 10 == 0 ? 250 : 20));
        put_input(hw_id, today, some_days());
        ABOUT("file %d", i);
        compare_input();
    }
}

/* Inputs with one to three bytes changed, put in or left out. */
static void damaged(void)
{
    for (int i = 0; i < 300; i++) {
        uint64_t hw_id = some_hw_id();
        some_file(&file, hw_id, 20240131, random_below(10));
        put_input(hw_id, 20240131, 30);
        for (uint64_t times = 1 + random_below(3); times > 0; times--) {
            size_t at = random_below(random_below(2) ? length : FIRST_LENGTH + HEADER_LENGTH), kind = random_below(4);
            if (kind == 0)
                memmove(input + at, input + at + 1, --length - at);
            if (kind == 1)
                memmove(input + at + 1, input + at, length++ - at);
            if (kind > 0)
                input[at] = random_below(2) ? (uint8_t)random64() : (uint8_t)PICK("0A,9 \r\n:\xFF");
        }
        ABOUT("damaged input %d", i);
        compare_input();
    }
}

/* Each first part of an input up to its first record's end, and each byte of the first line and of the header changed. */
static void first_parts(void)
{
    uint64_t hw_id = some_hw_id();
    file.length = file.lines = 0;
    put_text(&file, HEADER_TEXT);
    put_record(&file, hw_id, 20240301);
    put_input(hw_id, 20240131, 30);
    size_t whole = length;
    for (length = 0; length <= whole; length++) {
        ABOUT("the first %zu bytes of an input", length);
        compare_input();
    }
    length = whole;
    for (size_t at = 0; at < FIRST_LENGTH + HEADER_LENGTH; at++)
        for (size_t i = 0; i < 6; i++) {
            const uint8_t was = input[at], others[] = {0, 0xFF, (uint8_t)(was + 1), was ^ 0x20, '0', ' '};
            input[at] = others[i];
            ABOUT("byte %zu of the input as %02X", at, input[at]);
            compare_input();
            input[at] = was;
        }
}

/* Every set of reasons to refuse at once: the first of the order is told. */
static void refusals(void)
{
    static const uint32_t order[] = {103, 103, 18, 14, 103, 12, 11};
    char expected[20];
    for (unsigned mask = 0; mask < 128; mask++) {
        uint64_t hw_id = some_hw_id();
        file.length = file.lines = 0;
        put_text(&file, mask & 32 ? ":ENC\r\n" : HEADER_TEXT);
        put_text(&file, mask & 64 ? ":ECS\r\n" : "x\r\n");
        put_input(mask & 4 ? number_from("1234G") : hw_id, mask & 8 ? PICK(no_dates) : 20240131, mask & 16 ? (mask & 1 ? 0 : 91) : 30);
        if (mask & 2)
            input[PICK(((const int[]){5, 14, 15, 16, 17, 18}))] = 'x';
        if (mask & 1) {
            memset(input + length, 'x', MODEL_INPUT + 1 - length);
            length = MODEL_INPUT + 1;
        }
        ABOUT("reasons %X", mask);
        compare_input();
        snprintf(expected, sizeof expected, "refused %" PRIu32 "\n", first_of(order, 7, mask));
        if (mask != 0)
            same((uint64_t)memcmp(ours, expected, strlen(expected)), 0, "%s: not %.10s", about, expected);
    }
}

/* Inputs of the greatest length and about it: of good lines, of empty lines, of one line. */
static void sizes(void)
{
    static const size_t sizes[] = {65000, MODEL_INPUT - 1, MODEL_INPUT, MODEL_INPUT + 1, MODEL_INPUT + 2, sizeof input};
    for (size_t i = 0; i < COUNT(sizes) * 3; i++) {
        uint64_t hw_id = some_hw_id();
        file.length = file.lines = 0;
        put_text(&file, HEADER_TEXT);
        while (i % 3 == 0 && file.length + LONGEST_LINE < FILE_ROOM)
            put_record(&file, hw_id, 20240301);
        for (size_t at = file.length; at < FILE_ROOM; at++)
            file.bytes[at] = i % 3 == 1 ? "\n\r"[at % 2 == HEADER_LENGTH % 2] : (uint8_t)'x';
        file.length = FILE_ROOM;
        put_input(hw_id, 20240131, 30);
        length = sizes[i / 3];
        ABOUT("%zu bytes of kind %zu", length, i % 3);
        compare_input();
    }
}

/* Inputs that do not come all at once. */
static void pipes(void)
{
    static const size_t sizes[] = {1, 2, 19, 77, 1000, 4096, 65536, 100000};
    for (size_t i = 0; i < COUNT(sizes) * 3; i++) {
        uint64_t hw_id = some_hw_id();
        some_file(&file, hw_id, 20240131, i < COUNT(sizes) ? 5 : 200);
        if (i >= COUNT(sizes) * 2)
            file.length = FILE_ROOM; /* too long; what the earlier files left is read or not */
        put_input(hw_id, 20240131, 30);
        ABOUT("%zu bytes, %zu at a time", length, sizes[i % COUNT(sizes)]);
        compare_pieces(sizes[i % COUNT(sizes)]);
    }
}

int main(int argc, char **argv)
{
    static const subject subjects[] = {
        {"look_through-stored", stored},
        {"look_through-files", files},
        {"look_through-damaged", damaged},
        {"look_through-first-parts", first_parts},
        {"look_through-refusals", refusals},
        {"look_through-sizes", sizes},
        {"look_through-pipes", pipes},
    };
    seed_random();
    return run_subjects(subjects, COUNT(subjects), argc, argv);
}
