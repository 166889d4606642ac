/* The program mend against the model: the clean file on standard output, the list on standard error. It is target/bin/mend, or what MEND in the environment
   names. */
#define _DEFAULT_SOURCE
#include "calls.h"
#include "mails.h"
#include "process.h"

#define INPUT 65536 /* the longest that is not refused */
#define OUT_ROOM 70000
#define ERRORS_ROOM 800000

static uint8_t input[2 * INPUT], ours[OUT_ROOM], theirs[OUT_ROOM], our_errors[ERRORS_ROOM], their_errors[ERRORS_ROOM];
static size_t length;

static const char *program(void)
{
    const char *named = getenv("MEND");
    return named ? named : "target/bin/mend";
}

/* What the program is to write, by the model. It has room for every list. */
static lambukir_mended expected(void)
{
    lambukir_mended mended = {.number = 103};
    if (length <= INPUT)
        mended = model_mend(input, length, theirs, OUT_ROOM, their_errors, ERRORS_ROOM);
    if (mended.number != 0)
        mended.list_length = (uint64_t)snprintf((char *)their_errors, ERRORS_ROOM, "refused %" PRIu32 "\n", mended.number);
    return mended;
}

static void same_bytes(const uint8_t *a, size_t a_length, const uint8_t *b, size_t b_length, const char *what)
{
    same(a_length, b_length, "%s: length of the %s", about, what);
    same((uint64_t)memcmp(a, b, a_length < b_length ? a_length : b_length), 0, "%s: the %s", about, what);
}

/* The number that it refuses with, or 0. */
static uint32_t compare_written(int fd)
{
    lambukir_mended mended = expected();
    int status, errors = file_of(our_errors, 0);
    size_t printed = printed_beside(program(), fd, errors, ours, OUT_ROOM, &status);
    need((int)lseek(errors, 0, SEEK_SET), "lseek");
    size_t told = read_all(errors, our_errors, ERRORS_ROOM);
    same((uint64_t)status, 0, "%s: exit status", about);
    same_bytes(ours, printed, theirs, mended.length, "clean file");
    same_bytes(our_errors, told, their_errors, mended.list_length, "list");
    return mended.number;
}

static uint32_t compare_input(void)
{
    return compare_written(file_of(input, length));
}

static void set_input(const void *bytes, size_t size)
{
    memcpy(input, bytes, size);
    length = size;
}

/* Mailed files, of which what the test put into them must come out. */
static void files(void)
{
    for (int i = 0; i < 300; i++) {
        some_mail(NOBODY, random_below(i % 10 == 0 ? 300 : 20), EOL | BLANK | LETTERS, (uint64_t)i % 4);
        set_input(mailed.bytes, mailed.length);
        ABOUT("mailed file %d", i);
        expect(compare_input(), 0);
        same_bytes(ours, clean.length, clean.bytes, clean.length, "clean file that the test expects");
        same_bytes(our_errors, listed.length, listed.bytes, listed.length, "list that the test expects");
    }
}

/* One to three bytes changed, put in or left out. */
static void damaged(void)
{
    for (int i = 0; i < 300; i++) {
        some_mail(NOBODY, random_below(10), EOL | BLANK | LETTERS, 2);
        set_input(mailed.bytes, mailed.length);
        for (uint64_t times = 1 + random_below(3); times > 0; times--) {
            size_t at = random_below(random_below(3) ? length : HEADER_LENGTH), kind = random_below(4);
            if (kind == 0)
                memmove(input + at, input + at + 1, --length - at);
            if (kind == 1)
                memmove(input + at + 1, input + at, length++ - at);
            if (kind > 0)
                input[at] = random_below(2) ? (uint8_t)random64() : (uint8_t)PICK("0A,9 \r\n:\xFF");
        }
        ABOUT("damaged file %d", i);
        compare_input();
    }
}

/* Each first part of a file, and nothing at all. */
static void first_parts(void)
{
    some_mail(NOBODY, 3, EOL | BLANK | LETTERS, 2);
    set_input(mailed.bytes, mailed.length);
    for (size_t whole = length, first = 0; first <= whole; first++) {
        length = first;
        ABOUT("the first %zu bytes of a file", length);
        compare_input();
    }
}

/* Too long, with a bad header, both or neither: 103 comes first, and nothing else is written. */
static void refusals(void)
{
    static const uint32_t order[] = {103, 12};
    static const char *const written[] = {"refused 103\n", "refused 12\n"};
    for (unsigned mask = 0; mask < 4; mask++)
        for (int i = 0; i < 10; i++) {
            some_mail(NOBODY, random_below(10), EOL | BLANK | LETTERS, 2);
            set_input(mailed.bytes, mailed.length);
            if (mask & 2)
                input[random_below(20)] ^= 0x80;
            if (mask & 1) {
                memset(input + length, '\n', sizeof input - length);
                length = INPUT + 1 + (size_t)i;
            }
            ABOUT("reasons %X", mask);
            expect(compare_input(), first_of(order, 2, mask));
            const char *words = mask == 0 ? "" : written[mask == 2];
            same((uint64_t)memcmp(our_errors, words, strlen(words)), 0, "%s: not %.11s", about, words);
        }
}

/* Inputs of the greatest length and about it, of each kind that makes the output or the list long. */
static void sizes(void)
{
    static const size_t sizes[] = {65000, INPUT - 1, INPUT, INPUT + 1, INPUT + 2, sizeof input};
    static const char *const fillings[] = {"\n", "\r\n", "x", " ", "\r", "ab\n", ":ECS\r\n\n", ":ecs \n",
                                           "XX00000019000101000000000000000000000000000000000000000000000000,0,,XX,\n"};
    for (size_t i = 0; i < COUNT(sizes) * COUNT(fillings); i++) {
        const char *filling = fillings[i % COUNT(fillings)];
        length = 0;
        for (const char *at = ":DATE 20240131 09:30\n:VERSION 2\n:ENC\n"; *at; at++)
            input[length++] = (uint8_t)*at;
        for (size_t at = 0; length < sizeof input; at++)
            input[length++] = (uint8_t)filling[at % strlen(filling)];
        length = sizes[i / COUNT(fillings)];
        ABOUT("%zu bytes of kind %zu", length, i % COUNT(fillings));
        expect(compare_input(), length > INPUT ? 103 : 0);
        if (length == INPUT && i % COUNT(fillings) == 0)
            same(expected().list_length > 11 * (INPUT - 37) - 12000, 1, "%s: the longest list", about);
    }
}

/* Inputs that do not come all at once. */
static void pipes(void)
{
    static const size_t pieces_of[] = {1, 2, 19, 77, 1000, 4096, 65536, 100000};
    for (size_t i = 0; i < COUNT(pieces_of) * 3; i++) {
        pid_t writer;
        int status;
        some_mail(NOBODY, i < COUNT(pieces_of) ? 5 : 300, EOL | BLANK | LETTERS, 2);
        set_input(mailed.bytes, mailed.length);
        if (i >= COUNT(pieces_of) * 2)
            length = sizeof input; /* too long; what the earlier files left is read or not */
        ABOUT("%zu bytes, %zu at a time", length, pieces_of[i % COUNT(pieces_of)]);
        expect(compare_written(pipe_of(input, length, pieces_of[i % COUNT(pieces_of)], &writer)), i >= COUNT(pieces_of) * 2 ? 103 : 0);
        need(waitpid(writer, &status, 0), "waitpid");
    }
}

int main(int argc, char **argv)
{
    static const subject subjects[] = {
        {"mend-files", files},
        {"mend-damaged", damaged},
        {"mend-first-parts", first_parts},
        {"mend-refusals", refusals},
        {"mend-sizes", sizes},
        {"mend-pipes", pipes},
    };
    seed_random();
    return run_subjects(subjects, COUNT(subjects), argc, argv);
}
