/* What the header says of every call: an empty slice may be NULL, and a call takes so much stack at most. */
#define _GNU_SOURCE /* pthread_attr_setstack */
#include <pthread.h>
#include <stdlib.h>

#include "compare.h"
#include "lambukir.h"

#define HW_ID 0x3132333438
#define NAME 0x4E4F344430363133
#define TODAY 20240131
#define EXPIRY 20240331
#define CELL_KEY 0xC1CB518E9C
#define OTHER_KEY 0x421571CC66
#define CELL_LENGTH 1000

/* Slices that every call takes. Which of them are lent as nothing is for the test to say. */
typedef struct {
    const uint8_t *bytes;
    size_t length;
} slice;

enum { BOOK, BOOK_1, NEW_BOOK, REGISTER, PERMIT, LINE, LINES, MAILED, LIST, IDS, PRINCIPALS, KEY, TEXT, CELL, ENCIPHERED, OUT, LONG_OUT, TOLD, QUOTAS, SLICES };

static uint8_t book[LAMBUKIR_BOOK_SIZE], book_1[LAMBUKIR_BOOK_SIZE_1], new_book[LAMBUKIR_BOOK_SIZE];
static uint8_t cell[CELL_LENGTH], enciphered[CELL_LENGTH + 8], long_out[CELL_LENGTH + 8];
static uint32_t cell_crc;
static uint8_t out[LAMBUKIR_LINE_SIZE], permit[LAMBUKIR_USER_PERMIT_SIZE], line[LAMBUKIR_LINE_SIZE];
static const char ids[] = "NODEA2A3A4A5A6A7A8A9B0B1B2B3B4B5";
static const char list[] = ":DATE 20240131 09:30\r\n:VERSION 2\r\n:CONTENT FULL\r\n:ENC\r\n"
                           "NO4D0613.000,20240101,10,,,,,,,,2,1,0,,B1,\r\nDE416080.000,20240101,3,,,,,,,,2,1,0,,B1,\r\n:ECS\r\n";
static char file[200], mailed[200]; /* a permit file with that one line, and the same with each fault and a line that is left out */
static uint8_t told[300];
static uint16_t quotas[LAMBUKIR_TENANTS] = {5};
static const uint8_t principals[LAMBUKIR_TENANTS] = {0, 1};

static void fill(slice s[SLICES])
{
    lambukir_open_book(book, sizeof book, quotas, LAMBUKIR_TENANTS, (const uint8_t *)ids, LAMBUKIR_IDS_SIZE, principals, sizeof principals);
    memcpy(book_1, book, 101); /* empty, it differs from one of version 1 in its first byte and its length alone */
    book_1[0] = 1;
    lambukir_enter(book, sizeof book, 0, NAME, 10, 1, 2, EXPIRY);
    lambukir_make_user_permit((const uint8_t *)"0198765", 7, HW_ID, 0x3031, permit, sizeof permit);
    lambukir_written written = lambukir_write_line(HW_ID, NAME, EXPIRY, 1, 2, 0, 10, 0x4742, line, sizeof line);
    int length = snprintf(file, sizeof file, ":DATE 20240131 09:30\r\n:VERSION 2\r\n:ENC\r\n%.*s:ECS\r\n", (int)written.length, (const char *)line);
    int mailed_length = snprintf(mailed, sizeof mailed, ":Date 20240131 09:30\n:VERSION 2 \r\n:ENC\r\n%.*s \nSHORT\n", (int)written.length - 2, (const char *)line);
    lambukir_encipher_file(CELL_KEY, cell, sizeof cell, enciphered, sizeof enciphered);
    cell_crc = lambukir_crc32(cell, sizeof cell);
    const slice all[SLICES] = {
        [BOOK] = {book, sizeof book},
        [BOOK_1] = {book_1, sizeof book_1},
        [NEW_BOOK] = {new_book, sizeof new_book},
        [REGISTER] = {(const uint8_t *)"0198765", 7},
        [PERMIT] = {permit, sizeof permit},
        [LINE] = {line, written.length - 2},
        [LINES] = {(const uint8_t *)file, (size_t)length},
        [MAILED] = {(const uint8_t *)mailed, (size_t)mailed_length},
        [LIST] = {(const uint8_t *)list, sizeof list - 1},
        [IDS] = {(const uint8_t *)ids, LAMBUKIR_IDS_SIZE},
        [PRINCIPALS] = {principals, sizeof principals},
        [KEY] = {(const uint8_t *)"98765", 5},
        [TEXT] = {(const uint8_t *)"NO4D0613", 8},
        [CELL] = {cell, sizeof cell},
        [ENCIPHERED] = {enciphered, sizeof enciphered},
        [OUT] = {out, sizeof out},
        [LONG_OUT] = {long_out, sizeof long_out},
        [TOLD] = {told, sizeof told},
        [QUOTAS] = {(const uint8_t *)quotas, LAMBUKIR_TENANTS},
    };
    memcpy(s, all, sizeof all);
}

#define LENT(which) s[which].bytes, s[which].length
#define WRITTEN(which) (uint8_t *)s[which].bytes, s[which].length
#define LENT_TEXT (const char *)s[TEXT].bytes, s[TEXT].length

/* Every function that takes a slice, each once; what one answers is told as one number. */
#define CALLS 31
#define STANDING 7
#define CRC 14
#define CARRY_OVER 24
#define CELL_FILES 27 /* the first of those on cell files, which come last */

static uint64_t call(int which, const slice s[SLICES])
{
    switch (which) {
    case 0: return lambukir_make_user_permit(LENT(REGISTER), HW_ID, 0x3031, WRITTEN(OUT));
    case 1: return lambukir_read_user_permit(LENT(REGISTER), LENT(PERMIT)).number;
    case 2: return lambukir_read_line(HW_ID, TODAY, 30, LENT(LINE)).number;
    case 3: return lambukir_comment(LENT(LINE)).start;
    case 4: return lambukir_write_line(HW_ID, NAME, EXPIRY, 1, 2, 0, 10, 0x4742, WRITTEN(OUT)).number;
    case 5: return lambukir_open_file(LENT(LINES)).number;
    case 6: return lambukir_read_file_line(HW_ID, TODAY, 30, LENT(LINES), 40).number;
    case STANDING: return lambukir_product_standing(LENT(LIST), NAME, 10, 0).number;
    case 8: return lambukir_withdraw(WRITTEN(BOOK), 0, NAME);
    case 9: return lambukir_set_days(WRITTEN(BOOK), 0, 60);
    case 10: return lambukir_enter(WRITTEN(BOOK), 0, NAME, 11, 3, 4, EXPIRY);
    case 11: return lambukir_ask_edition(LENT(BOOK), 0, NAME).number;
    case 12: return lambukir_issue(LENT(BOOK), LENT(REGISTER), 0, NAME, EXPIRY, 0, LENT(PERMIT), WRITTEN(OUT)).number;
    case 13: return lambukir_check(LENT(BOOK), 0, HW_ID, TODAY, LENT(LINE)).number;
    case CRC: return lambukir_crc32(LENT(CELL));
    case 15: return lambukir_encipher_block(LENT(KEY), 1).number;
    case 16: return lambukir_decipher_block(LENT(KEY), 1).number;
    case 17: return lambukir_open_book(WRITTEN(BOOK), (const uint16_t *)(const void *)s[QUOTAS].bytes, s[QUOTAS].length, LENT(IDS), LENT(PRINCIPALS));
    case 18: return lambukir_name_from_text(LENT_TEXT);
    case 19: return lambukir_hw_id_from_text(LENT_TEXT) | lambukir_code_from_text(LENT_TEXT);
    case 20: return lambukir_key_from_hex(LENT_TEXT);
    case 21: return lambukir_date_from_text(LENT_TEXT);
    case 22: return lambukir_ask_producer(LENT(BOOK), 0, 0x4E4F).number;
    case 23: return lambukir_house_enter(WRITTEN(BOOK), 0, NAME + 1, 11, 3, 4, 0).number;
    case CARRY_OVER: return lambukir_carry_over(LENT(BOOK_1), WRITTEN(NEW_BOOK));
    case 25: return lambukir_house_withdraw(WRITTEN(BOOK), 0, NAME).number;
    case 26: return lambukir_mend(LENT(MAILED), WRITTEN(LONG_OUT), WRITTEN(TOLD)).number;
    case CELL_FILES: return lambukir_encipher_file(CELL_KEY, LENT(CELL), WRITTEN(LONG_OUT)).length;
    case 28: return lambukir_encipher_part(CELL_KEY, 0x010203, 3, LENT(CELL), WRITTEN(LONG_OUT)).carried;
    case 29: return lambukir_encipher_end(CELL_KEY, 0x010203, 3, WRITTEN(OUT)).number;
    default: return lambukir_open_cell_file(LENT(ENCIPHERED), OTHER_KEY, CELL_KEY, cell_crc, WRITTEN(LONG_OUT)).number;
    }
}

/* Each call with each set of one or two slices empty: NULL answers as a place that has no byte. */
static void nothing(void)
{
    static const uint16_t nowhere[1] = {0};
    for (int which = 0; which < CALLS; which++)
        for (int first = 0; first < SLICES; first++)
            for (int second = 0; second < SLICES; second++) {
                slice s[SLICES];
                fill(s);
                s[first] = s[second] = (slice){(const uint8_t *)nowhere, 0};
                uint64_t theirs = call(which, s);
                fill(s);
                s[first] = s[second] = (slice){NULL, 0};
                same(call(which, s), theirs, "call %d with slices %d and %d NULL, against empty ones", which, first, second);
            }
}

/* How far down a call goes: the lowest byte of a thread's stack that is no longer what it was filled with. */
#define STACK (4u << 20)
#define FILLED 0xA5

typedef struct {
    int which; /* -1 for none */
    const slice *slices;
    uint64_t answer;
} job;

static void *work(void *given)
{
    job *j = given;
    if (j->which >= 0)
        j->answer = call(j->which, j->slices);
    return NULL;
}

static size_t stack_of(int which, const slice s[SLICES])
{
    static uint8_t *stack;
    if (!stack)
        stack = aligned_alloc(4096, STACK);
    job j = {which, s, 0};
    pthread_t thread;
    pthread_attr_t attributes;
    memset(stack, FILLED, STACK);
    pthread_attr_init(&attributes);
    if (pthread_attr_setstack(&attributes, stack, STACK) != 0 || pthread_create(&thread, &attributes, work, &j) != 0)
        return STACK;
    pthread_join(thread, NULL);
    pthread_attr_destroy(&attributes);
    size_t untouched = 0;
    while (untouched < STACK && stack[untouched] == FILLED)
        untouched++;
    return STACK - untouched;
}

/* How many KiB a call may take: 6, but for a product list whose names do not rise, as these do not, for the carry-over, for CRC-32 and for cell files. */
static size_t stack_for(int which)
{
    return which == STANDING ? 600 : which == CARRY_OVER ? 15 : which == CRC || which >= CELL_FILES ? 12 : 6;
}

static void stack_taken(void)
{
    slice s[SLICES];
    fill(s);
    size_t idle = stack_of(-1, s), most = 0, most_of_files = 0;
    for (int which = 0; which < CALLS; which++) {
        fill(s);
        call(which, s); /* once before, so that finding a function of the C library, which takes stack as well, is not measured */
        fill(s);
        size_t taken = stack_of(which, s) - idle;
        same(taken <= stack_for(which) << 10, 1, "call %d takes %zu bytes of stack", which, taken);
        if (stack_for(which) == 6 && taken > most)
            most = taken;
        if (stack_for(which) == 12 && taken > most_of_files)
            most_of_files = taken;
        if (which == STANDING)
            printf("  a product list out of order takes %zu bytes of stack\n", taken);
        if (which == CARRY_OVER)
            printf("  carrying a book over takes %zu\n", taken);
    }
    printf("  CRC-32 and the calls on cell files take at most %zu\n", most_of_files);
    printf("  the other calls take at most %zu\n", most);
    same(most > 4096 && most_of_files > 4096, 1, "a key's words were seen on the stack");
}

int main(int argc, char **argv)
{
    static const subject subjects[] = {
        {"lending-nothing", nothing},
        {"lending-stack", stack_taken},
    };
    return run_subjects(subjects, sizeof subjects / sizeof *subjects, argc, argv);
}
