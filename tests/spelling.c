/* Values from text and back, against the alphabets written out and the C library's calendar; and the words for each number, against the header's. */
#define _DEFAULT_SOURCE
#include <ctype.h>
#include <time.h>

#include "compare.h"
#include "guard.h"
#include "lambukir.h"
#include "random.h"

#define HEX "0123456789ABCDEF"
#define NAME "0123456789ABCDEFGHIJKLMNOPQRSTUVWXYZ"
#define LONGEST 24 /* of the texts that are tried */

/* One form of value: so many characters of an alphabet, which are the bytes of a number (base 256) or its digits. Those of `small` are taken too, as the
   letters that they are raised to. */
typedef struct {
    const char *what, *alphabet, *small;
    size_t length;
    uint64_t base, none;
    uint64_t (*from)(const char *, size_t);
    lambukir_text (*to)(uint64_t);
} form;

static uint64_t code_from(const char *text, size_t length)
{
    return lambukir_code_from_text(text, length);
}

static uint64_t date_from(const char *text, size_t length)
{
    return lambukir_date_from_text(text, length);
}

static lambukir_text code_to(uint64_t code)
{
    return lambukir_code_to_text((uint32_t)code);
}

static lambukir_text date_to(uint64_t date)
{
    return lambukir_date_to_text((uint32_t)date);
}

static const form name = {"name", NAME, "", 8, 256, LAMBUKIR_NO_NAME, lambukir_name_from_text, lambukir_name_to_text};
static const form hw_id = {"HW_ID", HEX, "abcdef", 5, 256, LAMBUKIR_NO_HW_ID, lambukir_hw_id_from_text, lambukir_hw_id_to_text};
static const form code = {"code", NAME, "", 2, 256, LAMBUKIR_NO_CODE, code_from, code_to};
static const form key = {"key", HEX, "", 10, 16, LAMBUKIR_NO_KEY, lambukir_key_from_hex, lambukir_key_to_hex};
static const form date = {"date", "0123456789", "", 8, 10, LAMBUKIR_NO_DATE, date_from, date_to};

/* Whether the C library's calendar gives a day back as it is. */
static int is_day(uint64_t number)
{
    struct tm day = {.tm_year = (int)(number / 10000) - 1900, .tm_mon = (int)(number / 100 % 100) - 1, .tm_mday = (int)(number % 100)}, given = day;
    if (number / 10000 < 1900 || number / 10000 > 2999 || timegm(&day) == -1)
        return 0;
    return day.tm_year == given.tm_year && day.tm_mon == given.tm_mon && day.tm_mday == given.tm_mday;
}

static uint64_t plain_from(const form *f, const uint8_t *text, size_t length)
{
    uint64_t value = 0;
    for (size_t i = 0; i < length; i++) {
        int raised = memchr(f->small, text[i], strlen(f->small)) ? toupper(text[i]) : text[i];
        const char *at = memchr(f->alphabet, raised, strlen(f->alphabet));
        if (length != f->length || !at)
            return f->none;
        value = value * f->base + (f->base == 256 ? (uint64_t)raised : (uint64_t)(at - f->alphabet));
    }
    return length == f->length && (f != &date || is_day(value)) ? value : f->none;
}

/* The characters of a value, last to first and small letters raised, if the form takes them. */
static void plain_to(const form *f, uint64_t value, char out[LAMBUKIR_TEXT_SIZE])
{
    uint8_t text[LONGEST];
    uint64_t rest = value;
    for (size_t i = f->length; i-- > 0; rest /= f->base)
        text[i] = f->base == 256 ? (uint8_t)rest : (uint8_t)f->alphabet[rest % f->base];
    memset(out, 0, LAMBUKIR_TEXT_SIZE);
    if (rest != 0 || value == f->none || plain_from(f, text, f->length) == f->none)
        return;
    for (size_t i = 0; i < f->length; i++)
        out[i] = (char)toupper(text[i]);
}

static void compare_from(const form *f, const uint8_t *text, size_t length)
{
    lent l = lend(text, length, random_below(16));
    same(f->from((const char *)l.bytes, length), plain_from(f, text, length), "%s from %zu bytes, %.*s", f->what, length, (int)length, (const char *)text);
    same((uint64_t)all_kept(&l), 1, "%s: the lent text and its guard bytes", f->what);
    give_back(&l);
}

static void compare_to(const form *f, uint64_t given)
{
    uint64_t value = f == &code || f == &date ? (uint32_t)given : given; /* these two are numbers of 32 bits */
    char theirs[LAMBUKIR_TEXT_SIZE];
    lambukir_text ours = f->to(value);
    plain_to(f, value, theirs);
    same((uint64_t)memcmp(ours.text, theirs, sizeof theirs) != 0, 0, "the text of the %s %" PRIX64 ", %.*s", f->what, value, 64, ours.text);
}

/* A text of the alphabet; of a date it is one. */
static void good_text(const form *f, uint8_t *text, size_t length)
{
    for (size_t i = 0; i < length; i++)
        text[i] = (uint8_t)f->alphabet[random_below(strlen(f->alphabet))];
    if (f == &date && length == 8) {
        char day[32];
        snprintf(day, sizeof day, "%04u%02u%02u", 1900 + (unsigned)random_below(1100), 1 + (unsigned)random_below(12), 1 + (unsigned)random_below(28));
        memcpy(text, day, 8);
    }
}

/* Texts of every length, each place of a good one with each other byte, and values around the good ones. */
static void compare_form(const form *f)
{
    uint8_t text[LONGEST];
    for (size_t turn = 0; turn < 100; turn++)
        for (size_t length = 0; length <= LONGEST; length++) {
            good_text(f, text, length);
            compare_from(f, text, length);
        }
    for (size_t turn = 0; turn < 10; turn++)
        for (size_t at = 0; at < f->length; at++)
            for (unsigned c = 0; c < 256; c++) {
                good_text(f, text, f->length);
                text[at] = (uint8_t)c;
                compare_from(f, text, f->length);
            }
    for (size_t turn = 0; turn < 2000; turn++) {
        good_text(f, text, f->length);
        uint64_t value = plain_from(f, text, f->length);
        compare_to(f, value);
        compare_to(f, value ^ (uint64_t)1 << random_below(64));
        compare_to(f, random64() >> random_below(64));
    }
    const uint64_t edges[] = {0, 1, UINT64_MAX, UINT32_MAX, 0xFFFFFFFFFF, 0x10000000000, 0xFFFF, 0x10000, f->none};
    for (size_t i = 0; i < sizeof edges / sizeof *edges; i++)
        compare_to(f, edges[i]);
}

static void names(void)
{
    compare_form(&name);
    same(lambukir_name_from_text("NO4D0613", 8), 0x4E4F344430363133, "the name of the header");
}

/* Each HW_ID in every mixture of cases: one value, and one text back, in capitals. */
static void hw_ids(void)
{
    compare_form(&hw_id);
    same(lambukir_hw_id_from_text("12348", 5), 0x3132333438, "the HW_ID of the header");
    for (int i = 0; i < 1000; i++) {
        uint8_t made[5], typed[5];
        good_text(&hw_id, made, 5);
        uint64_t value = lambukir_hw_id_from_text((const char *)made, 5), small = 0;
        for (unsigned cases = 0; cases < 32; cases++, small = 0) {
            for (unsigned at = 0; at < 5; at++) {
                typed[at] = (uint8_t)(cases >> at & 1 ? tolower(made[at]) : made[at]);
                small = small << 8 | typed[at];
            }
            same(lambukir_hw_id_from_text((const char *)typed, 5), value, "the HW_ID %.5s", (const char *)typed);
            compare_from(&hw_id, typed, 5);
            compare_to(&hw_id, small);
            same((uint64_t)memcmp(lambukir_hw_id_to_text(small).text, made, 5), 0, "the text of the HW_ID %.5s", (const char *)typed);
        }
    }
}

/* Every text of two bytes, too. */
static void codes(void)
{
    compare_form(&code);
    for (unsigned i = 0; i < 0x10000; i++) {
        const uint8_t text[] = {(uint8_t)(i >> 8), (uint8_t)i};
        compare_from(&code, text, 2);
        compare_to(&code, i);
    }
}

static void keys(void)
{
    compare_form(&key);
    same(lambukir_key_from_hex("C1CB518E9C", 10), 0xC1CB518E9C, "the key of the header");
    same(lambukir_key_from_hex("C1CB518E9", 9), LAMBUKIR_NO_KEY, "no key");
    same(lambukir_key_from_hex("c1cb518e9c", 10), LAMBUKIR_NO_KEY, "no key in small letters");
}

/* Every day of the years, and numbers like them that are none. */
static void dates(void)
{
    compare_form(&date);
    for (unsigned year = 1899; year <= 3000; year++)
        for (unsigned month = 0; month <= 13; month++)
            for (unsigned day = 0; day <= 32; day++) {
                char text[32];
                snprintf(text, sizeof text, "%04u%02u%02u", year, month, day);
                compare_from(&date, (const uint8_t *)text, 8);
                compare_to(&date, year * 10000 + month * 100 + day);
            }
}

#define ROWS 100

/* The header's table of numbers: after each a comment, which is its meaning. It ends at the first line that has none. */
static size_t read_table(uint32_t numbers[ROWS], char texts[ROWS][80])
{
    char line[200];
    size_t count = 0;
    FILE *header = fopen("target/include/lambukir.h", "r");
    while (header && count < ROWS && fgets(line, sizeof line, header)) {
        int found = sscanf(line, "#define LAMBUKIR_%*s %" SCNu32 " /* %79[^*]", &numbers[count], texts[count]);
        if (found != 2 && count > 0)
            break;
        if (found == 2) {
            texts[count][strlen(texts[count]) - 1] = 0; /* the blank before the comment's end */
            count++;
        }
    }
    if (header)
        fclose(header);
    return count;
}

static void meanings(void)
{
    static uint32_t numbers[ROWS];
    static char texts[ROWS][80];
    size_t count = read_table(numbers, texts);
    same(count >= 21 && numbers[0] == 0, 1, "the header's table, which begins with 0");
    for (uint32_t number = 0; number < 100000; number++) {
        const char *words = "a number that no call gives";
        for (size_t i = 0; i < count; i++)
            if (numbers[i] == number)
                words = texts[i];
        char theirs[LAMBUKIR_TEXT_SIZE] = {0};
        memcpy(theirs, words, strnlen(words, sizeof theirs));
        lambukir_text ours = lambukir_meaning(number);
        same((uint64_t)memcmp(ours.text, theirs, sizeof theirs) != 0, 0, "the meaning of %" PRIu32 ", %.*s, and in the header %s", number, 64, ours.text, words);
        same(lambukir_is_success(number), number == 0 || number == 15 || number == 20 || number == 27, "%" PRIu32 " is success", number);
    }
    same(lambukir_is_success(UINT32_MAX), 0, "the last number is success");
}

int main(int argc, char **argv)
{
    static const subject subjects[] = {
        {"spelling-names", names},
        {"spelling-hw-ids", hw_ids},
        {"spelling-codes", codes},
        {"spelling-keys", keys},
        {"spelling-dates", dates},
        {"spelling-meanings", meanings},
    };
    seed_random();
    return run_subjects(subjects, sizeof subjects / sizeof *subjects, argc, argv);
}
