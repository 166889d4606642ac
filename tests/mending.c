/* Mailed files mended: against the model, against what the test itself put into a file, and against what the rules promise of every file. */
#define _DEFAULT_SOURCE
#include <sys/mman.h>

#include "mended.h"

/* lines of the shape, the second as short as one can be */
#define P "NO4D061320000830BEB9BFE3C7C6CE68B16411FD09F96982795C77B204F54D48,0,5,GB,"
#define Q "GB50184C20241231A8B023478014E260D1D1AB54E15AB62F75EE32BAFB4F9D8E,1,,ZZ,"

static text file; /* what is damaged at random, or in one place after the other */

/* Written down by hand. Where no clean file is given it is 12. */
static void worked(void)
{
#define H ":DATE 20240131 09:30\r\n:VERSION 2\r\n:ENC\r\n"
    static const struct { const char *file, *out, *list; } rows[] = {
        {H ":ECS\r\n", H ":ECS\r\n", ""},
        {H ":ECS", H ":ECS", ""},
        {H, H ":ECS\r\n", "4 ECS\n"},
        {H P "\r\n" Q "\r\n:ECS\r\n", H P "\r\n" Q "\r\n:ECS\r\n", ""},
        {":DATE 20240131 09:30\n:VERSION 2\n:ENC\n:ECS\n", H ":ECS\r\n", "1 EOL\n2 EOL\n3 EOL\n4 EOL\n"},
        {":DATE 20240131 09:30 \r\n:VERSION 2   \r\n:ENC  \r\n:ECS \r\n", H ":ECS\r\n", "1 BLANK\n2 BLANK\n3 BLANK\n4 BLANK\n"},
        {":date 20240131 09:30\r\n:Version 2\r\n:eNC\r\n:ecs\r\n", H ":ECS\r\n", "1 CASE\n2 CASE\n3 CASE\n4 CASE\n"},
        {":Date 20240131 09:30 \n:versioN 2 \n:enc \n:eCs \n", H ":ECS\r\n",
         "1 EOL\n1 BLANK\n1 CASE\n2 EOL\n2 BLANK\n2 CASE\n3 EOL\n3 BLANK\n3 CASE\n4 EOL\n4 BLANK\n4 CASE\n"},
        {H P "\n" Q "\r\n", H P "\r\n" Q "\r\n:ECS\r\n", "4 EOL\n6 ECS\n"},
        {H P, H ":ECS\r\n", "4 OUT " P "\n5 ECS\n"},
        {H P "\r", H ":ECS\r\n", "4 OUT " P "\r\n5 ECS\n"},
        {H P "\r\r\n:ECS", H ":ECS", "4 OUT " P "\r\n"},
        {H P "\r" Q "\r\n", H ":ECS\r\n", "4 OUT " P "\r" Q "\n5 ECS\n"},
        {H P "  \r\n:ECS", H P "\r\n:ECS", "4 BLANK\n"},
        {H P " \n" Q "   \n:ECS", H P "\r\n" Q "\r\n:ECS", "4 EOL\n4 BLANK\n5 EOL\n5 BLANK\n"},
        {H P " by  mail, in a hurry  \n:ECS", H P " by  mail, in a hurry\r\n:ECS", "4 EOL\n4 BLANK\n"},
        {H P " \r \n:ECS", H ":ECS", "4 OUT " P " \r \n"},
        {H P "\t\r\n:ECS", H ":ECS", "4 OUT " P "\t\n"},
        {H " " P "\r\n:ECS", H ":ECS", "4 OUT  " P "\n"},
        {H "no4d061320000830BEB9BFE3C7C6CE68B16411FD09F96982795C77B204F54D48,0,5,GB,\n:ECS", H ":ECS",
         "4 OUT no4d061320000830BEB9BFE3C7C6CE68B16411FD09F96982795C77B204F54D48,0,5,GB,\n"},
        {H "NO4D061320000830beb9bfe3c7c6ce68b16411fd09f96982795c77b204f54d48,0,5,GB,\r\n:ECS",
         H "NO4D061320000830beb9bfe3c7c6ce68b16411fd09f96982795c77b204f54d48,0,5,GB,\r\n:ECS", ""},
        {H "NO4D061320000830BEB9BFE3C7C6CE68B16411FD09F96982795C77B204F54D48,0,5,gb,  \r\n:ECS", H ":ECS",
         "4 OUT NO4D061320000830BEB9BFE3C7C6CE68B16411FD09F96982795C77B204F54D48,0,5,gb,  \n"},
        {H "NO4D061320000830BEB9BFE3C7C6CE68B16411FD09F96982795C77B204F54D48,0,5,GB\r\n:ECS", H ":ECS",
         "4 OUT NO4D061320000830BEB9BFE3C7C6CE68B16411FD09F96982795C77B204F54D48,0,5,GB\n"},
        {H "\r\n:ECS", H ":ECS", "4 OUT \n"},
        {H "\n\n:ECS\n", H ":ECS\r\n", "4 OUT \n5 OUT \n6 EOL\n"},
        {H "   \r\n:ECS", H ":ECS", "4 OUT    \n"},
        {H "\r", H ":ECS\r\n", "4 OUT \r\n5 ECS\n"},
        {H " ", H ":ECS\r\n", "4 OUT  \n5 ECS\n"},
        {H "x", H ":ECS\r\n", "4 OUT x\n5 ECS\n"},
        {H ":ENC\r\n:DATE 20240131 09:30\r\n:ECS\r\n", H ":ECS\r\n", "4 OUT :ENC\n5 OUT :DATE 20240131 09:30\n"},
        {H ":ECS\r", H ":ECS\r\n", "4 OUT :ECS\r\n5 ECS\n"},
        {H ":ECS \r", H ":ECS\r\n", "4 OUT :ECS \r\n5 ECS\n"},
        {H ":ECS\r\r\n", H ":ECS\r\n", "4 OUT :ECS\r\n5 ECS\n"},
        {H ":ecs", H ":ECS", "4 CASE\n"},
        {H ":ecs  ", H ":ECS", "4 BLANK\n4 CASE\n"},
        {H ":ECS ", H ":ECS", "4 BLANK\n"},
        {H " :ECS\n:ECS", H ":ECS", "4 OUT  :ECS\n"},
        {H ":ECS\t\n:ECS", H ":ECS", "4 OUT :ECS\t\n"},
        {H ":ECS\r\n:ecs\n" P " \n x \r", H ":ECS\r\n:ecs\n" P " \n x \r", ""},
        {H ":Ecs\n:ecs \n\r\r\n" P, H ":ECS\r\n:ecs \n\r\r\n" P, "4 EOL\n4 CASE\n"},
        {H ":ECS\n ", H ":ECS\r\n ", "4 EOL\n"},
        {H "a\nb\nc\nd\ne\n" P "\nf", H P "\r\n:ECS\r\n", "4 OUT a\n5 OUT b\n6 OUT c\n7 OUT d\n8 OUT e\n9 EOL\n10 OUT f\n11 ECS\n"},
        {"", NULL, NULL},
        {"\n\n\n", NULL, NULL},
        {"\r\n" H ":ECS", NULL, NULL},
        {" " H ":ECS", NULL, NULL},
        {"\xEF\xBB\xBF" H ":ECS", NULL, NULL},
        {":DATE 20240131 09:30\r\n:VERSION 2\r\n:ENC", NULL, NULL},
        {":DATE 20240131 09:30\r\n:VERSION 2\r\n:ENC\r", NULL, NULL},
        {":DATE 20240131 09:30\r\n:VERSION 2\r\n", NULL, NULL},
        {":DATE 20240131 09:30\r:VERSION 2\r:ENC\r:ECS\r", NULL, NULL},
        {":DATE 20240131 09:30\r\r\n:VERSION 2\r\n:ENC\r\n:ECS", NULL, NULL},
        {":DATE 20240131 09:30\t\r\n:VERSION 2\r\n:ENC\r\n:ECS", NULL, NULL},
        {":DATE  20240131 09:30\r\n:VERSION 2\r\n:ENC\r\n:ECS", NULL, NULL},
        {":DATE 20240131 09:30\r\n :VERSION 2\r\n:ENC\r\n:ECS", NULL, NULL},
        {":DATE 20240131 09:30\r\n\r\n:VERSION 2\r\n:ENC\r\n:ECS", NULL, NULL},
        {":DATE 20240131 09:30\r\n:VERSION 2\r\n:ECS\r\n:ECS", NULL, NULL},
        {":DATE 20240131 09:30\r\n:VERSION 3\r\n:ENC\r\n:ECS", NULL, NULL},
        {":DATE 20240230 09:30\r\n:VERSION 2\r\n:ENC\r\n:ECS", NULL, NULL},
        {":DATE 20240131 24:00\r\n:VERSION 2\r\n:ENC\r\n:ECS", NULL, NULL},
        {":VERSION 2\r\n:DATE 20240131 09:30\r\n:ENC\r\n:ECS", NULL, NULL},
    };
    for (size_t i = 0; i < COUNT(rows); i++) {
        ABOUT("written down by hand, %zu", i);
        uint32_t number = compare_file((const uint8_t *)rows[i].file, strlen(rows[i].file));
        expect(number, rows[i].out ? 0 : 12);
        if (!rows[i].out)
            continue;
        same(made.length == strlen(rows[i].out) && is_text(&made, 0, rows[i].out, made.length), 1, "%s: the clean file", about);
        same(told.length == strlen(rows[i].list) && is_text(&told, 0, rows[i].list, told.length), 1, "%s: the list", about);
    }
    ABOUT("nothing, lent as NULL");
    expect(lambukir_mend(NULL, 0, NULL, 0, NULL, 0).number, 12);
    expect(lambukir_mend((const uint8_t *)H ":ECS", HEADER_LENGTH + 4, NULL, 0, NULL, 0).number, 108);
    expect(lambukir_mend((const uint8_t *)H ":ECS", HEADER_LENGTH + 4, made.bytes, HEADER_LENGTH + 4, NULL, 0).number, 0);
    expect(lambukir_mend((const uint8_t *)H ":ecs", HEADER_LENGTH + 4, made.bytes, HEADER_LENGTH + 4, NULL, 0).number, 108);
#undef H
}

/* Good files with the four faults, each of them alone and all together, and with lines that are left out. */
static void faults(void)
{
    static const unsigned kinds[] = {0, EOL, BLANK, LETTERS, EOL | BLANK, BLANK | LETTERS, EOL | BLANK | LETTERS};
    for (size_t i = 0; i < COUNT(kinds) * 900; i++) {
        some_mail(NOBODY, random_below(i % 50 == 0 ? 120 : 8), kinds[i % COUNT(kinds)], i / COUNT(kinds) % 3 * 3);
        ABOUT("mailed file %zu", i);
        compare_mailed();
    }
}

/* Damages `file` in one place: a byte changed, put in or left out, a piece repeated or left out. */
static void damage(void)
{
    static const uint8_t likely[] = {'\n', '\r', ' ', '\t', ':', ',', '0', '9', 'A', 'a', 'Z', 'z', 0, 0x1F, 0x7E, 0x7F, 0x80, 0xA0, 0xFF};
    size_t at = random_below(file.length + 1), count = random_below(file.length - at + 1);
    uint8_t byte = random_below(4) == 0 ? (uint8_t)random64() : PICK(likely);
    switch (random_below(8)) {
    case 0:
        memmove(file.bytes + at, file.bytes + at + count, file.length - at - count);
        file.length -= count;
        break;
    case 1:
        count = count < 200 ? count : 200;
        memmove(file.bytes + at + count, file.bytes + at, file.length - at);
        file.length += count;
        break;
    case 2: case 3:
        memmove(file.bytes + at + 1, file.bytes + at, file.length - at);
        file.length++;
        file.bytes[at] = byte;
        break;
    case 4:
        if (at < file.length)
            memmove(file.bytes + at, file.bytes + at + 1, --file.length - at);
        break;
    default:
        if (at < file.length)
            file.bytes[at] = byte;
    }
}

static void set_file(const void *bytes, size_t length)
{
    file.length = 0;
    add(&file, bytes, length);
}

/* Files damaged in other ways, mostly after the header; and what look-throughs are made of, which is all CR LF. */
static void damaged(void)
{
    static pieces other;
    succeeded = refused = 0;
    for (int i = 0; i < 12000; i++) {
        if (i % 16 == 0) {
            some_file(&other, some_hw_id(), 20240131, random_below(8));
            set_file(other.bytes, other.length);
        } else {
            some_mail(NOBODY, random_below(6), EOL | BLANK | LETTERS, 2);
            set_file(mailed.bytes, mailed.length);
        }
        uint8_t header[100];
        size_t length = file.length < sizeof header ? file.length : sizeof header;
        memcpy(header, file.bytes, length);
        for (uint64_t times = 1 + random_below(4); times > 0; times--)
            damage();
        if (i % 8 != 1 && file.length >= length)
            memcpy(file.bytes, header, length);
        ABOUT("damaged file %d", i);
        compare_file(file.bytes, file.length);
    }
    expect_both(1000);
}

/* Each first part of a file. */
static void cut(void)
{
    succeeded = refused = 0;
    for (int i = 0; i < 12; i++) {
        some_mail(NOBODY, 8, i % 2 ? EOL | BLANK | LETTERS : 0, i % 3);
        for (size_t length = 0; length <= mailed.length; length++) {
            ABOUT("the first %zu bytes of file %d", length, i);
            compare_file(mailed.bytes, length);
        }
    }
    expect_both(400);
}

/* Each of six lines with each line end, or none. */
static void line_ends(void)
{
    static const char *const lines[] = {":DATE 20240131 09:30", ":VERSION 2", ":ENC", P, ":ECS", Q};
    static const char *const ends[] = {"\r\n", "\n", "\r\r\n", "\r", "", "\n\r"};
    succeeded = refused = 0;
    for (int mixture = 0; mixture < 6 * 6 * 6 * 6 * 6 * 6; mixture++) {
        file.length = 0;
        for (int i = 0, rest = mixture; i < 6; i++, rest /= 6) {
            add_words(&file, lines[i]);
            add_words(&file, ends[rest % 6]);
        }
        ABOUT("mixture %d of line ends", mixture);
        compare_file(file.bytes, file.length);
    }
    expect_both(1000);
    static const char *const bytes[] = {"\n", "\r", " ", "x"};
    for (int mixture = 0; mixture < 1 << 12; mixture++) {
        set_file(HEADER_TEXT P, HEADER_LENGTH + sizeof P - 1);
        for (int i = 0, rest = mixture; i < 6; i++, rest /= 4)
            add_words(&file, bytes[rest % 4]);
        ABOUT("mixture %d of LF, CR, blank and x", mixture);
        expect(compare_file(file.bytes, file.length), 0);
    }
}

/* Lines of each kind, some of them with faults, and something after :ECS. */
static void set_mixed_file(void)
{
    file.length = 0;
    add_words(&file, ":Date 20240131 09:30\r\n:VERSION 2 \n:ENC\r\n" P "to\r\n" Q " \n:ecs \r\n: ");
}

/* Each byte of a file as each other byte. */
static void bytes(void)
{
    set_mixed_file();
    succeeded = refused = 0;
    for (size_t at = 0; at < file.length; at++)
        for (int add = 1; add < 256; add++) {
            file.bytes[at] = (uint8_t)(file.bytes[at] + add);
            ABOUT("byte %zu as %02X", at, file.bytes[at]);
            compare_file(file.bytes, file.length);
            file.bytes[at] = (uint8_t)(file.bytes[at] - add);
        }
    expect_both(1000);
}

/* Each byte put in at each place, and each byte left out. */
static void bytes_put_in(void)
{
    set_mixed_file();
    succeeded = refused = 0;
    for (size_t at = 0; at <= file.length; at++) {
        memmove(file.bytes + at + 1, file.bytes + at, file.length++ - at);
        for (int byte = 0; byte < 256; byte++) {
            file.bytes[at] = (uint8_t)byte;
            ABOUT("%02X put in at %zu", byte, at);
            compare_file(file.bytes, file.length);
        }
        memmove(file.bytes + at, file.bytes + at + 1, --file.length - at);
    }
    expect_both(1000);
    for (size_t at = 0; at < file.length; at++) {
        uint8_t was = file.bytes[at];
        memmove(file.bytes + at, file.bytes + at + 1, --file.length - at);
        ABOUT("byte %zu left out", at);
        compare_file(file.bytes, file.length);
        memmove(file.bytes + at + 1, file.bytes + at, file.length++ - at);
        file.bytes[at] = was;
    }
}

/* Blanks and tabs, some of them, at each place of each kind of line. Those at its end alone go. */
static void blanks(void)
{
    static const char *const lines[] = {":DATE 20240131 09:30", ":VERSION 2", ":ENC", P, Q "and  so on", ":ECS", "", "Dear captain,"};
    static const char *const put_there[] = {" ", "  ", "       ", "        ", "                 ", "\t", " \t", "\t ", "\xA0", " \x0B", "\f"};
    for (size_t which = 0; which < COUNT(lines); which++)
        for (size_t i = 0; i < COUNT(put_there) * 2; i++)
            for (size_t at = 0; at <= strlen(lines[which]); at++) {
                const char *put_in = put_there[i / 2];
                file.length = 0;
                for (size_t line = 0; line < COUNT(lines); line++) {
                    if (which < HEADER_LINES && line >= COUNT(lines) - 2)
                        continue;
                    size_t length = strlen(lines[line]), before = line == which ? at : length;
                    add(&file, lines[line], before);
                    if (line == which)
                        add_words(&file, put_in);
                    add(&file, lines[line] + before, length - before);
                    add_words(&file, i % 2 ? "\n" : "\r\n");
                }
                ABOUT("line %zu with blanks %zu at %zu", which, i, at);
                uint32_t number = compare_file(file.bytes, file.length);
                if (at == strlen(lines[which]) && put_in[strspn(put_in, " ")] == 0)
                    expect(number, 0);
                else if (which < HEADER_LINES)
                    expect(number, 12);
            }
}

/* Each set of the header's letters made small, and each letter of lines after it. */
static void letters(void)
{
    static const char *const lines[] = {":DATE 20240131 09:30", ":VERSION 2", ":ENC"};
    for (int which = 0; which < HEADER_LINES; which++)
        for (unsigned mask = 0; mask < 1u << (strlen(lines[which]) - 1); mask += which == 0 && mask >= 16 ? 4099 : 1) {
            set_file(HEADER_TEXT ":ECS", HEADER_LENGTH + 4);
            uint8_t *line = file.bytes + (which == 0 ? 0 : which == 1 ? 22 : 34);
            unsigned small = 0;
            for (size_t i = 0; i + 1 < strlen(lines[which]); i++)
                if (mask >> i & 1 && isupper(line[i + 1])) {
                    line[i + 1] = (uint8_t)tolower(line[i + 1]);
                    small = 1;
                }
            ABOUT("header line %d, letters %X made small", which + 1, mask);
            expect(compare_file(file.bytes, file.length), 0);
            same(told.length, small ? 7 : 0, "%s: length of the list", about);
        }
    for (size_t at = 0; at < sizeof P - 1; at++) {
        set_file(HEADER_TEXT P "\r\n:ECS", HEADER_LENGTH + sizeof P - 1 + 6);
        file.bytes[HEADER_LENGTH + at] = (uint8_t)tolower(file.bytes[HEADER_LENGTH + at]);
        ABOUT("a permit line with byte %zu made small", at);
        expect(compare_file(file.bytes, file.length), 0);
        int taken = !isupper(P[at]) || (at >= CIPHER_PARTS && at < CELL_PERMIT);
        same(told.length, taken ? 0 : sizeof "4 OUT " P, "%s: length of the list", about);
        same((uint64_t)memcmp(made.bytes, file.bytes, taken ? file.length : HEADER_LENGTH), 0, "%s: the clean file", about);
    }
}

/* :ECS in each case, with blanks, with each line end, after lines of each kind and before more. */
static void ecs(void)
{
    static const char *const befores[] = {"", P "\r\n", P "\n", "junk\n", "\r\n", ":ECS\r\r\n", ":EC S\n"};
    static const char *const ends[] = {"\r\n", "\n", "", "\r", "\r\r\n", "\n\r", "\r\n\n"};
    static const char *const rests[] = {"", ":ECS\r\n", ":ecs \n", " ", "\r", P "\n", "\n\n", "\xFF\x80"};
    for (unsigned mask = 0; mask < 16; mask++)
        for (size_t blanks = 0; blanks < 3; blanks++)
            for (size_t i = 0; i < COUNT(befores) * COUNT(ends) * COUNT(rests); i++) {
                char word[] = ":ECS";
                for (int at = 0; at < 4; at++)
                    word[at] = (char)(mask >> at & 1 ? tolower(word[at]) : word[at]);
                set_file(HEADER_TEXT, HEADER_LENGTH);
                add_words(&file, befores[i % COUNT(befores)]);
                add_words(&file, word);
                add_words(&file, "  " + (2 - blanks));
                add_words(&file, ends[i / COUNT(befores) % COUNT(ends)]);
                add_words(&file, rests[i / COUNT(befores) / COUNT(ends)]);
                ABOUT("%s with %zu blanks, kind %zu", word, blanks, i);
                expect(compare_file(file.bytes, file.length), 0);
            }
}

/* Lines of which each field is at its limits and beside them, and whose expiry is a date or none. */
static void shapes(void)
{
    static const char *const levels[] = {"0", "1", "2", "/", "", "00", "01", " 0", "0 ", "A"};
    static const char *const editions[] = {"",    "1",   "9",    "10",   "99", "100", "999", "0",  "00", "01", "010", "099",
                                           "1000", "9999", "-1", "+1", " ",  "1 ",  " 1",  "1A", "A",  ":",  "/",   ",1"};
    static const char *const servers[] = {"GB", "00", "ZZ", "A9", "G", "", "GBR", "gB", "Gb", "G ", " G", "@A", "[A", "/0", ":0", "`a", "{a"};
    static const char *const comments[] = {"", ",", ",x", ",a,b,", ", ", ",~ ", ",\x7F", ",\x1F", ",\xE9", " ,"};
    for (size_t i = 0; i < COUNT(levels) * COUNT(editions) * COUNT(servers) * COUNT(comments); i++) {
        size_t rest = i;
        set_file(HEADER_TEXT P, HEADER_LENGTH + CELL_PERMIT);
        add_words(&file, ",");
        add_words(&file, levels[rest % COUNT(levels)]);
        add_words(&file, ",");
        add_words(&file, editions[(rest /= COUNT(levels)) % COUNT(editions)]);
        add_words(&file, ",");
        add_words(&file, servers[(rest /= COUNT(editions)) % COUNT(servers)]);
        add_words(&file, comments[rest / COUNT(servers)]);
        add_words(&file, i % 7 ? "\r\n" : "\n");
        ABOUT("fields of kind %zu", i);
        expect(compare_file(file.bytes, file.length), 0);
    }
    for (size_t i = 0; i < COUNT(limit_dates) + COUNT(no_dates); i++) {
        char date[12];
        snprintf(date, sizeof date, "%08" PRIu32, i < COUNT(limit_dates) ? limit_dates[i] : no_dates[i - COUNT(limit_dates)]);
        set_file(HEADER_TEXT P "\r\n", HEADER_LENGTH + sizeof P + 1);
        memcpy(file.bytes + HEADER_LENGTH + 8, date, 8);
        ABOUT("expiry %s", date);
        expect(compare_file(file.bytes, file.length), 0);
        same(made.length, i < COUNT(limit_dates) ? file.length + 6 : HEADER_LENGTH + 6, "%s: length", about);
    }
}

/* Lines about the greatest length, with blanks at their end or without. The bytes are counted without these. */
static void lengths(void)
{
    uint8_t line[LONGEST_LINE + 500];
    static const size_t blanks[] = {0, 1, 2, 3, 7, 8, 9, 90, 160, 400};
    for (size_t length = 60; length <= LONGEST_LINE + 12; length++)
        for (size_t i = 0; i < COUNT(blanks) * 4; i++) {
            size_t more = blanks[i / 4];
            memset(line, i & 2 ? '~' : ' ', sizeof line);
            memcpy(line, P, length < sizeof P - 1 ? length : sizeof P - 1);
            if (length >= sizeof P)
                line[length - 1] = '.';
            memset(line + length, ' ', more);
            begin_mail();
            mail_header(0, 0);
            if (length >= sizeof P - 1 && length <= LONGEST_LINE) {
                mailed_lines++;
                add(&mailed, line, length + more);
                add_words(&mailed, i & 1 ? "\n" : "\r\n");
                add(&clean, line, length);
                add_words(&clean, "\r\n");
                if (i & 1)
                    list_fault("EOL");
                if (more > 0)
                    list_fault("BLANK");
            } else
                mail_out(line, length + more, i & 1 ? "\n" : "\r\n");
            mail_line(":ECS", 4, 0, 0);
            ABOUT("a line of %zu bytes and %zu blanks, kind %zu", length, more, i % 4);
            compare_mailed();
        }
}

/* Each time of four digits, dates about the limits, and headers with one line more or less, each as it should be and as it is mailed. */
static void headers(void)
{
    static const char *const ends[] = {"\r\n", "\n", "  \r\n", " \n"};
    static const char *const lines[] = {":DATE 20240131 09:30", ":VERSION 2", ":ENC", "", ":ECS"};
    char header[100];
    for (int time = 0; time < 10000; time++) {
        const char *end = ends[time % 4];
        int length = snprintf(header, sizeof header, ":%s 20240131 %02d:%02d%s:VERSION 2%s:ENC%s", time % 3 ? "DATE" : "date", time / 100, time % 100, end, end, end);
        ABOUT("time %04d", time);
        expect(compare_file((const uint8_t *)header, (size_t)length), time / 100 < 24 && time % 100 < 60 ? 0 : 12);
    }
    for (size_t i = 0; i < (COUNT(limit_dates) + COUNT(no_dates)) * 4; i++) {
        const char *end = ends[i % 4];
        uint32_t date = i / 4 < COUNT(limit_dates) ? limit_dates[i / 4] : no_dates[i / 4 - COUNT(limit_dates)];
        int length = snprintf(header, sizeof header, ":DATE %08" PRIu32 " 00:00%s:version 2%s:ENC%s", date, end, end, end);
        ABOUT("date %08" PRIu32, date);
        expect(compare_file((const uint8_t *)header, (size_t)length), i / 4 < COUNT(limit_dates) ? 0 : 12);
    }
    for (int mixture = 0; mixture < 5 * 5 * 5 * 5 * 4; mixture++) {
        int in_order = 1;
        file.length = 0;
        for (int i = 0, rest = mixture / 4; i < 4; i++, rest /= 5) {
            add_words(&file, lines[rest % 5]);
            add_words(&file, ends[mixture % 4]);
            in_order &= i == HEADER_LINES || rest % 5 == i;
        }
        ABOUT("mixture %d of lines", mixture);
        expect(compare_file(file.bytes, file.length), in_order ? 0 : 12);
    }
}

/* So many lines that counts have one to seven digits, with each kind of entry about each power of ten; and as many bytes after :ECS. */
static void counts(void)
{
    static const size_t most[] = {12, 105, 1005, 10005, 100005, 1000005};
    uint8_t line[LONGEST_LINE + 60];
    for (size_t i = 0; i < COUNT(most) * 2 - 1; i++) {
        begin_mail();
        mail_header(EOL | BLANK | LETTERS, 1);
        while (mailed_lines < most[i / 2] - i % 2 * 4) {
            size_t near = 1;
            while (near * 10 <= mailed_lines + 10)
                near *= 10;
            if (mailed_lines > near + 10)
                mail_out("", 0, "\n");
            else if (mailed_lines % 2)
                mail_line(line, some_line(line, NOBODY), EOL | BLANK, 1);
            else
                mail_junk(NOBODY, "\n");
        }
        if (i % 2) {
            mail_line(":ECS", 4, EOL | BLANK | LETTERS, 1);
            add(&mailed, any, most[i / 2]);
            add(&clean, any, most[i / 2]);
        } else
            mail_no_ecs();
        ABOUT("%zu lines", mailed_lines);
        compare_mailed();
    }
}

/* Short files into outputs of each length up to what is needed and beyond it; longer ones about that. What the header says of the clean file's length is met:
   by lines that are as short as they can be, with lone LFs and no :ECS. */
static void outputs(void)
{
    set_file(":DATE 20240131 09:30\n:VERSION 2\n:ENC\n", HEADER_LENGTH - 3);
    for (size_t lines = 0; lines < 400; lines++) {
        ABOUT("%zu of the shortest lines", lines);
        expect(compare_file(file.bytes, file.length), 0);
        same(made.length, file.length + file.length / 72 + 9, "%s: the greatest length", about);
        add_words(&file, Q "\n");
    }
    static const char *const rests[] = {":ECS", ":ECS\r\n", "", ":ecs\n", "\n:ecs \nxyz", "x", P "\n", P " \n:ECS\n "};
    for (size_t i = 0; i < COUNT(rests) * 2; i++) {
        set_file(i % 2 ? ":date 20240131 09:30\n:VERSION 2\r\n:ENC\r\n" : HEADER_TEXT, HEADER_LENGTH - i % 2);
        add_words(&file, rests[i / 2]);
        lambukir_mended need = needed(file.bytes, file.length);
        for (size_t out = 0; out <= need.length + 3; out++)
            for (size_t list = 0; list <= need.list_length + 3; list++) {
                ABOUT("file %zu into %zu and %zu bytes", i, out, list);
                expect(compare_mend(file.bytes, file.length, out, list).number, out < need.length || list < need.list_length ? 108 : 0);
            }
    }
    for (int i = 0; i < 300; i++) {
        some_mail(NOBODY, random_below(60), EOL | BLANK | LETTERS, (uint64_t)i % 4);
        for (size_t out = clean.length - 2; out <= clean.length + 2; out++)
            for (size_t list = listed.length > 2 ? listed.length - 2 : 0; list <= listed.length + 2; list++) {
                ABOUT("mailed file %d into %zu and %zu bytes", i, out, list);
                expect(compare_mend(mailed.bytes, mailed.length, out, list).number, out < clean.length || list < listed.length ? 108 : 0);
            }
    }
}

/* 12 comes before 108: where the header is bad, no output is long enough for another answer, and none too short. */
static void refusals(void)
{
    for (int i = 0; i < 3000; i++) {
        some_mail(NOBODY, random_below(5), EOL | BLANK | LETTERS, 2);
        set_file(mailed.bytes, mailed.length);
        int bad = i % 4 != 0;
        if (bad)
            file.bytes[random_below(20)] ^= (uint8_t)(0x80 >> random_below(2));
        size_t out = random_below(3) ? random_below(clean.length) : clean.length + random_below(9);
        size_t list = random_below(3) && listed.length > 0 ? random_below(listed.length) : listed.length + random_below(9);
        ABOUT("file %d with a %s header, into %zu and %zu bytes", i, bad ? "bad" : "good", out, list);
        expect(compare_mend(file.bytes, file.length, out, list).number, bad ? 12 : out < clean.length || list < listed.length ? 108 : 0);
    }
}

/* The clean file, read line by line, gives no 12 and line by line what the kept lines give by themselves. */
static void reading(void)
{
    uint64_t lines = 0, records = 0;
    for (int i = 0; i < 350; i++) {
        uint64_t hw_id = some_hw_id(), reader = random_below(5) ? typed_hw_id(hw_id) : some_hw_id();
        uint32_t today = some_date(), days = some_days();
        some_mail(hw_id, random_below(12), EOL | BLANK | LETTERS, (uint64_t)i % 4);
        set_file(mailed.bytes, mailed.length);
        uint8_t header[HEADER_LENGTH - 3];
        memcpy(header, file.bytes, sizeof header);
        for (uint64_t times = random_below(5); times > 0; times--)
            damage();
        memcpy(file.bytes, header, file.length < sizeof header ? file.length : sizeof header);
        ABOUT("mailed file %d", i);
        if (compare_file(file.bytes, file.length) != 0)
            continue;
        lambukir_place opened = lambukir_open_file(made.bytes, made.length);
        expect(opened.number, kept_count == 0 ? 11 : 0);
        size_t place = HEADER_LENGTH, count = 0;
        for (;; count++) {
            lambukir_file_line line = lambukir_read_file_line(reader, today, days, made.bytes, made.length, place);
            if (line.next == place || count == kept_count) {
                same(line.at_end, 1, "%s: the end after %zu lines", about, count);
                break;
            }
            lambukir_line alone = lambukir_read_line(reader, today, days, made.bytes + kept_lines[count].place, kept_lines[count].length);
            same_line(&(lambukir_line){line.name, line.key_one, line.key_two, line.expiry, line.level, line.edition, line.server, line.number}, &alone);
            same(line.number != 12, 1, "%s: a line that gives 12", about);
            records += !is_refusal(line.number);
            place = line.next;
        }
        same(count, kept_count, "%s: lines read, and kept", about);
        lines += count;
    }
    same(lines > 300 && records > 300, 1, "%" PRIu64 " lines, %" PRIu64 " records", lines, records);
}

/* More than 32 bits can count: a file whose rest is not looked at, and outputs. */
static void huge(void)
{
    const size_t size = ((size_t)1 << 32) + 1000;
    static const char start[] = HEADER_TEXT ":ecs\n";
    uint8_t *map = mmap(NULL, size, PROT_READ | PROT_WRITE, MAP_PRIVATE | MAP_ANONYMOUS | MAP_NORESERVE, -1, 0);
    uint8_t *out = mmap(NULL, 2 * size, PROT_READ | PROT_WRITE, MAP_PRIVATE | MAP_ANONYMOUS | MAP_NORESERVE, -1, 0);
    same(map != MAP_FAILED && out != MAP_FAILED, 1, "a map of %zu bytes", size);
    if (map == MAP_FAILED || out == MAP_FAILED)
        return;
    memcpy(map, start, sizeof start - 1);
    const size_t lengths[] = {0, 999, 1000, 1001, 1002, 65536, size - 1, size};
    for (size_t i = 0; i < COUNT(lengths); i++) {
        lambukir_mended mended = lambukir_mend(map, size, out, lengths[i], out + size + 8, 100);
        ABOUT("a file of %zu bytes into %zu", size, lengths[i]);
        expect(mended.number, 108);
        same(mended.length | mended.list_length, 0, "%s: lengths of a refusal", about);
    }
    ABOUT("a short list for a file of %zu bytes", size);
    expect(lambukir_mend(map, size, out, size + 1, out + size + 8, 12).number, 108);
    same(out[0] | out[HEADER_LENGTH] | out[size + 8], 0, "what a refusal writes");
    for (size_t more = 0; more < 3; more++) {
        ABOUT("outputs of 2^32 and %zu bytes", more);
        lambukir_mended mended = lambukir_mend(map, sizeof start - 1, out, ((size_t)1 << 32) + more, out + size, ((size_t)1 << 32) + more);
        expect(mended.number, 0);
        same(mended.length, HEADER_LENGTH + 6, "%s: length", about);
        same(mended.list_length, 13, "%s: length of the list", about);
        same((uint64_t)memcmp(out, HEADER_TEXT ":ECS\r\n", HEADER_LENGTH + 7), 0, "%s: the clean file, and zeros after it", about);
        same((uint64_t)memcmp(out + size, "4 EOL\n4 CASE\n", 14), 0, "%s: the list, and zeros after it", about);
        memset(out, 0, 100);
        memset(out + size, 0, 100);
    }
    munmap(map, size);
    munmap(out, 2 * size);
}

int main(int argc, char **argv)
{
    static const subject subjects[] = {
        {"mending-worked", worked},
        {"mending-faults", faults},
        {"mending-damaged", damaged},
        {"mending-cut", cut},
        {"mending-line-ends", line_ends},
        {"mending-bytes", bytes},
        {"mending-bytes-put-in", bytes_put_in},
        {"mending-blanks", blanks},
        {"mending-letters", letters},
        {"mending-ecs", ecs},
        {"mending-shapes", shapes},
        {"mending-lengths", lengths},
        {"mending-headers", headers},
        {"mending-counts", counts},
        {"mending-outputs", outputs},
        {"mending-refusals", refusals},
        {"mending-reading", reading},
        {"mending-huge", huge},
    };
    seed_random();
    make_any();
    return run_subjects(subjects, COUNT(subjects), argc, argv);
}
