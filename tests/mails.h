/* Mailed permit files: put together of lines with their faults, beside the clean file and the list that must come of them. */
#ifndef MAILS_H
#define MAILS_H

#include "pieces.h"

#define LIST_ROOM ((size_t)16 << 20)
#define MOST_BLANKS 20
#define NOBODY 0 /* in the place of a HW_ID: mending looks at no check part */

/* What a line that is kept may have been mailed with; the rules' CASE is a word of C. */
enum { EOL = 1, BLANK = 2, LETTERS = 4 };

typedef struct {
    uint8_t bytes[LIST_ROOM];
    size_t length;
} text;

static text mailed, clean, listed;
static size_t mailed_lines;

static inline void add(text *t, const void *bytes, size_t length)
{
    memcpy(t->bytes + t->length, bytes, length);
    t->length += length;
}

static inline void add_words(text *t, const char *words)
{
    add(t, words, strlen(words));
}

/* A line of the list, for the last line of the file. */
static inline void list_fault(const char *word)
{
    char entry[40];
    snprintf(entry, sizeof entry, "%zu %s\n", mailed_lines, word);
    add_words(&listed, entry);
}

static inline void begin_mail(void)
{
    mailed.length = clean.length = listed.length = mailed_lines = 0;
}

/* Turns some of the letters to small ones, of which there is one at least. */
static inline void put_small_letters(uint8_t *line, size_t length)
{
    size_t letters = 0;
    for (size_t i = 0; i < length; i++)
        letters += line[i] >= 'A' && line[i] <= 'Z';
    size_t first = random_below(letters);
    for (size_t i = 0; i < length; i++)
        if (line[i] >= 'A' && line[i] <= 'Z' && (first-- == 0 || random_below(3) == 0))
            line[i] = (uint8_t)(line[i] + 32);
}

/* A line that is kept, with these faults. Where it is not ended, EOL is none of them. */
static inline void mail_line(const void *line, size_t length, unsigned faults, int ended)
{
    uint8_t typed[LONGEST_LINE + 40];
    mailed_lines++;
    memcpy(typed, line, length);
    if (faults & LETTERS)
        put_small_letters(typed, length);
    add(&mailed, typed, length);
    add(&clean, line, length);
    if (faults & BLANK)
        for (uint64_t blanks = 1 + random_below(MOST_BLANKS); blanks > 0; blanks--)
            add_words(&mailed, " ");
    if (ended) {
        add_words(&mailed, faults & EOL ? "\n" : "\r\n");
        add_words(&clean, "\r\n");
    }
    if (ended && faults & EOL)
        list_fault("EOL");
    if (faults & BLANK)
        list_fault("BLANK");
    if (faults & LETTERS)
        list_fault("CASE");
}

/* A line that is left out, with its line end, if any. */
static inline void mail_out(const void *line, size_t length, const char *end)
{
    char entry[40];
    mailed_lines++;
    add(&mailed, line, length);
    add_words(&mailed, end);
    snprintf(entry, sizeof entry, "%zu OUT ", mailed_lines);
    add_words(&listed, entry);
    add(&listed, line, length);
    add_words(&listed, "\n");
}

/* That the file has no :ECS. */
static inline void mail_no_ecs(void)
{
    add_words(&clean, ":ECS\r\n");
    mailed_lines++;
    list_fault("ECS");
}

/* One, or another, or none of them. */
static inline unsigned some_faults(unsigned of)
{
    return random_below(3) == 0 ? 0 : (unsigned)random64() & of;
}

/* The three lines of a header; of any date and time, or of HEADER_TEXT's. */
static inline void mail_header(unsigned of, int any_date)
{
    char first[40] = ":DATE 20240131 09:30";
    if (any_date)
        snprintf(first, sizeof first, ":DATE %08" PRIu32 " %02d:%02d", some_date(), (int)random_below(24), (int)random_below(60));
    mail_line(first, 20, some_faults(of), 1);
    mail_line(":VERSION 2", 10, some_faults(of), 1);
    mail_line(":ENC", 4, some_faults(of), 1);
}

/* A line of the shape, whose cipher parts are hex of no ship. */
static inline size_t line_of_nobody(const record *r, uint8_t *line)
{
    char start[17];
    for (int i = 0; i < 8; i++)
        start[i] = (char)(r->name >> 8 * (7 - i));
    snprintf(start + 8, sizeof start - 8, "%08" PRIu32, r->expiry);
    memcpy(line, start, CIPHER_PARTS);
    for (size_t at = CIPHER_PARTS; at < CELL_PERMIT; at++)
        line[at] = (uint8_t)HEX[random_below(16)];
    return put_fields(r, line);
}

/* A good line that does not end with a blank, its cipher parts typed in either case; for a ship, or for NOBODY. The answer is its length. */
static inline size_t some_line(uint8_t *line, uint64_t hw_id)
{
    record r = some_record(some_date());
    size_t length = hw_id == NOBODY ? line_of_nobody(&r, line) : line_of(&r, hw_id, line);
    type_hex(line + CIPHER_PARTS, CELL_PERMIT - CIPHER_PARTS);
    while (line[length - 1] == ' ')
        length--;
    return length;
}

/* A line that gives 12 whatever is mended of it, without CR and LF. The answer is its length, LONGEST_LINE + 40 at most. */
static inline size_t some_junk(uint8_t *line, uint64_t hw_id)
{
    static const char *const words[] = {"", "Dear captain,", "> :ECS", "-- ", "\t", "\t:ECS", ":ENC", ":ECS.", ":ECSS", "ECS", ": ECS", "ECS:",
                                        " :ECS", "::ECS", ":ECS\t", ":EC", ":ecs\x80", ":DATE 20240131 09:30", ":VERSION 2", "=20", ",,,,",
                                        "\xEF\xBB\xBF:ECS", ":\xC5\xC3\xD3", "\x1A"};
    size_t length = some_line(line, hw_id), at;
    char digits[12];
    switch (random_below(9)) {
    case 0: case 1: {
        const char *word = PICK(words);
        memcpy(line, word, strlen(word));
        return strlen(word);
    }
    case 2: /* a blank more, before or in it */
        at = random_below(CELL_PERMIT + 6);
        memmove(line + at + 1, line + at, length - at);
        line[at] = ' ';
        return length + 1;
    case 3: /* longer than a line may be */
        memset(line + length, 'x', LONGEST_LINE + 40 - length);
        return LONGEST_LINE + 1 + random_below(40);
    case 4: /* a small letter where none may be */
        line[random_below(8)] = (uint8_t)('a' + random_below(26));
        return length;
    case 5:
        snprintf(digits, sizeof digits, "%08" PRIu32, no_date(0));
        memcpy(line + 8, digits, 8);
        return length;
    case 6: /* cut */
        return random_below(71);
    case 7: /* a byte that no field takes */
        line[random_below(length)] = (uint8_t)PICK("\x1F\x7F\x80\xFF\t\x0B");
        return length;
    default: /* bytes of any kind, too few for a line; the first is of no :ECS */
        length = 1 + random_below(70);
        random_bytes(line, length);
        for (size_t i = 0; i < length; i++)
            line[i] = line[i] == '\r' || line[i] == '\n' || (i == 0 && line[i] == ':') ? 'x' : line[i];
        return length;
    }
}

/* Junk and its line end; blanks may stand before that, and are its own. */
static inline void mail_junk(uint64_t hw_id, const char *end)
{
    uint8_t line[LONGEST_LINE + 60];
    size_t length = some_junk(line, hw_id), blanks = random_below(3) == 0 ? random_below(20) : 0;
    memset(line + length, ' ', blanks);
    mail_out(line, length + blanks, end);
}

/* What follows :ECS: bytes of any kind, and lines that would be mended before it. */
static inline void mail_rest(uint64_t hw_id)
{
    uint8_t line[LONGEST_LINE + 60];
    size_t from = mailed.length, length;
    for (uint64_t times = random_below(4); times > 0; times--)
        switch (random_below(3)) {
        case 0:
            length = random_below(100);
            random_bytes(line, length);
            add(&mailed, line, length);
            break;
        case 1:
            add(&mailed, line, some_line(line, hw_id));
            add_words(&mailed, PICK(((const char *const[]){"\n", " \n", "\r\r\n", " \r\n", "\r", ""})));
            break;
        default: add_words(&mailed, PICK(((const char *const[]){":ecs\n", ":ECS\r\n", ":ECS \n", "\n", "\r\n", "  ", ":ecs"})));
        }
    add(&clean, mailed.bytes + from, mailed.length - from);
}

static inline void mail_end(uint64_t hw_id)
{
    uint8_t line[LONGEST_LINE + 60];
    size_t length;
    switch (random_below(7)) {
    case 0: case 1:
        mail_line(":ECS", 4, some_faults(EOL | BLANK | LETTERS), 1);
        mail_rest(hw_id);
        return;
    case 2: mail_line(":ECS", 4, some_faults(BLANK | LETTERS), 0); return;
    case 3: break;
    case 4: /* of which nothing is to be seen where it is empty */
        length = some_junk(line, hw_id);
        if (length > 0)
            mail_out(line, length, "");
        break;
    case 5: mail_out(line, some_line(line, hw_id), ""); break;
    default: mail_out(":ECS\r", 5, "");
    }
    mail_no_ecs();
}

/* A file of so many lines after its header, with faults of these kinds, and as many lines that are left out as is said of ten. */
static inline void some_mail(uint64_t hw_id, size_t lines, unsigned of, uint64_t out_of_ten)
{
    uint8_t line[LONGEST_LINE + 60];
    begin_mail();
    mail_header(of, 1);
    for (; lines > 0; lines--)
        if (random_below(10) < out_of_ten)
            mail_junk(hw_id, random_below(2) ? "\n" : "\r\n");
        else
            mail_line(line, some_line(line, hw_id), some_faults(of & (EOL | BLANK)), 1);
    mail_end(hw_id);
}

#endif
