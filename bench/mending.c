/* Mending by hand: one pass reads the lines, each from its first byte on and most of it eight bytes at a time, and notes those that do not stay as they are.
   Then both lengths are known, and what stands between the noted lines is copied as it is. Where there are more of them than notes, the file is read once
   more, some lines at a time. */
#include <stdbool.h>
#include <string.h>

#include "mending.h"

#define HEADER_LINES 3
#define CELL_PERMIT 64
#define SHORTEST_LINE 71
#define LONGEST_LINE 160
#define NOTES 1024
#define EACH(byte) ((byte) * 0x0101010101010101u)

enum { EOL = 1, BLANK = 2, LETTERS = 4, LEFT_OUT = 8 };

/* A line that does not stay as it is. */
typedef struct {
    const uint8_t *line, *stop, *next; /* stop: without blanks, but of one that is left out only without the line end */
    size_t count;
    unsigned kind;
} note;

typedef struct {
    const uint8_t *at, *end; /* where to read on, and the file's end */
    size_t count;            /* of lines that were read */
    bool ecs;                /* :ECS was among them */
} walk;

static uint64_t load(const uint8_t *p)
{
    uint64_t v;
    memcpy(&v, p, sizeof v);
    return v;
}

/* The top bit of each byte that lies from one to another, where no byte of x has it. */
static uint64_t within(uint64_t x, uint8_t from, uint8_t to)
{
    return (x + EACH(0x80u - from)) ^ (x + EACH(0x7fu - to));
}

/* Each byte passed, and none has its top bit set. */
static bool are_all(uint64_t tested, uint64_t x)
{
    return (tested & ~x & EACH(0x80u)) == EACH(0x80u);
}

static bool is_date(uint64_t x)
{
    static const uint8_t lengths[] = {31, 29, 31, 30, 31, 30, 31, 31, 30, 31, 30, 31};
    if (!are_all(within(x, '0', '9'), x))
        return false;
    uint64_t pairs = (x & EACH(0x0fu)) * 10 + ((x & EACH(0x0fu)) >> 8);
    uint32_t hundreds = pairs & 0xff, years = pairs >> 16 & 0xff, month = pairs >> 32 & 0xff, day = pairs >> 48 & 0xff;
    if (hundreds - 19 > 10 || month - 1 > 11 || day - 1 > 30)
        return false;
    if (day <= 28)
        return true;
    return day <= lengths[month - 1] && (month != 2 || (years % 4 == 0 && (years != 0 || hundreds % 4 == 0)));
}

/* Hex in either case, likewise. */
static uint64_t hex_of(uint64_t x)
{
    return within(x, '0', '9') | within(x | EACH(0x20u), 'a', 'f');
}

/* The first 64 characters of a line. */
static bool is_permit(const uint8_t *p)
{
    const uint64_t name = load(p), a = load(p + 16), b = load(p + 24), c = load(p + 32), d = load(p + 40), e = load(p + 48), f = load(p + 56);
    const uint64_t hex = hex_of(a) & hex_of(b) & hex_of(c) & hex_of(d) & hex_of(e) & hex_of(f);
    return are_all(hex, a | b | c | d | e | f) && are_all(within(name, '0', '9') | within(name, 'A', 'Z'), name) && is_date(load(p + 8));
}

static bool is_digit(uint8_t c)
{
    return c - (uint32_t)'0' <= 9;
}

static bool is_name_character(uint8_t c)
{
    return is_digit(c) || c - (uint32_t)'A' <= 25;
}

/* The place of a comment, or null where level, edition or Data Server ID is wrong. */
static const uint8_t *after_fields(const uint8_t *p, const uint8_t *end)
{
    if (p[0] != ',' || (p[1] ^ (uint32_t)'0') > 1 || p[2] != ',')
        return NULL;
    p += 3;
    if (*p != ',') {
        if (!is_digit(*p) || *p == '0')
            return NULL;
        p++;
        p += is_digit(*p);
        p += is_digit(*p);
    }
    return end - p > 4 && p[0] == ',' && is_name_character(p[1]) && is_name_character(p[2]) && p[3] == ',' ? p + 4 : NULL;
}

static const uint8_t *after_comment(const uint8_t *p, const uint8_t *end)
{
    while (end - p >= 8 && are_all(within(load(p), 0x20, 0x7e), load(p)))
        p += 8;
    while (p < end && *p - 0x20u <= 0x7e - 0x20)
        p++;
    return p;
}

/* A permit line that is kept; false for any other. */
static inline bool take_record(const uint8_t *p, const uint8_t *end, note *n)
{
    if (end - p <= SHORTEST_LINE || !is_permit(p))
        return false;
    const uint8_t *q = after_fields(p + CELL_PERMIT, end);
    if (q == NULL)
        return false;
    if (*q >= 0x20)
        q = after_comment(q, end);
    n->kind = 0;
    if (q < end && *q == '\n') {
        n->kind = EOL;
        n->next = q + 1;
    } else if (end - q >= 2 && q[0] == '\r' && q[1] == '\n')
        n->next = q + 2;
    else
        return false;
    n->stop = q;
    if (q[-1] == ' ') {
        n->kind |= BLANK;
        while (n->stop[-1] == ' ')
            n->stop--;
    }
    return n->stop - p <= LONGEST_LINE;
}

static uint8_t raised(uint8_t c)
{
    return c - (uint32_t)'a' <= 25 ? c - 32 : c;
}

/* Any line: where it ends, and its EOL and BLANK. The answer is its end without blanks, n's that with them. */
static const uint8_t *take_line(const uint8_t *p, const uint8_t *end, note *n)
{
    const uint8_t *lf = memchr(p, '\n', (size_t)(end - p)), *tight;
    n->kind = 0;
    n->stop = lf ? lf : end;
    n->next = lf ? lf + 1 : end;
    if (lf && lf > p && lf[-1] == '\r')
        n->stop--;
    else if (lf)
        n->kind = EOL;
    for (tight = n->stop; tight > p && tight[-1] == ' ';)
        tight--;
    if (tight < n->stop)
        n->kind |= BLANK;
    return tight;
}

/* The line's letters, raised, are this text. */
static bool takes_text(const uint8_t *p, const uint8_t *tight, const char *words, size_t length, note *n)
{
    if ((size_t)(tight - p) != length)
        return false;
    for (size_t i = 0; i < length; i++) {
        if (raised(p[i]) != (uint8_t)words[i])
            return false;
        if (p[i] != (uint8_t)words[i])
            n->kind |= LETTERS;
    }
    n->stop = tight;
    return true;
}

static bool takes_date(const uint8_t *p, const uint8_t *tight, note *n)
{
    if (tight - p != 20 || !takes_text(p, p + 6, ":DATE ", 6, n) || !is_date(load(p + 6)) || p[14] != ' ' || p[17] != ':')
        return false;
    n->stop = tight;
    return is_digit(p[15]) && is_digit(p[16]) && is_digit(p[18]) && is_digit(p[19]) && (p[15] - '0') * 10 + p[16] - '0' <= 23 && p[18] <= '5';
}

/* Notes the header's lines that do not stay as they are. False where it is none. */
static bool note_header(walk *w, note *notes, size_t *noted)
{
    for (w->count = 1; w->count <= HEADER_LINES; w->count++) {
        const uint8_t *p = w->at;
        note n = {.line = p, .count = w->count};
        if (p == w->end)
            return false;
        const uint8_t *tight = take_line(p, w->end, &n);
        bool taken = w->count == 1 ? takes_date(p, tight, &n) : w->count == 2 ? takes_text(p, tight, ":VERSION 2", 10, &n) : takes_text(p, tight, ":ENC", 4, &n);
        if (!taken || n.next[-1] != '\n')
            return false;
        if (n.kind != 0)
            notes[(*noted)++] = n;
        w->at = n.next;
    }
    w->count = HEADER_LINES;
    return true;
}

/* Goes on until :ECS, the file's end, or until there is no room for a note. */
static void note_lines(walk *w, note *notes, size_t *noted)
{
    while (w->at < w->end && !w->ecs && *noted < NOTES) {
        note n = {.line = w->at, .count = ++w->count};
        if (!take_record(w->at, w->end, &n)) {
            const uint8_t *tight = take_line(w->at, w->end, &n);
            w->ecs = takes_text(w->at, tight, ":ECS", 4, &n);
            if (!w->ecs)
                n.kind = LEFT_OUT;
        }
        w->at = n.next;
        if (n.kind != 0)
            notes[(*noted)++] = n;
    }
}

static size_t digits_of(size_t count)
{
    size_t digits = 1;
    for (; count >= 10; count /= 10)
        digits++;
    return digits;
}

static void measure_notes(const note *notes, size_t noted, size_t *length, size_t *list_length)
{
    for (const note *n = notes; n < notes + noted; n++) {
        size_t digits = digits_of(n->count), bytes = (size_t)(n->stop - n->line);
        *length -= (size_t)(n->next - n->line);
        if (n->kind == LEFT_OUT) {
            *list_length += digits + 6 + bytes;
            continue;
        }
        *length += bytes + (n->next[-1] == '\n' ? 2 : 0);
        *list_length += (n->kind & EOL ? digits + 5 : 0) + (n->kind & BLANK ? digits + 7 : 0) + (n->kind & LETTERS ? digits + 6 : 0);
    }
}

static uint8_t *put(uint8_t *to, const void *bytes, size_t length)
{
    memcpy(to, bytes, length);
    return to + length;
}

static uint8_t *put_entry(uint8_t *to, size_t count, size_t digits, const char *word, size_t length)
{
    for (size_t i = digits; i-- > 0; count /= 10)
        to[i] = (uint8_t)('0' + count % 10);
    return put(to + digits, word, length);
}

typedef struct {
    const uint8_t *from; /* what is copied next */
    uint8_t *out, *list;
} written;

static void write_notes(const note *notes, size_t noted, written *w)
{
    for (const note *n = notes; n < notes + noted; n++) {
        size_t digits = digits_of(n->count);
        if (n->kind == LEFT_OUT) {
            w->out = put(w->out, w->from, (size_t)(n->line - w->from));
            w->list = put_entry(w->list, n->count, digits, " OUT ", 5);
            w->list = put(w->list, n->line, (size_t)(n->stop - n->line));
            *w->list++ = '\n';
        } else {
            uint8_t *line = w->out + (n->line - w->from);
            w->out = put(w->out, w->from, (size_t)(n->stop - w->from));
            if (n->next[-1] == '\n')
                w->out = put(w->out, "\r\n", 2);
            if (n->kind & EOL)
                w->list = put_entry(w->list, n->count, digits, " EOL\n", 5);
            if (n->kind & BLANK)
                w->list = put_entry(w->list, n->count, digits, " BLANK\n", 7);
            if (n->kind & LETTERS) {
                w->list = put_entry(w->list, n->count, digits, " CASE\n", 6);
                for (size_t i = 0; i < (size_t)(n->stop - n->line); i++)
                    line[i] = raised(line[i]);
            }
        }
        w->from = n->next;
    }
}

static walk start_of(const uint8_t *file, size_t file_length)
{
    return (walk){.at = file, .end = file + file_length};
}

lambukir_mended plain_mend(const uint8_t *file, size_t file_length, uint8_t *out, size_t out_length, uint8_t *list, size_t list_length)
{
    note notes[NOTES];
    walk w = start_of(file, file_length);
    size_t noted = 0, length = file_length, told = 0;
    if (!note_header(&w, notes, &noted))
        return (lambukir_mended){.number = 12};
    note_lines(&w, notes, &noted);
    measure_notes(notes, noted, &length, &told);
    bool again = false;
    while (w.at < w.end && !w.ecs) {
        again = true;
        noted = 0;
        note_lines(&w, notes, &noted);
        measure_notes(notes, noted, &length, &told);
    }
    if (!w.ecs) {
        length += 6;
        told += digits_of(w.count + 1) + 5;
    }
    if (length > out_length || told > list_length)
        return (lambukir_mended){.number = 108};
    written to = {file, out, list};
    if (again) {
        w = start_of(file, file_length);
        noted = 0;
        note_header(&w, notes, &noted);
        note_lines(&w, notes, &noted);
    }
    write_notes(notes, noted, &to);
    while (w.at < w.end && !w.ecs) {
        noted = 0;
        note_lines(&w, notes, &noted);
        write_notes(notes, noted, &to);
    }
    to.out = put(to.out, to.from, (size_t)(w.end - to.from));
    if (!w.ecs) {
        put(to.out, ":ECS\r\n", 6);
        put_entry(to.list, w.count + 1, digits_of(w.count + 1), " ECS\n", 5);
    }
    return (lambukir_mended){length, told, 0};
}
