/* Files put together of good lines and of others, with the number that each line must give. */
#ifndef PIECES_H
#define PIECES_H

#include "values.h"

#define HEADER_TEXT ":DATE 20240131 09:30\r\n:VERSION 2\r\n:ENC\r\n"
#define HEADER_LENGTH 40
#define FILE_ROOM 70000
#define MOST_LINES 2000
#define RECORD 0 /* what stands for 0, 15 and 20 among the numbers of a file's lines */

typedef struct {
    uint8_t bytes[FILE_ROOM];
    size_t length, lines;
    uint32_t numbers[MOST_LINES]; /* of the lines up to the end */
} pieces;

static inline void put(pieces *f, const void *bytes, size_t length)
{
    memcpy(f->bytes + f->length, bytes, length);
    f->length += length;
}

static inline void put_text(pieces *f, const char *text)
{
    put(f, text, strlen(text));
}

/* A line and its CR LF, with the number that it must give. */
static inline void put_line(pieces *f, const void *line, size_t length, uint32_t number)
{
    put(f, line, length);
    put(f, "\r\n", 2);
    f->numbers[f->lines++] = number;
}

/* A good line, its cipher parts typed in either case. */
static inline void put_record(pieces *f, uint64_t hw_id, uint32_t expiry)
{
    uint8_t line[LONGEST_LINE + 40];
    record r = some_record(expiry);
    size_t length = line_of(&r, hw_id, line);
    type_hex(line + CIPHER_PARTS, CELL_PERMIT - CIPHER_PARTS);
    put_line(f, line, length, RECORD);
}

/* A line that is refused with 12, 13 or 21. */
static inline void put_refused(pieces *f, uint64_t hw_id, uint32_t expiry, uint32_t number)
{
    uint8_t line[LONGEST_LINE + 40];
    record r = some_record(expiry);
    uint64_t one = r.key_one << 24 | 0x030303, two = r.key_two << 24 | 0x030303;
    size_t length = line_over(&r, hw_id, number == 21 ? one ^ 1 : one, two, line);
    type_hex(line + CIPHER_PARTS, CELL_PERMIT - CIPHER_PARTS);
    if (number == 13)
        change_hex(line + CIPHER_PARTS + random_below(48)); /* of the keys or of the check part */
    if (number == 12)
        length = spoil_shape(line, length);
    put_line(f, line, length, number);
}

/* A line that is none, each of its own way. */
static inline void put_odd(pieces *f, uint64_t hw_id, uint32_t expiry)
{
    static const char *const odd[] = {"", ":ENC", ":ECS ", " :ECS", ":ecs", ":EC", ":ECSS", ":ECS\r",
                                      ":ECS\n", "ECS", "SHORT", "\r", "\n", "\n\r", ",,,,", HEADER_TEXT};
    uint8_t bytes[200];
    size_t length = random_below(sizeof bytes);
    switch (random_below(4)) {
    case 0: /* a good line, and a CR before its CR LF */
        put_record(f, hw_id, expiry);
        memcpy(f->bytes + f->length - 2, "\r\r\n", 3);
        f->length++;
        f->numbers[f->lines - 1] = 12;
        break;
    case 1: /* bytes of any kind but CR */
        random_bytes(bytes, length);
        for (size_t i = 0; i < length; i++)
            bytes[i] = bytes[i] == '\r' ? '\n' : bytes[i];
        put_line(f, bytes, length, 12);
        break;
    default: {
        const char *text = PICK(odd);
        put_line(f, text, strlen(text), 12);
        for (size_t i = 0; text == odd[COUNT(odd) - 1] && i < 3; i++) /* the header is three lines and leaves an empty one */
            f->numbers[f->lines++] = 12;
    }
    }
}

/* The end, in one of its ways; what follows :ECS is not read. */
static inline void put_end(pieces *f, uint64_t hw_id, uint32_t expiry)
{
    size_t lines = f->lines;
    switch (random_below(6)) {
    case 0: return;
    case 1: put_text(f, ":ECS"); return;
    case 2: put_text(f, ":ECS\r\n"); return;
    case 3: put_text(f, ":ECS\r\n"); put_record(f, hw_id, expiry); put_odd(f, hw_id, expiry); break;
    case 4: put_record(f, hw_id, expiry); f->length -= 1 + random_below(2); f->numbers[lines++] = 12; break;
    default: put_text(f, random_below(2) ? ":ECS\r" : "x"); f->numbers[lines++] = 12;
    }
    f->lines = lines;
}

/* A file with so many pieces after a good header. Expiries are from the day before today to 95 days on, or any. */
static inline void some_file(pieces *f, uint64_t hw_id, uint32_t today, size_t count)
{
    static const uint32_t refusals[] = {12, 13, 21};
    f->length = f->lines = 0;
    put_text(f, HEADER_TEXT);
    for (size_t i = 0; i < count; i++) {
        uint32_t expiry = random_below(3) == 0 ? some_date() : days_after(today, random_below(95));
        switch (random_below(8)) {
        case 0: put_odd(f, hw_id, expiry); break;
        case 1: case 2: put_refused(f, hw_id, expiry, PICK(refusals)); break;
        default: put_record(f, hw_id, expiry);
        }
    }
    put_end(f, hw_id, today);
}

#endif
