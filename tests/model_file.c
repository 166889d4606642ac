/* The model's files and the look-through. */
#include "model_parts.h"

#define HEADER 40 /* its three lines, CR LF included */
#define FIRST_LINE 19 /* of the look-through's input, CR LF included */

/* The file is at its end here: nothing, or :ECS before CR LF or before the file's end. */
static bool is_end(const uint8_t *file, size_t length, size_t place, size_t end)
{
    return place == length || (end - place == 4 && memcmp(file + place, ":ECS", 4) == 0);
}

static bool is_header(const uint8_t *file, size_t length)
{
    uint32_t date, hours, minutes;
    if (length < HEADER || memcmp(file, ":DATE ", 6) != 0 || memcmp(file + 20, "\r\n:VERSION 2\r\n:ENC\r\n", 20) != 0)
        return false;
    if (!read_decimal(file + 6, 8, &date) || !is_date(date) || file[14] != ' ')
        return false;
    return read_decimal(file + 15, 2, &hours) && hours <= 23 && file[17] == ':' && read_decimal(file + 18, 2, &minutes) && minutes <= 59;
}

lambukir_place model_open_file(const uint8_t *file, size_t file_length)
{
    if (!is_header(file, file_length))
        return (lambukir_place){.number = 12};
    if (is_end(file, file_length, HEADER, line_end(file, file_length, HEADER)))
        return (lambukir_place){.number = 11};
    return (lambukir_place){.place = HEADER};
}

lambukir_file_line model_read_file_line(uint64_t hw_id, uint32_t today, uint32_t days, const uint8_t *file, size_t file_length, size_t place)
{
    uint32_t refused = refuse_given(hw_id, today, days);
    if (refused != 0)
        return (lambukir_file_line){.number = refused, .next = place};
    if (place > file_length)
        return (lambukir_file_line){.number = 12, .next = file_length};
    size_t end = line_end(file, file_length, place);
    if (is_end(file, file_length, place, end))
        return (lambukir_file_line){.at_end = 1, .next = place};
    if (end == file_length)
        return (lambukir_file_line){.number = 12, .next = file_length};
    lambukir_line l = model_read_line(hw_id, today, days, file + place, end - place);
    return (lambukir_file_line){l.name, l.key_one, l.key_two, end + 2, l.expiry, l.level, l.edition, l.server, l.number, 0};
}

/* A number without leading zeros. The answer is where the text goes on. */
static uint8_t *put_number(uint8_t *out, uint32_t value)
{
    size_t digits = 1;
    for (uint32_t rest = value; rest >= 10; rest /= 10)
        digits++;
    write_decimal(out, digits, value);
    return out + digits;
}

static uint8_t *put_text(uint8_t *out, const char *text)
{
    size_t length = strlen(text);
    memcpy(out, text, length);
    return out + length;
}

static uint8_t *put_refused(uint8_t *out, uint32_t number)
{
    return put_text(put_number(put_text(out, "refused "), number), "\n");
}

/* How many lines there were of each kind. */
typedef struct {
    uint32_t records, current, soon, expired, refused;
} totals;

static void count(totals *t, uint32_t number)
{
    t->records++;
    *(number == 0 ? &t->current : number == 20 ? &t->soon : number == 15 ? &t->expired : &t->refused) += 1;
}

static uint8_t *put_totals(uint8_t *out, const totals *t)
{
    out = put_number(put_text(out, "records "), t->records);
    out = put_number(put_text(out, " current "), t->current);
    out = put_number(put_text(out, " soon "), t->soon);
    out = put_number(put_text(out, " expired "), t->expired);
    out = put_number(put_text(out, " refused "), t->refused);
    return put_text(out, "\n");
}

/* One line of the ENC part; ended is false where no CR LF follows it. */
static uint8_t *put_line(uint8_t *out, totals *t, const BF_KEY *hw_id6, uint32_t today, uint32_t days, const uint8_t *line, size_t length, bool ended)
{
    line_fields fields;
    uint32_t number = 12;
    if (ended && take_apart(line, length, &fields))
        number = judge(hw_id6, today, days, line, &fields).number;
    count(t, number);
    out = put_text(put_number(out, t->records), " ");
    out = put_text(put_number(out, number), " ");
    memcpy(out, number == 0 || number == 15 || number == 20 ? (const char *)line : "--------", 8);
    return put_text(out + 8, "\n");
}

/* Every line of a file with a good header, and the totals. */
static uint8_t *put_lines(uint8_t *out, uint64_t hw_id, uint32_t today, uint32_t days, const uint8_t *file, size_t length)
{
    totals t = {0};
    BF_KEY hw_id6;
    set_hw_id6(&hw_id6, hw_id);
    for (size_t place = HEADER, end; ; place = end + 2) {
        end = line_end(file, length, place);
        if (is_end(file, length, place, end))
            break;
        out = put_line(out, &t, &hw_id6, today, days, file + place, end - place, end < length);
        if (end == length)
            break;
    }
    return put_totals(out, &t);
}

/* Blanks, two digits and CR LF where they belong in the first line. */
static bool is_first_line(const uint8_t *input, size_t length, uint32_t *days)
{
    return length >= FIRST_LINE && input[5] == ' ' && input[14] == ' ' && read_decimal(input + 15, 2, days) && input[17] == '\r' && input[18] == '\n';
}

size_t model_look_through(const uint8_t *input, size_t length, uint8_t *report)
{
    uint32_t days, today = 0;
    if (length > MODEL_INPUT || !is_first_line(input, length, &days))
        return (size_t)(put_refused(report, 103) - report);
    uint64_t hw_id = number_of(input, HW_ID_LENGTH);
    if (!read_decimal(input + 6, 8, &today))
        today = 0; /* no date */
    uint32_t refused = refuse_given(hw_id, today, days);
    if (refused == 0)
        refused = model_open_file(input + FIRST_LINE, length - FIRST_LINE).number;
    if (refused != 0)
        return (size_t)(put_refused(report, refused) - report);
    return (size_t)(put_lines(report, hw_id, today, days, input + FIRST_LINE, length - FIRST_LINE) - report);
}
