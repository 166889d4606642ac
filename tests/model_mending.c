/* The model's mending of mailed files: both texts are put together in buffers of their own first, a line after the other. */
#include <stdio.h>
#include <stdlib.h>

#include "model_parts.h"

#define HEADER_LINES 3
#define ECS ":ECS"
#define ECS_LENGTH 4

/* A text that grows. */
typedef struct {
    uint8_t *bytes;
    size_t length, room;
} grown;

static void add(grown *text, const void *bytes, size_t length)
{
    if (text->room - text->length < length) {
        text->room = 2 * (text->length + length);
        text->bytes = realloc(text->bytes, text->room);
        if (!text->bytes) {
            puts("out of memory");
            exit(1);
        }
    }
    if (length > 0)
        memcpy(text->bytes + text->length, bytes, length);
    text->length += length;
}

static void add_text(grown *text, const char *words)
{
    add(text, words, strlen(words));
}

/* Which line, a blank and a word: how each line of the list begins. */
static void add_entry(grown *list, size_t count, const char *word)
{
    char entry[40];
    snprintf(entry, sizeof entry, "%zu %s", count, word);
    add_text(list, entry);
}

/* A line as it came. */
typedef struct {
    const uint8_t *bytes;
    size_t length;  /* without the line end */
    size_t next;    /* the place after the line end */
    bool ended, cr; /* by LF; with a CR before that */
} old_line;

static old_line line_at(const uint8_t *file, size_t file_length, size_t place)
{
    old_line line = {.bytes = file + place, .next = place};
    while (line.next < file_length && file[line.next] != '\n')
        line.next++;
    line.length = line.next - place;
    line.ended = line.next < file_length;
    if (!line.ended)
        return line;
    line.next++;
    line.cr = line.length > 0 && line.bytes[line.length - 1] == '\r';
    line.length -= line.cr;
    return line;
}

/* A line as it is then, and which faults it had. */
typedef struct {
    grown text; /* without a line end */
    bool eol, blank, letters, ecs;
} new_line;

/* Raises small letters, and tells whether there were any. */
static bool raise_all(grown *text)
{
    bool raised = false;
    for (size_t i = 0; i < text->length; i++)
        if (text->bytes[i] >= 'a' && text->bytes[i] <= 'z') {
            text->bytes[i] = (uint8_t)(text->bytes[i] - 'a' + 'A');
            raised = true;
        }
    return raised;
}

static bool is_ecs(const grown *text)
{
    return text->length == ECS_LENGTH && memcmp(text->bytes, ECS, ECS_LENGTH) == 0;
}

static bool is_ecs_in_any_case(const grown *text)
{
    if (text->length != ECS_LENGTH)
        return false;
    for (size_t i = 0; i < ECS_LENGTH; i++)
        if (text->bytes[i] != ECS[i] && text->bytes[i] != ":ecs"[i])
            return false;
    return true;
}

/* Mends a line into what is given for it, whose text is used again. */
static void mend_line(const old_line *old, bool of_header, new_line *line)
{
    line->text.length = 0;
    add(&line->text, old->bytes, old->length);
    while (line->text.length > 0 && line->text.bytes[line->text.length - 1] == ' ')
        line->text.length--;
    line->eol = old->ended && !old->cr;
    line->blank = line->text.length < old->length;
    line->letters = (of_header || is_ecs_in_any_case(&line->text)) && raise_all(&line->text);
    line->ecs = !of_header && is_ecs(&line->text);
}

static bool has_shape(const grown *text)
{
    line_fields fields;
    return take_apart(text->bytes, text->length, &fields);
}

static void keep(grown *out, grown *list, size_t count, const old_line *old, const new_line *line)
{
    add(out, line->text.bytes, line->text.length);
    if (old->ended)
        add_text(out, "\r\n");
    if (line->eol)
        add_entry(list, count, "EOL\n");
    if (line->blank)
        add_entry(list, count, "BLANK\n");
    if (line->letters)
        add_entry(list, count, "CASE\n");
}

static void leave_out(grown *list, size_t count, const old_line *old)
{
    add_entry(list, count, "OUT ");
    add(list, old->bytes, old->length);
    add_text(list, "\n");
}

/* The clean file and the list, whatever room there is for them. False where the file begins with no header. */
static bool mend_all(const uint8_t *file, size_t file_length, grown *out, grown *list, new_line *line)
{
    size_t place = 0, count = 0;
    for (; count < HEADER_LINES; count++) {
        old_line old = line_at(file, file_length, place);
        if (!old.ended)
            return false;
        mend_line(&old, true, line);
        keep(out, list, count + 1, &old, line);
        place = old.next;
    }
    if (model_open_file(out->bytes, out->length).number == 12)
        return false;
    while (place < file_length) {
        old_line old = line_at(file, file_length, place);
        mend_line(&old, false, line);
        count++;
        place = old.next;
        if (line->ecs || (old.ended && has_shape(&line->text)))
            keep(out, list, count, &old, line);
        else
            leave_out(list, count, &old);
        if (line->ecs) {
            add(out, file + place, file_length - place);
            return true;
        }
    }
    add_text(out, ECS "\r\n");
    add_entry(list, count + 1, "ECS\n");
    return true;
}

lambukir_mended model_mend(const uint8_t *file, size_t file_length, uint8_t *out, size_t out_length, uint8_t *list, size_t list_length)
{
    grown clean = {0}, told = {0};
    new_line line = {0};
    lambukir_mended answer = {0};
    if (!mend_all(file, file_length, &clean, &told, &line))
        answer.number = 12;
    else if (clean.length > out_length || told.length > list_length)
        answer.number = 108;
    else {
        memcpy(out, clean.bytes, clean.length);
        if (told.length > 0)
            memcpy(list, told.bytes, told.length);
        answer = (lambukir_mended){clean.length, told.length, 0};
    }
    free(clean.bytes);
    free(told.bytes);
    free(line.text.bytes);
    return answer;
}
