/* Mailed files mended: one call each of the library and of the model, as in calls.h, and what the rules promise of every file. */
#ifndef MENDED_H
#define MENDED_H

#include <strings.h>

#include "calls.h"
#include "mails.h"

#define SPARE 4096
#define HEADER_LINES 3

static uint8_t any[LIST_ROOM + SPARE];                      /* bytes of any kind, which stand in an output before the call */
static uint8_t their_out[LIST_ROOM], their_list[LIST_ROOM]; /* what the model wrote */
static text made, told;                                     /* what the library did */
static uint32_t succeeded, refused;

static inline void make_any(void)
{
    for (size_t at = 0; at < sizeof any; at += sizeof(uint64_t)) {
        uint64_t eight = random64();
        memcpy(any + at, &eight, sizeof eight);
    }
}

/* An output that was lent: as the model wrote it, and after that as it was. What was written is kept. */
static inline void same_written(lent *out, const uint8_t *theirs, uint64_t written, text *kept, const char *what)
{
    size_t length = written <= out->length ? written : out->length;
    same((uint64_t)zones_kept(out), 1, "%s: the guard bytes of the %s", about, what);
    same((uint64_t)memcmp(out->bytes, theirs, length), 0, "%s: the %s, against the model's", about, what);
    same((uint64_t)memcmp(out->bytes + length, out->of + length, out->length - length), 0, "%s: the %s after byte %zu, against what it was", about, what, length);
    memcpy(kept->bytes, out->bytes, length);
    kept->length = length;
    give_back(out);
}

/* One call each of the library and of the model, into outputs of these lengths. */
static inline lambukir_mended compare_mend(const uint8_t *bytes, size_t length, size_t out_length, size_t list_length)
{
    lent f = lend(bytes, length, random_below(16));
    lent out = lend(any + random_below(SPARE), out_length, random_below(16)), list = lend(any + random_below(SPARE), list_length, random_below(16));
    lambukir_mended ours = lambukir_mend(f.bytes, length, out.bytes, out_length, list.bytes, list_length);
    lambukir_mended theirs = model_mend(bytes, length, their_out, out_length, their_list, list_length);
    same(ours.number, theirs.number, "%s: number", about);
    same(ours.length, theirs.length, "%s: length", about);
    same(ours.list_length, theirs.list_length, "%s: length of the list", about);
    if (ours.number != 0)
        same(ours.length | ours.list_length, 0, "%s: lengths of a refusal", about);
    else
        same(ours.length <= length + length / 72 + 9 && ours.list_length <= (length < 100000 ? 11 : 26) * length, 1, "%s: room that is always enough", about);
    same_kept(&f, "file");
    same_written(&out, their_out, ours.length, &made, "output");
    same_written(&list, their_list, ours.list_length, &told, "list");
    return ours;
}

/* How long both texts are, by the model. */
static inline lambukir_mended needed(const uint8_t *bytes, size_t length)
{
    return model_mend(bytes, length, their_out, sizeof their_out, their_list, sizeof their_list);
}

/* A line of an old file. */
typedef struct {
    const uint8_t *bytes;
    size_t length, tight, next; /* without the line end; without blanks, too; the place after the line end */
    int ended, cr;
} old_line;

static inline old_line old_line_at(const uint8_t *bytes, size_t length, size_t place)
{
    const uint8_t *from = bytes + place, *lf = memchr(from, '\n', length - place), *end = lf ? lf : bytes + length;
    int cr = lf && lf > from && lf[-1] == '\r';
    old_line line = {from, (size_t)(end - from) - (size_t)cr, 0, (size_t)(end - bytes) + (lf != NULL), lf != NULL, cr};
    for (line.tight = line.length; line.tight > 0 && from[line.tight - 1] == ' ';)
        line.tight--;
    return line;
}

/* Whether a file begins, mended, with a header that lambukir_open_file takes. */
static inline int begins_well(const uint8_t *bytes, size_t length)
{
    uint8_t header[HEADER_LENGTH];
    size_t place = 0, written = 0;
    for (int i = 0; i < HEADER_LINES; i++) {
        old_line line = place < length ? old_line_at(bytes, length, place) : (old_line){0};
        if (!line.ended || line.tight + 2 > HEADER_LENGTH - written)
            return 0;
        for (size_t at = 0; at < line.tight; at++)
            header[written++] = (uint8_t)toupper(line.bytes[at]);
        memcpy(header + written, "\r\n", 2);
        written += 2;
        place = line.next;
    }
    return written == HEADER_LENGTH && lambukir_open_file(header, written).number == 11;
}

static inline int is_text(const text *t, size_t place, const void *bytes, size_t length)
{
    return length <= t->length - place && memcmp(t->bytes + place, bytes, length) == 0;
}

/* Passes over an entry of the list, where it is the one for this line. */
static inline int listed_here(size_t *place, size_t count, const char *word)
{
    char entry[40];
    int length = snprintf(entry, sizeof entry, "%zu %s", count, word);
    if (!is_text(&told, *place, entry, (size_t)length))
        return 0;
    *place += (size_t)length;
    return 1;
}

#define MOST_KEPT 3000
static struct { size_t place, length; } kept_lines[MOST_KEPT]; /* in the clean file */
static size_t kept_count;

/* Whether the list tells the truth of this line and the clean file has it as the list says; both places go on. */
static inline int is_said(const old_line *line, size_t count, size_t *in_made, size_t *in_told)
{
    uint8_t mended[LONGEST_LINE];
    int of_header = count <= HEADER_LINES, shaped = line->ended && lambukir_comment(line->bytes, line->tight).start != 0;
    int ecs = !of_header && line->tight == 4 && strncasecmp((const char *)line->bytes, ":ECS", 4) == 0;
    if (listed_here(in_told, count, "OUT ")) {
        int told_whole = is_text(&told, *in_told, line->bytes, line->length) && is_text(&told, *in_told + line->length, "\n", 1);
        *in_told += line->length + 1;
        return told_whole && !of_header && !shaped && !ecs;
    }
    if (!(of_header || shaped || ecs) || line->tight > LONGEST_LINE)
        return 0;
    for (size_t i = 0; i < line->tight; i++)
        mended[i] = of_header || ecs ? (uint8_t)toupper(line->bytes[i]) : line->bytes[i];
    int letters = memcmp(mended, line->bytes, line->tight) != 0;
    if (listed_here(in_told, count, "EOL\n") != (line->ended && !line->cr) || listed_here(in_told, count, "BLANK\n") != (line->tight < line->length) ||
        listed_here(in_told, count, "CASE\n") != letters)
        return 0;
    int as_said = is_text(&made, *in_made, mended, line->tight) && (!line->ended || is_text(&made, *in_made + line->tight, "\r\n", 2));
    if (!of_header && !ecs && kept_count < MOST_KEPT) {
        kept_lines[kept_count].place = *in_made;
        kept_lines[kept_count++].length = line->tight;
    }
    *in_made += line->tight + (line->ended ? 2 : 0);
    return as_said;
}

/* Each old line up to :ECS is in the clean file or in the list, with its bytes, and there is nothing else in either. */
static inline void same_said(const uint8_t *bytes, size_t length)
{
    size_t place = 0, count = 0, in_made = 0, in_told = 0, rest;
    int said = 1, ecs = 0;
    kept_count = 0;
    while (said && !ecs && place < length) {
        old_line line = old_line_at(bytes, length, place);
        size_t from = in_made;
        said = is_said(&line, ++count, &in_made, &in_told);
        ecs = count > HEADER_LINES && in_made > from && is_text(&made, from, ":ECS", 4);
        place = line.next;
    }
    same((uint64_t)said, 1, "%s: line %zu and what is said of it", about, count);
    if (!said)
        return;
    rest = length - place;
    if (ecs)
        same(made.length - in_made == rest && is_text(&made, in_made, bytes + place, rest), 1, "%s: what follows :ECS", about);
    else
        same(made.length - in_made == 6 && is_text(&made, in_made, ":ECS\r\n", 6) && listed_here(&in_told, count + 1, "ECS\n"), 1, "%s: :ECS is added", about);
    same(in_told, told.length, "%s: all of the list", about);
}

/* The list is empty exactly where nothing changed, and mending the clean file changes nothing and lists nothing. */
static inline void same_again(const uint8_t *bytes, size_t length)
{
    static uint8_t again[LIST_ROOM], list[8];
    int unchanged = made.length == length && memcmp(made.bytes, bytes, length) == 0;
    same(told.length == 0, (uint64_t)unchanged, "%s: whether the list is empty", about);
    lambukir_mended mended = lambukir_mend(made.bytes, made.length, again, made.length, list, sizeof list);
    same(mended.number, 0, "%s: number of mending it again", about);
    same(mended.list_length, 0, "%s: the list of mending it again", about);
    same(mended.length == made.length && memcmp(again, made.bytes, made.length) == 0, 1, "%s: the clean file mended again", about);
}

/* An output that is too short, the other long enough or not. */
static inline void compare_short(const uint8_t *bytes, size_t length, const lambukir_mended *need)
{
    uint64_t kind = random_below(5), by = random_below(2) ? 1 : 1 + random_below(need->length);
    size_t out_length = kind == 0 ? need->length : need->length - by, list_length = need->list_length + random_below(3);
    if (kind < 3 && need->list_length > 0)
        list_length = kind == 2 ? random_below(need->list_length) : need->list_length - 1;
    else if (kind == 0)
        out_length--;
    expect(compare_mend(bytes, length, out_length, list_length).number, 108);
}

/* A file mended into outputs that are long enough, often just so; and all that is promised of it. What comes out stays in `made` and `told`. */
static inline uint32_t compare_file(const uint8_t *bytes, size_t length)
{
    lambukir_mended need = needed(bytes, length);
    size_t out_length = need.length + (random_below(2) ? 0 : random_below(50)), list_length = need.list_length + (random_below(2) ? 0 : random_below(50));
    if (need.number == 0)
        compare_short(bytes, length, &need);
    uint32_t number = compare_mend(bytes, length, out_length, list_length).number;
    expect(number, begins_well(bytes, length) ? 0 : 12);
    *(number == 0 ? &succeeded : &refused) += 1;
    if (number == 0) {
        same_said(bytes, length);
        same_again(bytes, length);
    }
    return number;
}

/* Both kinds of answer have come, and often. */
static inline void expect_both(uint32_t least)
{
    same(succeeded >= least && refused >= least, 1, "%" PRIu32 " files were mended and %" PRIu32 " refused", succeeded, refused);
}

/* Of `mailed` must come `clean` and `listed`. */
static inline void compare_mailed(void)
{
    expect(compare_file(mailed.bytes, mailed.length), 0);
    same(made.length == clean.length && memcmp(made.bytes, clean.bytes, clean.length) == 0, 1, "%s: the clean file, against what the test expects", about);
    same(told.length == listed.length && memcmp(told.bytes, listed.bytes, listed.length) == 0, 1, "%s: the list, against what the test expects", about);
}

#endif
