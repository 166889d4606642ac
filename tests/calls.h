/* One call each of the library and of the model. What is lent lies between guard bytes; every field of the answers and every lent byte is compared.
   A refusal has no value and no byte written; success has written what its length says and no more. */
#ifndef CALLS_H
#define CALLS_H

#include <ctype.h>

#include "compare.h"
#include "guard.h"
#include "lambukir.h"
#include "model.h"
#include "random.h"

#define LONGEST_OUT 300

static char about[160]; /* which case it is, for what is shown where it differs */

#define ABOUT(...) snprintf(about, sizeof about, __VA_ARGS__)

static inline int is_refusal(uint32_t number)
{
    return number != 0 && number != 15 && number != 20;
}

/* The number that the rules give, told by the test itself. */
static inline void expect(uint32_t number, uint32_t expected)
{
    same(number, expected, "%s: number, against what the test expects", about);
}

/* Of the numbers in their order, the first whose bit of the mask is set; or 0. */
static inline uint32_t first_of(const uint32_t *order, size_t count, unsigned mask)
{
    for (size_t i = 0; i < count; i++)
        if (mask >> i & 1)
            return order[i];
    return 0;
}

static inline void same_kept(lent *l, const char *what)
{
    same((uint64_t)all_kept(l), 1, "%s: the lent %s and its guard bytes", about, what);
    give_back(l);
}

/* What was lent to be written: as the model wrote it, and as it was after what was written. */
static inline void same_out(lent *out, const uint8_t *theirs, size_t written)
{
    same((uint64_t)zones_kept(out), 1, "%s: the guard bytes of out", about);
    same((uint64_t)memcmp(out->bytes, theirs, out->length), 0, "%s: out, against the model's", about);
    same((uint64_t)memcmp(out->bytes + written, out->of + written, out->length - written), 0, "%s: out after byte %zu, against what it was", about, written);
    give_back(out);
}

static inline uint32_t compare_make(const uint8_t *reg, size_t reg_length, uint64_t hw_id, uint32_t m_id, size_t out_length)
{
    uint8_t before[LONGEST_OUT], theirs[LONGEST_OUT];
    random_bytes(before, out_length);
    memcpy(theirs, before, out_length);
    lent r = lend(reg, reg_length, random_below(16)), out = lend(before, out_length, random_below(16));
    uint32_t number = lambukir_make_user_permit(r.bytes, reg_length, hw_id, m_id, out.bytes, out_length);
    same(number, model_make_user_permit(reg, reg_length, hw_id, m_id, theirs, out_length), "%s: number of make", about);
    same_kept(&r, "register");
    same_out(&out, theirs, number == 0 && out_length >= 28 ? 28 : 0);
    return number;
}

/* A user permit that was accepted is, with its letters raised, the one that is made for the HW_ID and M_ID that it was read to. */
static inline void same_made_again(const uint8_t *reg, size_t reg_length, const uint8_t *permit, const lambukir_user_permit *read)
{
    uint8_t again[28], raised[28];
    for (size_t i = 0; i < 28; i++)
        raised[i] = (uint8_t)toupper(permit[i]);
    same(lambukir_make_user_permit(reg, reg_length, read->hw_id, read->m_id, again, 28), 0, "%s: number of making it again", about);
    same((uint64_t)memcmp(again, raised, 28), 0, "%s: the permit made again", about);
}

static inline lambukir_user_permit compare_read_permit(const uint8_t *reg, size_t reg_length, const uint8_t *permit, size_t permit_length)
{
    lent r = lend(reg, reg_length, random_below(16)), p = lend(permit, permit_length, random_below(16));
    lambukir_user_permit ours = lambukir_read_user_permit(r.bytes, reg_length, p.bytes, permit_length);
    lambukir_user_permit theirs = model_read_user_permit(reg, reg_length, permit, permit_length);
    same(ours.number, theirs.number, "%s: number of read", about);
    same(ours.hw_id, theirs.hw_id, "%s: HW_ID", about);
    same(ours.m_id, theirs.m_id, "%s: M_ID", about);
    if (is_refusal(ours.number))
        same(ours.hw_id | ours.m_id, 0, "%s: values of a refusal", about);
    else
        same_made_again(reg, reg_length, permit, &ours);
    same_kept(&r, "register");
    same_kept(&p, "permit");
    return ours;
}

static inline void same_line(const lambukir_line *ours, const lambukir_line *theirs)
{
    same(ours->number, theirs->number, "%s: number of the line", about);
    same(ours->name, theirs->name, "%s: cell name", about);
    same(ours->key_one, theirs->key_one, "%s: key one", about);
    same(ours->key_two, theirs->key_two, "%s: key two", about);
    same(ours->expiry, theirs->expiry, "%s: expiry", about);
    same(ours->level, theirs->level, "%s: service level", about);
    same(ours->edition, theirs->edition, "%s: edition", about);
    same(ours->server, theirs->server, "%s: Data Server ID", about);
    if (is_refusal(ours->number))
        same(ours->name | ours->key_one | ours->key_two | ours->expiry | ours->level | ours->edition | ours->server, 0, "%s: values of a refusal", about);
}

static inline lambukir_part compare_comment(const uint8_t *line, size_t length)
{
    lent l = lend(line, length, random_below(16));
    lambukir_part ours = lambukir_comment(l.bytes, length), theirs = model_comment(line, length);
    same(ours.start, theirs.start, "%s: start of the comment", about);
    same(ours.length, theirs.length, "%s: length of the comment", about);
    same_kept(&l, "line");
    return ours;
}

/* A line's comment is asked for too. */
static inline lambukir_line compare_read_line(uint64_t hw_id, uint32_t today, uint32_t days, const uint8_t *line, size_t length)
{
    lent l = lend(line, length, random_below(16));
    lambukir_line ours = lambukir_read_line(hw_id, today, days, l.bytes, length), theirs = model_read_line(hw_id, today, days, line, length);
    same_line(&ours, &theirs);
    same_kept(&l, "line");
    compare_comment(line, length);
    return ours;
}

/* The arguments of a written line but the HW_ID and out. */
typedef struct {
    uint64_t name, key_one, key_two;
    uint32_t expiry, level, edition, server;
} given_line;

/* The written bytes go to `line`, which has room for LONGEST_OUT of them. */
static inline lambukir_written compare_write(uint64_t hw_id, const given_line *g, size_t out_length, uint8_t *line)
{
    uint8_t before[LONGEST_OUT], theirs[LONGEST_OUT];
    random_bytes(before, out_length);
    memcpy(theirs, before, out_length);
    lent out = lend(before, out_length, random_below(16));
    lambukir_written ours = lambukir_write_line(hw_id, g->name, g->expiry, g->key_one, g->key_two, g->level, g->edition, g->server, out.bytes, out_length);
    lambukir_written model = model_write_line(hw_id, g->name, g->expiry, g->key_one, g->key_two, g->level, g->edition, g->server, theirs, out_length);
    same(ours.number, model.number, "%s: number of write", about);
    same(ours.length, model.length, "%s: length of the written line", about);
    memcpy(line, out.bytes, out_length);
    same_out(&out, theirs, ours.length <= out_length ? ours.length : out_length);
    return ours;
}

static inline lambukir_place compare_open(const uint8_t *file, size_t length)
{
    lent f = lend(file, length, random_below(16));
    lambukir_place ours = lambukir_open_file(f.bytes, length), theirs = model_open_file(file, length);
    same(ours.number, theirs.number, "%s: number of open", about);
    same(ours.place, theirs.place, "%s: place of the first line", about);
    same_kept(&f, "file");
    return ours;
}

static inline lambukir_file_line compare_file_line(uint64_t hw_id, uint32_t today, uint32_t days, const uint8_t *file, size_t length, size_t place)
{
    lent f = lend(file, length, random_below(16));
    lambukir_file_line ours = lambukir_read_file_line(hw_id, today, days, f.bytes, length, place);
    lambukir_file_line theirs = model_read_file_line(hw_id, today, days, file, length, place);
    lambukir_line a = {ours.name, ours.key_one, ours.key_two, ours.expiry, ours.level, ours.edition, ours.server, ours.number};
    lambukir_line b = {theirs.name, theirs.key_one, theirs.key_two, theirs.expiry, theirs.level, theirs.edition, theirs.server, theirs.number};
    same_line(&a, &b);
    same(ours.next, theirs.next, "%s: next place", about);
    same(ours.at_end, theirs.at_end, "%s: whether it is the end", about);
    if (ours.at_end)
        same(ours.number | ours.name | ours.key_one | ours.key_two | ours.expiry | ours.level | ours.edition | ours.server, 0, "%s: values at the end", about);
    same_kept(&f, "file");
    return ours;
}

static inline lambukir_standing compare_standing(const uint8_t *list, size_t length, uint64_t name, uint32_t edition, uint32_t update)
{
    lent l = lend(list, length, random_below(16));
    lambukir_standing ours = lambukir_product_standing(l.bytes, length, name, edition, update);
    lambukir_standing theirs = model_product_standing(list, length, name, edition, update);
    same(ours.number, theirs.number, "%s: number", about);
    same(ours.standing, theirs.standing, "%s: standing", about);
    same_kept(&l, "list");
    return ours;
}

#endif
