/* Mailed permit files of 60,000 bytes, mended by us and by hand: one of which a line in forty has a fault, and one that came badly, with lone LFs throughout,
   blanks at a quarter of its lines, one in twenty to be left out, and no :ECS. Both outputs are as long as the header says that they need to be at most. */
#ifndef MAILED_H
#define MAILED_H

#include "mails.h"
#include "measure.h"
#include "mending.h"

#define MAIL 60000
#define MAIL_ROOM (MAIL + MAIL / 72 + 9)

typedef struct {
    uint8_t bytes[MAIL];
    size_t length;
} mail;

static mail good_mail, bad_mail;
static uint8_t mended[MAIL_ROOM], mended_list[11 * MAIL], mended_by_hand[MAIL_ROOM], list_by_hand[11 * MAIL];

/* As Data Servers write it: few have a comment. */
static size_t usual_line(uint8_t *line)
{
    record r = some_record(some_date());
    if (random_below(10) > 0)
        r.comment[0] = 0;
    size_t length = line_of_nobody(&r, line);
    while (line[length - 1] == ' ')
        length--;
    return length;
}

/* Both sides answer alike and write the same. */
static bool mend_alike(const uint8_t *file, size_t length)
{
    lambukir_mended ours = lambukir_mend(file, length, mended, sizeof mended, mended_list, sizeof mended_list);
    lambukir_mended theirs = plain_mend(file, length, mended_by_hand, sizeof mended_by_hand, list_by_hand, sizeof list_by_hand);
    if (ours.number != theirs.number || ours.length != theirs.length || ours.list_length != theirs.list_length)
        return false;
    if (memcmp(mended, mended_by_hand, ours.length) != 0 || memcmp(mended_list, list_by_hand, ours.list_length) != 0)
        return false;
    return ours.number != 0 || (plain_mend(file, length, mended, ours.length - 1, mended_list, ours.list_length).number == 108 &&
                                plain_mend(file, length, mended, ours.length, mended_list, ours.list_length).number == 0);
}

/* What was put together, as it is measured; false where both sides do not make of it what they should. */
static bool keep_mail(mail *m)
{
    memcpy(m->bytes, mailed.bytes, mailed.length);
    m->length = mailed.length;
    return mend_alike(m->bytes, m->length) && memcmp(mended, clean.bytes, clean.length) == 0 && memcmp(mended_list, listed.bytes, listed.length) == 0;
}

static bool make_mails(void)
{
    uint8_t line[LONGEST_LINE + 60];
    begin_mail();
    mail_header(0, 1);
    while (mailed.length + LONGEST_LINE + 60 < MAIL)
        mail_line(line, usual_line(line), random_below(40) == 0 ? EOL | BLANK : 0, 1);
    mail_line(":ECS", 4, 0, 1);
    bool alike = keep_mail(&good_mail);
    begin_mail();
    mail_header(EOL | BLANK | LETTERS, 1);
    while (mailed.length + LONGEST_LINE + 60 < MAIL)
        if (random_below(20) == 0)
            mail_junk(NOBODY, "\n");
        else
            mail_line(line, usual_line(line), random_below(4) == 0 ? EOL | BLANK : EOL, 1);
    mail_no_ecs();
    alike &= keep_mail(&bad_mail);
    for (int i = 0; i < 5000; i++) {
        some_mail(NOBODY, random_below(20), EOL | BLANK | LETTERS, 2);
        mailed.bytes[random_below(mailed.length)] = (uint8_t)PICK("\n\r :,aA0\x7F\x80");
        alike &= mend_alike(mailed.bytes, mailed.length);
    }
    return alike;
}

BOTH(plain, good_mail, mend(good_mail.bytes, good_mail.length, mended, sizeof mended, mended_list, sizeof mended_list).length)
BOTH(plain, bad_mail, mend(bad_mail.bytes, bad_mail.length, mended, sizeof mended, mended_list, sizeof mended_list).list_length)

#endif
