/* Ours beside OpenSSL's, Botan's, zlib's and plain C over them, in one run: the time of one call in ns, and ours over theirs.

   Each line measures one call on both sides, as a caller would make it:
     key schedule  a key of 6 bytes, another one each time, into a schedule of 1042 words
     encipher      one block with a ready schedule; what comes out goes into the next call
     decipher      the same
     CRC-32        48 bytes, as of a cell permit, another 48 each time
     permits       the calls of lambukir.h beside the model's of tests/, see permits.h: to refuse a line is to read one whose last byte is wrong
     mend          a mailed file of 60,000 bytes, most of it good and badly mailed, beside mending.h's, written by hand in C, see mailed.h
     book          the calls of lambukir.h beside book.h's, written by hand in C, see desk.h: enter and then withdraw, two calls, in a book with
                   511 records, for a tenant and for the house; the others in a full one; judging is asking for a cell that is not there, once
                   where last expiries come in runs and once where each record has another one than that before it; a producer is asked for of
                   a tenant with 32 cells, and of one with all 512, whose branches ask an edition; a full book of version 1 is carried over
     list          a ship's cell against a product list of 20,000 rows, beside products.h's, which sorts the names; against one that was made to be
                   slow, beside ours in name order; and against one of 10 rows, see service.h
     look-through  the program beside bench/look_through.c, each a process of its own: from before its start until it has ended;
                   both load the C library and nothing else, since OpenSSL and zlib are linked into the C program
     cell files    enciphering and opening 64 KiB and 16 MiB, the keys set up by each call, see charts.h; and the CRC-32 of 1 MiB

   Every answer goes into a sum that is looked at in the end. */
#define _DEFAULT_SOURCE
#define OPENSSL_SUPPRESS_DEPRECATED
#include <openssl/blowfish.h>
#include <zlib.h>

#include "charts.h"
#include "desk.h"
#include "mailed.h"
#include "measure.h"
#include "permits.h"
#include "probe.h"
#include "service.h"

#define TEXT 48
#define TEXTS 64

static uint8_t key[6] = {'1', '2', '3', '4', '8', '1'};
static uint8_t texts[TEXTS * TEXT];
static uint32_t words[SCHEDULE_WORDS];
static BF_KEY schedule;

static void our_schedule(int calls)
{
    uint32_t made[SCHEDULE_WORDS];
    for (int i = 0; i < calls; i++) {
        key[i % 5]++;
        sum += probe_key_schedule(key, sizeof key, made);
        sum += made[1041];
    }
}

static void their_schedule(int calls)
{
    BF_KEY made;
    for (int i = 0; i < calls; i++) {
        key[i % 5]++;
        BF_set_key(&made, sizeof key, key);
        sum += made.S[1023];
    }
}

static void our_encipher(int calls)
{
    uint64_t block = sum;
    for (int i = 0; i < calls; i++)
        block = probe_encipher(words, block);
    sum += block;
}

static void their_encipher(int calls)
{
    BF_LONG block[2] = {(BF_LONG)(sum >> 32), (BF_LONG)sum};
    for (int i = 0; i < calls; i++)
        BF_encrypt(block, &schedule);
    sum += block[0] ^ block[1];
}

static void our_decipher(int calls)
{
    uint64_t block = sum;
    for (int i = 0; i < calls; i++)
        block = probe_decipher(words, block);
    sum += block;
}

static void their_decipher(int calls)
{
    BF_LONG block[2] = {(BF_LONG)(sum >> 32), (BF_LONG)sum};
    for (int i = 0; i < calls; i++)
        BF_decrypt(block, &schedule);
    sum += block[0] ^ block[1];
}

static void our_crc32(int calls)
{
    for (int i = 0; i < calls; i++)
        sum += lambukir_crc32(texts + i % TEXTS * TEXT, TEXT);
}

static void their_crc32(int calls)
{
    for (int i = 0; i < calls; i++)
        sum += crc32(0, texts + i % TEXTS * TEXT, TEXT);
}

int main(void)
{
    for (size_t i = 0; i < sizeof texts; i++)
        texts[i] = (uint8_t)("0123456789ABCDEF"[i * i % 31 % 16]);
    BF_set_key(&schedule, sizeof key, key);
    if (probe_key_schedule(key, sizeof key, words) != 0 || memcmp(words, &schedule, sizeof words) != 0) {
        puts("the schedules differ: nothing is measured");
        return 1;
    }
    measure("key schedule", our_schedule, their_schedule, "OpenSSL", 40);
    measure("encipher a block", our_encipher, their_encipher, "OpenSSL", 10000);
    measure("decipher a block", our_decipher, their_decipher, "OpenSSL", 10000);
    measure("CRC-32 of 48 bytes", our_crc32, their_crc32, "zlib", 10000);
    make_samples();
    measure("make user permit", our_make, their_make, "plain C", 20);
    measure("read user permit", our_read, their_read, "plain C", 20);
    measure("  in small letters", our_small_permit, their_small_permit, "plain C", 20);
    measure("read line", our_line, their_line, "plain C", 20);
    measure("  in small letters", our_small_line, their_small_line, "plain C", 20);
    measure("refuse a line", our_wrong_line, their_wrong_line, "plain C", 2000);
    measure("write line", our_write, their_write, "plain C", 20);
    measure("read file line", our_file_line, their_file_line, "plain C", 20);
    measure("reach a file's end", our_file_end, their_file_end, "plain C", 10000);
    if (!make_mails()) {
        puts("the mended files differ: no more is measured");
        return 1;
    }
    measure("mend 60000 bytes", our_good_mail, their_good_mail, "plain C", 1);
    measure("  badly mailed", our_bad_mail, their_bad_mail, "plain C", 1);
    if (!make_books()) {
        puts("the books differ: no more is measured");
        return 1;
    }
    measure("enter, withdraw", our_enter, their_enter, "plain C", 40);
    measure("  for the house", our_house, their_house, "plain C", 40);
    measure("ask edition", our_edition, their_edition, "plain C", 80);
    measure("  by a branch", our_branch, their_branch, "plain C", 80);
    measure("ask producer", our_producer, their_producer, "plain C", 80);
    measure("  of 512 cells", our_long_walk, their_long_walk, "plain C", 80);
    measure("judge a book", our_judged, their_judged, "plain C", 80);
    measure("  each date new", our_new_dates, their_new_dates, "plain C", 80);
    measure("carry over", our_carried, their_carried, "plain C", 80);
    measure("issue", our_issue, their_issue, "plain C", 20);
    measure("check", our_check, their_check, "plain C", 20);
    if (!make_services()) {
        puts("the product lists are read differently: no more is measured");
        return 1;
    }
    measure("list in name order", our_in_order, their_in_order, "plain C", 1);
    measure("list, shuffled", our_shuffled, their_shuffled, "plain C", 1);
    measure("list of 10 rows", our_few, their_few, "plain C", 200);
    measure_slow();
    put_look_through(65000, false);
    measure("look-through 65000", our_look_through, their_look_through, "plain C", 1);
    put_look_through(65000, true);
    measure("  in small letters", our_look_through, their_look_through, "plain C", 1);
    put_look_through(0, false);
    measure("look-through start", our_look_through, their_look_through, "plain C", 1);
    /* the last, since a program with so much memory takes longer to start the look-through */
    if (!make_charts()) {
        puts("the cell files differ: no more is measured");
        return 1;
    }
    measure("encipher 64 KiB", our_small_chart, their_small_chart, "Botan", 1);
    measure("  by blocks", our_small_blocks, their_small_blocks, "OpenSSL", 1);
    measure("open 64 KiB", our_small_opened, their_small_opened, "OpenSSL", 1);
    measure_long("encipher 16 MiB", our_chart, their_chart, "Botan", CHART_ROUNDS);
    measure_long("  by blocks", our_chart_blocks, their_chart_blocks, "OpenSSL", CHART_ROUNDS);
    measure_long("open 16 MiB", our_opened, their_opened, "OpenSSL", CHART_ROUNDS);
    measure("CRC-32 of 1 MiB", our_long_crc32, their_long_crc32, "zlib", 1);
    printf("sum of the answers %016llX\n", (unsigned long long)sum);
    return 0;
}
