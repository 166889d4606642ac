/* Blowfish, as the C interface has it and as the leaf functions have it, against OpenSSL's. */
#define _DEFAULT_SOURCE
#define OPENSSL_SUPPRESS_DEPRECATED
#include <endian.h>
#include <openssl/blowfish.h>
#include <sys/mman.h>

#include "compare.h"
#include "guard.h"
#include "lambukir.h"
#include "probe.h"
#include "random.h"

#define SHORTEST 4
#define LONGEST 56
#define REFUSED 103

typedef lambukir_block cipher(const uint8_t *key, size_t key_length, uint64_t block);

static lambukir_block ours(cipher *call, const uint8_t *key, size_t length, uint64_t block)
{
    lent l = lend(key, length, random_below(16));
    lambukir_block answer = call(l.bytes, length, block);
    same(all_kept(&l), 1, "the lent key of %zu bytes and its guard bytes", length);
    give_back(&l);
    return answer;
}

static uint64_t theirs(const BF_KEY *schedule, uint64_t block, int direction)
{
    uint64_t in = htobe64(block), out;
    BF_ecb_encrypt((const uint8_t *)&in, (uint8_t *)&out, schedule, direction);
    return be64toh(out);
}

/* The first three keys of a length are zeros, ones and counting up; the others are random. */
static void make_key(uint8_t *key, size_t length, int which)
{
    if (which > 2)
        random_bytes(key, length);
    else
        for (size_t i = 0; i < length; i++)
            key[i] = which == 0 ? 0 : which == 1 ? 0xFF : (uint8_t)i;
}

/* The first two blocks are all zeros and all ones; the others are random. */
static uint64_t make_block(int which)
{
    return which == 0 ? 0 : which == 1 ? UINT64_MAX : random64();
}

/* One block both ways, and back again, through the C interface. */
static void compare_block(const uint8_t *key, size_t length, const BF_KEY *schedule, uint64_t block)
{
    lambukir_block to = ours(lambukir_encipher_block, key, length, block);
    lambukir_block from = ours(lambukir_decipher_block, key, length, block);
    lambukir_block back = ours(lambukir_decipher_block, key, length, to.block);
    same(to.number, 0, "number of encipher, key of %zu bytes", length);
    same(from.number, 0, "number of decipher, key of %zu bytes", length);
    same(to.block, theirs(schedule, block, BF_ENCRYPT), "encipher %016" PRIX64 ", key of %zu bytes", block, length);
    same(from.block, theirs(schedule, block, BF_DECRYPT), "decipher %016" PRIX64 ", key of %zu bytes", block, length);
    same(back.block, block, "encipher and decipher %016" PRIX64 ", key of %zu bytes", block, length);
}

static void lengths(void)
{
    uint8_t key[LONGEST];
    BF_KEY schedule;
    for (size_t length = SHORTEST; length <= LONGEST; length++)
        for (int which = 0; which < 20; which++) {
            make_key(key, length, which);
            BF_set_key(&schedule, (int)length, key);
            for (int block = 0; block < 4; block++)
                compare_block(key, length, &schedule, make_block(block));
        }
}

static void random_keys(void)
{
    uint8_t key[LONGEST];
    BF_KEY schedule;
    for (int i = 0; i < 20000; i++) {
        size_t length = SHORTEST + random_below(LONGEST - SHORTEST + 1);
        random_bytes(key, length);
        BF_set_key(&schedule, (int)length, key);
        compare_block(key, length, &schedule, random64());
    }
}

/* A key of a wrong length gives the number and no block. */
static void compare_refused(lambukir_block answer, size_t length)
{
    same(answer.number, REFUSED, "number, key of %zu bytes", length);
    same(answer.block, 0, "block, key of %zu bytes", length);
}

/* And no word of a schedule. */
static void compare_refused_schedule(const uint8_t *key, size_t length)
{
    static uint32_t before[SCHEDULE_WORDS];
    random_bytes((uint8_t *)before, sizeof before);
    lent words = lend(before, sizeof before, 0);
    same(probe_key_schedule(key, length, (uint32_t *)words.bytes), REFUSED, "number of the schedule, key of %zu bytes", length);
    same(all_kept(&words), 1, "the lent words and their guard bytes, key of %zu bytes", length);
    give_back(&words);
}

static void compare_refusal(size_t length)
{
    static uint8_t key[1048577];
    random_bytes(key, length);
    compare_refused(ours(lambukir_encipher_block, key, length, random64()), length);
    compare_refused(ours(lambukir_decipher_block, key, length, random64()), length);
    lent l = lend(key, length, random_below(16));
    compare_refused_schedule(l.bytes, length);
    same(all_kept(&l), 1, "the lent key of %zu bytes and its guard bytes", length);
    give_back(&l);
}

/* Longer than 32 bits can count, by a length that they would take for a good one. Its pages cannot be written. */
static void compare_huge_refusal(size_t length)
{
    void *key = mmap(NULL, length, PROT_READ, MAP_PRIVATE | MAP_ANONYMOUS | MAP_NORESERVE, -1, 0);
    same(key != MAP_FAILED, 1, "a map of %zu bytes", length);
    if (key == MAP_FAILED)
        return;
    compare_refused(lambukir_encipher_block(key, length, random64()), length);
    compare_refused(lambukir_decipher_block(key, length, random64()), length);
    compare_refused_schedule(key, length);
    munmap(key, length);
}

static void refusals(void)
{
    static const size_t longer[] = {1000, 4096, 65536 + SHORTEST, 1048577};
    for (size_t length = 0; length < SHORTEST; length++)
        compare_refusal(length);
    for (size_t length = LONGEST + 1; length <= 600; length++)
        compare_refusal(length);
    for (size_t i = 0; i < sizeof longer / sizeof *longer; i++)
        compare_refusal(longer[i]);
    compare_huge_refusal(((size_t)1 << 32) + SHORTEST);
    compare_huge_refusal(((size_t)1 << 32) + LONGEST);
}

static uint64_t with_words(uint64_t (*call)(const uint32_t *, uint64_t), const uint32_t words[SCHEDULE_WORDS], uint64_t block)
{
    lent l = lend(words, sizeof(uint32_t[SCHEDULE_WORDS]), 0);
    uint64_t answer = call((const uint32_t *)l.bytes, block);
    same(all_kept(&l), 1, "the lent words and their guard bytes");
    give_back(&l);
    return answer;
}

/* The leaf functions on any words, which OpenSSL's schedule has too. */
static void compare_words(const uint32_t words[SCHEDULE_WORDS], const BF_KEY *schedule, uint64_t block)
{
    uint64_t to = with_words(probe_encipher, words, block), from = with_words(probe_decipher, words, block);
    BF_LONG up[2] = {(BF_LONG)(block >> 32), (BF_LONG)block}, down[2] = {up[0], up[1]};
    BF_encrypt(up, schedule);
    BF_decrypt(down, schedule);
    same(to, (uint64_t)up[0] << 32 | up[1], "encipher %016" PRIX64 " with words", block);
    same(from, (uint64_t)down[0] << 32 | down[1], "decipher %016" PRIX64 " with words", block);
    same(with_words(probe_decipher, words, to), block, "encipher and decipher %016" PRIX64 " with words", block);
}

static void compare_schedule(const uint8_t *key, size_t length)
{
    static const uint32_t zeros[SCHEDULE_WORDS];
    BF_KEY schedule;
    BF_set_key(&schedule, (int)length, key);
    lent l = lend(key, length, random_below(16)), words = lend(zeros, sizeof zeros, 0);
    same(probe_key_schedule(l.bytes, length, (uint32_t *)words.bytes), 0, "number of the schedule, key of %zu bytes", length);
    same(all_kept(&l), 1, "the lent key of %zu bytes and its guard bytes", length);
    same(zones_kept(&words), 1, "the guard bytes of the words, key of %zu bytes", length);
    const uint32_t *w = (const uint32_t *)words.bytes;
    for (size_t i = 0; i < SCHEDULE_WORDS; i++)
        same(w[i], i < 18 ? schedule.P[i] : schedule.S[i - 18], "word %zu of the schedule, key of %zu bytes", i, length);
    compare_words(w, &schedule, random64());
    give_back(&l);
    give_back(&words);
}

static void schedules(void)
{
    uint8_t key[LONGEST];
    for (size_t length = SHORTEST; length <= LONGEST; length++)
        for (int which = 0; which < 20; which++) {
            make_key(key, length, which);
            compare_schedule(key, length);
        }
}

static void tables(void)
{
    uint32_t words[SCHEDULE_WORDS];
    BF_KEY schedule;
    for (int i = 0; i < 10000; i++) {
        random_bytes((uint8_t *)words, sizeof words);
        memcpy(schedule.P, words, sizeof schedule.P);
        memcpy(schedule.S, words + 18, sizeof schedule.S);
        compare_words(words, &schedule, make_block(i % 4));
    }
}

int main(int argc, char **argv)
{
    static const subject subjects[] = {
        {"blowfish-lengths", lengths},
        {"blowfish-random", random_keys},
        {"blowfish-refusals", refusals},
        {"blowfish-schedules", schedules},
        {"blowfish-tables", tables},
    };
    seed_random();
    return run_subjects(subjects, sizeof subjects / sizeof *subjects, argc, argv);
}
