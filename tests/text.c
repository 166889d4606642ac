/* Characters against the alphabets written out, big-endian numbers against the C library's, padding against OpenSSL's. */
#define _DEFAULT_SOURCE
#include <endian.h>
#include <openssl/evp.h>

#include "compare.h"
#include "guard.h"
#include "probe.h"
#include "random.h"

static const char digits[] = "0123456789";
static const char hex[] = "0123456789ABCDEF";
static const char small_hex[] = "0123456789abcdef";
static const char small[] = "abcdefghijklmnopqrstuvwxyz", capitals[] = "ABCDEFGHIJKLMNOPQRSTUVWXYZ";
static const char name_characters[] = "ABCDEFGHIJKLMNOPQRSTUVWXYZ0123456789";

/* The place of a byte in an alphabet; the alphabet's length where it is not in it. */
static uint32_t place_in(const char *alphabet, uint8_t c)
{
    const char *at = memchr(alphabet, c, strlen(alphabet));
    return (uint32_t)(at ? at - alphabet : (ptrdiff_t)strlen(alphabet));
}

static void characters(void)
{
    for (int i = 0; i < 256; i++) {
        uint8_t c = (uint8_t)i;
        same(probe_is_digit(c), place_in(digits, c) < 10, "%d is a digit", i);
        same(probe_is_upper_hex(c), place_in(hex, c) < 16, "%d is a hex character in capitals", i);
        same(probe_raised(c), place_in(small, c) < 26 ? (uint8_t)capitals[place_in(small, c)] : c, "%d raised", i);
        same(probe_is_name_character(c), place_in(name_characters, c) < 36, "%d is a name's character", i);
        same(probe_digit_value(c), place_in(digits, c), "the digit's value of %d", i);
        same(probe_hex_value(c), place_in(place_in(hex, c) < 16 ? hex : small_hex, c), "the hex value of %d", i);
        same(probe_digit_character(c), (uint8_t)digits[c % 10], "the digit of %d", i);
        same(probe_hex_character(c), (uint8_t)hex[c % 16], "the hex character of %d", i);
    }
}

typedef uint64_t reader(const uint8_t *s, size_t length, size_t at);

static const struct {
    size_t bytes;
    reader *read;
} readers[] = {{2, probe_number16}, {4, probe_number32}, {5, probe_number40}, {8, probe_number64}};

/* The number of these bytes, filled up with zeros from the front. */
static uint64_t big_endian(const uint8_t *bytes, size_t count)
{
    uint64_t whole = 0;
    memcpy((uint8_t *)&whole + 8 - count, bytes, count);
    return be64toh(whole);
}

static void compare_number(size_t which, const uint8_t *s, size_t length, size_t at)
{
    size_t bytes = readers[which].bytes;
    int within = bytes <= length && at <= length - bytes;
    lent l = lend(s, length, random_below(16));
    same(readers[which].read(l.bytes, length, at), within ? big_endian(s + at, bytes) : 0, "%zu bytes at %zu of %zu", bytes, at, length);
    same(all_kept(&l), 1, "the %zu lent bytes and their guard bytes", length);
    give_back(&l);
}

static void compare_numbers_at(const uint8_t *s, size_t length)
{
    for (size_t which = 0; which < 4; which++) {
        for (size_t at = 0; at <= length + 10; at++)
            compare_number(which, s, length, at);
        for (size_t back = 0; back <= 40; back++) {
            compare_number(which, s, length, SIZE_MAX - back);
            compare_number(which, s, length, ((size_t)1 << 32) + back);
        }
    }
}

/* What was written, zones and all, is the number's lowest bytes. */
static void compare_written(const lent *l, uint64_t x)
{
    uint64_t whole = htobe64(x);
    same(big_endian(l->bytes, l->length), big_endian((uint8_t *)&whole + 8 - l->length, l->length), "%zu bytes of %016" PRIX64, l->length, x);
    same(zones_kept(l), 1, "the guard bytes of %zu written bytes", l->length);
}

static void compare_bytes(uint64_t x)
{
    uint8_t before[8];
    random_bytes(before, sizeof before);
    lent two = lend(before, 2, random_below(16)), four = lend(before, 4, random_below(16));
    lent five = lend(before, 5, random_below(16)), eight = lend(before, 8, random_below(16));
    probe_bytes16((uint16_t)x, two.bytes);
    probe_bytes32((uint32_t)x, four.bytes);
    probe_bytes40(x, five.bytes);
    probe_bytes64(x, eight.bytes);
    compare_written(&two, x);
    compare_written(&four, x);
    compare_written(&five, x);
    compare_written(&eight, x);
    give_back(&two);
    give_back(&four);
    give_back(&five);
    give_back(&eight);
}

static void numbers(void)
{
    uint8_t s[40];
    for (size_t length = 0; length <= sizeof s; length++)
        for (int i = 0; i < 4; i++) {
            random_bytes(s, length);
            compare_numbers_at(s, length);
        }
    for (uint32_t x = 0; x < 65536; x++)
        compare_bytes(x);
    for (int bit = 0; bit < 64; bit++) {
        compare_bytes((uint64_t)1 << bit);
        compare_bytes(UINT64_MAX >> bit);
    }
    for (int i = 0; i < 100000; i++)
        compare_bytes(random64());
}

/* Any cipher of eight-byte blocks: what it does to a block is undone again, so that only its padding is seen. */
static EVP_CIPHER_CTX *context;

/* One block or less through OpenSSL; the length of what comes out, -1 where it refuses. */
static int through(int enciphering, int padding, const uint8_t *in, size_t length, uint8_t out[16])
{
    static const uint8_t key[24] = "the key does not matter";
    int first = 0, last = 0;
    EVP_CipherInit_ex(context, NULL, NULL, key, NULL, enciphering);
    EVP_CIPHER_CTX_set_padding(context, padding);
    if (EVP_CipherUpdate(context, out, &first, in, (int)length) != 1 || EVP_CipherFinal_ex(context, out + first, &last) != 1)
        return -1;
    return first + last;
}

/* The lowest bytes of x, padded by OpenSSL to a block. */
static uint64_t their_pad(uint64_t x, size_t bytes)
{
    uint8_t enciphered[16], block[16];
    uint64_t whole = htobe64(x);
    int there = through(1, 1, (uint8_t *)&whole + 8 - bytes, bytes, enciphered);
    int back = through(0, 0, enciphered, 8, block);
    same(there == 8 && back == 8, 1, "OpenSSL's padding of %zu bytes is a block", bytes);
    return big_endian(block, 8);
}

/* What OpenSSL finds under the padding of a block, where that is so many bytes. */
static probe_unpadded their_unpad(uint64_t block, size_t bytes)
{
    uint8_t enciphered[16], found[16];
    uint64_t whole = htobe64(block);
    int there = through(1, 0, (uint8_t *)&whole, 8, enciphered);
    int back = through(0, 1, enciphered, 8, found);
    same((uint64_t)there, 8, "OpenSSL's block of %016" PRIX64, block);
    return back == (int)bytes ? (probe_unpadded){big_endian(found, bytes), 1} : (probe_unpadded){0, 0};
}

static void compare_unpad(uint64_t block)
{
    probe_unpadded four = probe_unpad32(block), five = probe_unpad40(block);
    probe_unpadded their_four = their_unpad(block, 4), their_five = their_unpad(block, 5);
    same(four.right, their_four.right, "whether %016" PRIX64 " is four bytes, padded", block);
    same(four.value, their_four.value, "the four bytes of %016" PRIX64, block);
    same(five.right, their_five.right, "whether %016" PRIX64 " is five bytes, padded", block);
    same(five.value, their_five.value, "the five bytes of %016" PRIX64, block);
}

/* A padded block as it is, and with each of its bytes in turn set to a value. */
static void compare_spoilt(uint64_t block, uint8_t value)
{
    compare_unpad(block);
    for (int byte = 0; byte < 8; byte++)
        compare_unpad((block & ~((uint64_t)0xFF << 8 * byte)) | (uint64_t)value << 8 * byte);
}

static void compare_padding(uint64_t x, uint8_t value)
{
    uint64_t four = their_pad(x, 4), five = their_pad(x, 5);
    same(probe_pad32((uint32_t)x), four, "four bytes of %016" PRIX64 " padded", x);
    same(probe_pad40(x), five, "five bytes of %016" PRIX64 " padded", x);
    compare_spoilt(four, value);
    compare_spoilt(five, value);
}

static void padding(void)
{
    context = EVP_CIPHER_CTX_new();
    same(context && EVP_CipherInit_ex(context, EVP_des_ede3_ecb(), NULL, NULL, NULL, 1) == 1, 1, "OpenSSL's cipher");
    for (int value = 0; value < 256; value++) {
        compare_padding(0, (uint8_t)value);
        compare_padding(UINT64_MAX, (uint8_t)value);
        compare_padding(random64(), (uint8_t)value);
        compare_unpad((uint64_t)value * 0x0101010101010101);
    }
    for (int i = 0; i < 10000; i++) {
        compare_padding(random64(), (uint8_t)random_below(10));
        compare_unpad(random64());
    }
}

int main(int argc, char **argv)
{
    static const subject subjects[] = {
        {"text-characters", characters},
        {"text-numbers", numbers},
        {"text-padding", padding},
    };
    seed_random();
    return run_subjects(subjects, sizeof subjects / sizeof *subjects, argc, argv);
}
