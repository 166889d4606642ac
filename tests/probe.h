/* The parts that Lambukir's C interface does not show, for tests/ and bench/ alone (crates/probe, libprobe.a).
   A slice is a pointer and then its length; 1 is true and 0 false. */
#ifndef PROBE_H
#define PROBE_H

#include <stdbool.h>
#include <stddef.h>
#include <stdint.h>

/* Blowfish: the words of a schedule are P, 18 of them, and then S1 to S4, 256 each. */
#define SCHEDULE_WORDS 1042
uint32_t probe_key_schedule(const uint8_t *key, size_t key_length, uint32_t words[SCHEDULE_WORDS]); /* 0, or 103 and no word written */
uint64_t probe_encipher(const uint32_t words[SCHEDULE_WORDS], uint64_t block);
uint64_t probe_decipher(const uint32_t words[SCHEDULE_WORDS], uint64_t block);

/* Dates, as numbers YYYYMMDD. */
typedef struct {
    uint32_t passed, days; /* passed 1: the date passed so many days ago; 0: so many are left */
} probe_days_left_t;
bool probe_is_date(uint32_t date);
uint32_t probe_day_number(uint32_t date); /* 0 for a number that is no date */
probe_days_left_t probe_days_left(uint32_t today, uint32_t expiry);
uint32_t probe_notice(uint32_t level, uint32_t today, uint32_t expiry, uint32_t days); /* 0 current, 15 expired, 20 soon */

/* Characters. */
bool probe_is_digit(uint8_t c);
bool probe_is_upper_hex(uint8_t c); /* 0-9 A-F */
bool probe_is_name_character(uint8_t c);
uint32_t probe_digit_value(uint8_t c); /* 10 for no digit */
uint32_t probe_digit_character(uint8_t v); /* of v % 10 */
uint32_t probe_raised(uint8_t c); /* a-z as A-Z */
uint32_t probe_hex_value(uint8_t c); /* in either case; 16 for no hex character */
uint32_t probe_hex_character(uint8_t v); /* of v % 16, upper case */

/* Big-endian numbers of 16, 32, 40 and 64 bits at a place of a slice; 0 where one does not lie within it. */
uint64_t probe_number16(const uint8_t *s, size_t length, size_t at);
uint64_t probe_number32(const uint8_t *s, size_t length, size_t at);
uint64_t probe_number40(const uint8_t *s, size_t length, size_t at);
uint64_t probe_number64(const uint8_t *s, size_t length, size_t at);

/* The lowest bytes of a number, big-endian. */
void probe_bytes16(uint16_t x, uint8_t out[2]);
void probe_bytes32(uint32_t x, uint8_t out[4]);
void probe_bytes40(uint64_t x, uint8_t out[5]);
void probe_bytes64(uint64_t x, uint8_t out[8]);

/* The lowest four or five bytes of a number padded to a block, and back. */
typedef struct {
    uint64_t value;
    uint32_t right; /* 0: the padding is wrong, and the value 0 */
} probe_unpadded;
uint64_t probe_pad32(uint32_t x);
uint64_t probe_pad40(uint64_t x);
probe_unpadded probe_unpad32(uint64_t block);
probe_unpadded probe_unpad40(uint64_t block);

#endif
