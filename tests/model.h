/* A plain model of the rules in C, over OpenSSL's Blowfish and zlib's CRC-32. The comparisons hold the library and the look-through
   program against it; the benchmark measures them beside it. */
#ifndef MODEL_H
#define MODEL_H

#include <stdbool.h>

#include "lambukir.h"

/* The calls of lambukir.h, with the same arguments and answers. */
uint32_t model_make_user_permit(const uint8_t *reg, size_t reg_length, uint64_t hw_id, uint32_t m_id, uint8_t *out, size_t out_length);
lambukir_user_permit model_read_user_permit(const uint8_t *reg, size_t reg_length, const uint8_t *permit, size_t permit_length);
lambukir_line model_read_line(uint64_t hw_id, uint32_t today, uint32_t days, const uint8_t *line, size_t line_length);
lambukir_part model_comment(const uint8_t *line, size_t line_length);
lambukir_written model_write_line(uint64_t hw_id, uint64_t name, uint32_t expiry, uint64_t key_one, uint64_t key_two, uint32_t level,
                                  uint32_t edition, uint32_t server, uint8_t *out, size_t out_length);
lambukir_place model_open_file(const uint8_t *file, size_t file_length);
lambukir_file_line model_read_file_line(uint64_t hw_id, uint32_t today, uint32_t days, const uint8_t *file, size_t file_length, size_t place);
lambukir_mended model_mend(const uint8_t *file, size_t file_length, uint8_t *out, size_t out_length, uint8_t *list, size_t list_length);
lambukir_standing model_product_standing(const uint8_t *list, size_t list_length, uint64_t name, uint32_t edition, uint32_t update);
lambukir_written model_encipher_file(uint64_t key, const uint8_t *file, size_t file_length, uint8_t *out, size_t out_length);
lambukir_part_written model_encipher_part(uint64_t key, uint64_t carried, uint32_t carried_length, const uint8_t *part, size_t part_length, uint8_t *out,
                                          size_t out_length);
lambukir_written model_encipher_end(uint64_t key, uint64_t carried, uint32_t carried_length, uint8_t *out, size_t out_length);
lambukir_cell_file model_open_cell_file(const uint8_t *file, size_t file_length, uint64_t key_one, uint64_t key_two, uint32_t crc, uint8_t *out,
                                        size_t out_length);

/* The look-through: what it prints for an input, and how long that is. The key is set up once for the file. */
#define MODEL_INPUT 65536 /* the longest input that is not refused */
#define MODEL_REPORT 600000 /* more than the longest report: 32,739 lines of 18 bytes, and the totals */
size_t model_look_through(const uint8_t *input, size_t length, uint8_t *report);

/* The book as lists: what each tenant holds, in name order. A branch holds nothing itself: it names its principal, by the number plus one. */
#define MODEL_TENANTS 16
typedef struct {
    uint64_t name, key_one, key_two;
    uint32_t edition, last_expiry; /* 0 for none */
} model_cell;
typedef struct {
    uint32_t quota, days, server, principal;
    size_t held;
    model_cell cells[512]; /* the first `held` of them */
} model_tenant;
typedef struct {
    model_tenant tenants[MODEL_TENANTS];
} model_book;

/* A version of the book's bytes: how long a book is and each of its records, and how many of a record's bytes, at its end, are the last expiry. */
typedef struct {
    uint8_t number;
    size_t size, record, last_expiry;
} model_version;
extern const model_version model_version_1, model_version_2;

/* Whether these bytes are an undamaged book of a version; the bytes of the lists, and the lists of an undamaged book. Where the version has no last
   expiries, they are not written, and are read as 0. */
bool model_is_book_of(const model_version *v, const uint8_t *book, size_t length);
void model_bytes_of(const model_version *v, const model_book *b, uint8_t *book);
void model_lists_of(const model_version *v, const uint8_t *book, model_book *b);

/* Of version 2, which is that of every call but the carry-over. */
bool model_is_book(const uint8_t *book, size_t length);
void model_bytes_of_book(const model_book *b, uint8_t book[LAMBUKIR_BOOK_SIZE]);
void model_book_of_bytes(const uint8_t book[LAMBUKIR_BOOK_SIZE], model_book *b);

/* With the same arguments and answers as that of lambukir.h, on bytes. */
uint32_t model_carry_over(const uint8_t *book, size_t book_length, uint8_t *new_book, size_t new_book_length);

/* The calls on lists: no damage there, and no 101 but at opening. */
uint32_t model_open_book(model_book *b, size_t book_length, const uint16_t *quotas, size_t quotas_length, const uint8_t *ids, size_t ids_length,
                         const uint8_t *principals, size_t principals_length);
uint32_t model_enter(model_book *b, uint32_t tenant, uint64_t name, uint32_t edition, uint64_t key_one, uint64_t key_two, uint32_t last_expiry);
uint32_t model_withdraw(model_book *b, uint32_t tenant, uint64_t name);
uint32_t model_set_days(model_book *b, uint32_t tenant, uint32_t days);
lambukir_edition model_ask_edition(const model_book *b, uint32_t tenant, uint64_t name);
lambukir_held model_ask_producer(const model_book *b, uint32_t tenant, uint32_t producer);
lambukir_written model_issue(const model_book *b, const uint8_t *reg, size_t reg_length, uint32_t tenant, uint64_t name, uint32_t expiry,
                             uint32_t level, const uint8_t *permit, size_t permit_length, uint8_t *out, size_t out_length);
lambukir_moved model_house_enter(model_book *b, uint32_t tenant, uint64_t name, uint32_t edition, uint64_t key_one, uint64_t key_two, uint32_t last_expiry);
lambukir_moved model_house_withdraw(model_book *b, uint32_t tenant, uint64_t name);
lambukir_line model_check(const model_book *b, uint32_t tenant, uint64_t hw_id, uint32_t today, const uint8_t *line, size_t line_length);

/* Permits with a right CRC over blocks of any kind, to make those that are refused for what is in a block. */
void model_user_permit_of(const uint8_t *m_key, uint64_t block, uint32_t m_id, uint8_t out[28]);
void model_cell_permit_of(uint64_t hw_id, uint64_t name, uint32_t expiry, uint64_t block_one, uint64_t block_two, uint8_t out[64]);

#endif
