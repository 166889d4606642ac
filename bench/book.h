/* The book by hand, for the benchmark: the calls of lambukir.h in plain C on the bytes themselves, with the same arguments and answers. */
#ifndef BOOK_H
#define BOOK_H

#include "lambukir.h"

#define TENANTS 16
#define MOST_RECORDS 512

uint32_t plain_open_book(uint8_t *book, size_t book_length, const uint16_t *quotas, size_t quotas_length, const uint8_t *ids, size_t ids_length,
                         const uint8_t *principals, size_t principals_length);
uint32_t plain_carry_over(const uint8_t *book, size_t book_length, uint8_t *new_book, size_t new_book_length);
uint32_t plain_enter(uint8_t *book, size_t book_length, uint32_t tenant, uint64_t name, uint32_t edition, uint64_t key_one, uint64_t key_two,
                     uint32_t last_expiry);
uint32_t plain_withdraw(uint8_t *book, size_t book_length, uint32_t tenant, uint64_t name);
lambukir_moved plain_house_enter(uint8_t *book, size_t book_length, uint32_t tenant, uint64_t name, uint32_t edition, uint64_t key_one, uint64_t key_two,
                                 uint32_t last_expiry);
lambukir_moved plain_house_withdraw(uint8_t *book, size_t book_length, uint32_t tenant, uint64_t name);
uint32_t plain_set_days(uint8_t *book, size_t book_length, uint32_t tenant, uint32_t days);
lambukir_edition plain_ask_edition(const uint8_t *book, size_t book_length, uint32_t tenant, uint64_t name);
lambukir_held plain_ask_producer(const uint8_t *book, size_t book_length, uint32_t tenant, uint32_t producer);
lambukir_written plain_issue(const uint8_t *book, size_t book_length, const uint8_t *reg, size_t reg_length, uint32_t tenant, uint64_t name, uint32_t expiry,
                             uint32_t level, const uint8_t *permit, size_t permit_length, uint8_t *out, size_t out_length);
lambukir_line plain_check(const uint8_t *book, size_t book_length, uint32_t tenant, uint64_t hw_id, uint32_t today, const uint8_t *line, size_t line_length);

#endif
