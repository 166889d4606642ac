/* The product list by hand, for the benchmark: the call of lambukir.h in plain C, with the same arguments and answer. */
#ifndef PRODUCTS_H
#define PRODUCTS_H

#include "lambukir.h"

lambukir_standing plain_product_standing(const uint8_t *list, size_t list_length, uint64_t name, uint32_t edition, uint32_t update);

#endif
