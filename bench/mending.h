/* Mending by hand, for the benchmark: the call of lambukir.h in plain C, with the same arguments and answer. */
#ifndef MENDING_H
#define MENDING_H

#include "lambukir.h"

lambukir_mended plain_mend(const uint8_t *file, size_t file_length, uint8_t *out, size_t out_length, uint8_t *list, size_t list_length);

#endif
