/* Memory to lend: a run that stands between bytes that nobody lent, all of them full of a pattern, so that every byte
   written shows. */
#ifndef LENT_H
#define LENT_H

#include <stdbool.h>
#include <stddef.h>
#include <stdint.h>

/* So many bytes lie before and behind each run. */
enum { AROUND = 64 };

/* The pattern's byte of this number, from the first of the bytes before the run on. */
uint8_t pattern_byte(size_t n);

/* A run of this length with the bytes around it, for `free`. The run starts at AROUND. */
uint8_t *patterned_block(size_t length);

void put_pattern(uint8_t *block, size_t first, size_t past_last);
bool has_pattern(const uint8_t *block, size_t first, size_t past_last);

/* Whether the bytes around the run are as they were. */
bool is_kept_around(const uint8_t *block, size_t length);

#endif
