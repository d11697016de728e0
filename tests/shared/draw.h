/* Numbers that look random and are the same in every run. */
#ifndef DRAW_H
#define DRAW_H

#include <stdbool.h>
#include <stddef.h>
#include <stdint.h>

/* The seed of case n of a run that has this seed. */
uint64_t seed_of_case(uint64_t seed, uint64_t n);

/* Starts the sequence of this seed. */
void start_drawing(uint64_t seed);

uint32_t draw(void);

/* One of 0 to bound - 1; `bound` is not 0. */
uint32_t draw_below(uint32_t bound);

/* One of low to high. */
uint32_t draw_from(uint32_t low, uint32_t high);

/* True once in so many times. */
bool draw_once_in(uint32_t times);

void fill_drawn(uint8_t *bytes, size_t length);

#endif
