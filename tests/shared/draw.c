#include "draw.h"

static uint64_t state;

void start_drawing(uint64_t seed)
{
    state = seed;
}

/* Vigna's splitmix64 goes through its sequence in steps of this, and mixes each step. */
#define STEP UINT64_C(0x9E3779B97F4A7C15)

static uint64_t mixed(uint64_t z)
{
    z = (z ^ z >> 30) * UINT64_C(0xBF58476D1CE4E5B9);
    z = (z ^ z >> 27) * UINT64_C(0x94D049BB133111EB);
    return z ^ z >> 31;
}

uint64_t seed_of_case(uint64_t seed, uint64_t n)
{
    return mixed(seed + STEP * (n + 1));
}

uint32_t draw(void)
{
    state += STEP;
    return (uint32_t)(mixed(state) >> 32);
}

uint32_t draw_below(uint32_t bound)
{
    return (uint32_t)((uint64_t)draw() * bound >> 32);
}

uint32_t draw_from(uint32_t low, uint32_t high)
{
    return low + draw_below(high - low + 1);
}

bool draw_once_in(uint32_t times)
{
    return draw_below(times) == 0;
}

void fill_drawn(uint8_t *bytes, size_t length)
{
    uint32_t drawn = 0;
    for (size_t n = 0; n < length; n++) {
        drawn = n % 4 == 0 ? draw() : drawn >> 8;
        bytes[n] = (uint8_t)drawn;
    }
}
