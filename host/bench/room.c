/* The ones of a map below a number of blocks, as one would count them in C: the proved count is timed beside it. */
#include <stddef.h>
#include <stdint.h>

uint32_t map_ones(const uint8_t *map, size_t blocks);

/* A big-endian word. */
static uint32_t word(const uint8_t *at)
{
    return (uint32_t)at[0] << 24 | (uint32_t)at[1] << 16 | (uint32_t)at[2] << 8 | at[3];
}

uint32_t map_ones(const uint8_t *map, size_t blocks)
{
    size_t whole = blocks / 32, cut = blocks % 32;
    uint32_t ones = 0;

    for (size_t k = 0; k < whole; k++)
        ones += (uint32_t)__builtin_popcount(word(map + 4 * k));
    if (cut != 0)
        ones += (uint32_t)__builtin_popcount(word(map + 4 * whole) & ((1u << cut) - 1));
    return ones;
}
