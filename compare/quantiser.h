/* A second table making, from RFC 2435 section 4.2: K.1 as RFC 2435 prints it and K.2 as document 01 gives it, both by
 * rows, and T.81's zigzag order by walking the diagonals. */
#ifndef QUANTISER_H
#define QUANTISER_H

#include "../include/ljosvark.h"

static const int k1[8][8] = {
    {16, 11, 10, 16, 24, 40, 51, 61},   {12, 12, 14, 19, 26, 58, 60, 55},
    {14, 13, 16, 24, 40, 57, 69, 56},   {14, 17, 22, 29, 51, 87, 80, 62},
    {18, 22, 37, 56, 68, 109, 103, 77}, {24, 35, 55, 64, 81, 104, 113, 92},
    {49, 64, 78, 87, 103, 121, 120, 101}, {72, 92, 95, 98, 112, 100, 103, 99},
};
static const int k2[8][8] = {
    {17, 18, 24, 47, 99, 99, 99, 99}, {18, 21, 26, 66, 99, 99, 99, 99},
    {24, 26, 56, 99, 99, 99, 99, 99}, {47, 66, 99, 99, 99, 99, 99, 99},
    {99, 99, 99, 99, 99, 99, 99, 99}, {99, 99, 99, 99, 99, 99, 99, 99},
    {99, 99, 99, 99, 99, 99, 99, 99}, {99, 99, 99, 99, 99, 99, 99, 99},
};

static inline uint8_t saturated(long v) { return v < 1 ? 1 : v > 255 ? 255 : (uint8_t)v; }

/* One table: from the top left along each diagonal in turn, down the odd ones and up the even ones. */
static inline void scaled(const int table[8][8], long scale, uint8_t *out) {
    for (int diagonal = 0; diagonal < 15; diagonal++)
        for (int step = 0; step <= diagonal; step++) {
            int row = diagonal % 2 ? step : diagonal - step;
            int column = diagonal - row;
            if (row < 8 && column < 8) *out++ = saturated((table[row][column] * scale + 50) / 100);
        }
}

/* The 128 entries for a Q of 1 to 99. */
static inline void tables_made(uint32_t q, uint8_t *out) {
    long scale = q <= 50 ? 5000 / (long)q : 200 - 2 * (long)q;
    scaled(k1, scale, out);
    scaled(k2, scale, out + 64);
}

static inline lj_written second_tables(uint32_t q, uint8_t *out, size_t out_len) {
    if (q < 1 || 99 < q) return (lj_written){34, 0};
    if (out_len < 128) return (lj_written){35, 0};
    tables_made(q, out);
    return (lj_written){0, 128};
}

#endif
