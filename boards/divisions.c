/*
 * Counts the divisions and multiplications of reading: divisions DOTS PIECE reads standard input in pieces and prints bytes,
 * divisions and multiplications. It is for a library compiled for a board that has neither, where both become calls: here they
 * call what counts them, in place of the compiler's own.
 */
#include "escp.h"
#include <stdio.h>
#include <stdlib.h>

static unsigned long divisions, multiplications;

/* The quotient, and the remainder, bit by bit: shifts, differences and comparisons alone, so that nothing is counted twice. */
static uint64_t divided(uint64_t number, uint64_t by, uint64_t *rest)
{
    uint64_t quotient = 0;
    *rest = 0;
    for (int bit = 63; bit >= 0; bit--) {
        *rest = *rest << 1 | (number >> bit & 1);
        if (*rest >= by) {
            *rest -= by;
            quotient |= (uint64_t)1 << bit;
        }
    }
    return quotient;
}

uint64_t __udivdi3(uint64_t number, uint64_t by)
{
    uint64_t rest;
    divisions++;
    return divided(number, by, &rest);
}

uint64_t __umoddi3(uint64_t number, uint64_t by)
{
    uint64_t rest;
    divisions++;
    divided(number, by, &rest);
    return rest;
}

uint64_t __muldi3(uint64_t one, uint64_t other)
{
    uint64_t product = 0;
    multiplications++;
    for (; other != 0; other >>= 1, one <<= 1)
        if (other & 1)
            product += one;
    return product;
}

enum { MOST = 4096 };

int main(int count, char **words)
{
    static uint8_t piece[MOST], out[ESCP_ROOM * MOST];
    escp_settings settings = {0, 0, 28800};
    escp_state state;
    escp_counts counts;
    size_t most, length;
    unsigned long bytes = 0;
    settings.resolution = count == 3 ? (uint32_t)atoi(words[1]) : 0;
    most = count == 3 ? (size_t)atoi(words[2]) : 0;
    if (escp_start(&state, &settings) != 0 || most < 1 || most > MOST) {
        fprintf(stderr, "divisions: takes 300 or 203 dots, a piece of 1 to 4096 bytes, and an input on standard input\n");
        return 2;
    }
    divisions = multiplications = 0;
    while ((length = fread(piece, 1, most, stdin)) > 0) {
        if (escp_read(&state, piece, length, SIZE_MAX, out, sizeof out, &counts) != 0) {
            fprintf(stderr, "divisions: a piece was not read to its end\n");
            return 1;
        }
        bytes += length;
    }
    if (bytes == 0 || ferror(stdin)) {
        fprintf(stderr, "divisions: no input, or reading failed\n");
        return 1;
    }
    printf("%lu %lu %lu\n", bytes, divisions, multiplications);
    return 0;
}
