/* The proved part behind a pipe, for the differential test: a request on standard input, its answer on standard output, until the input ends.
   Behind a pipe the test runs on any processor, whichever the library is compiled for.

   Request: call (1 message, 2 admit, 3 release, 4 copy, 5 read, 6 carry_over), a number of two octets and one of one, the number of slices, and each
   slice: its length in four octets, its octets. Answer: the outcome, the count or length in eight octets, reason and octet in one each, and every
   slice's octets. Numbers are least significant octet first.

   Each slice is lent between guards; an outcome of 255 says that one was written. With an argument there is no guard, and each slice is memory of its
   own and of its exact length, so that valgrind sees an octet too far. */
#include <stdio.h>
#include <stdlib.h>
#include <string.h>

#include "gneissfold.h"

/* STALE stands in the count or length before a call, and STALE_OCTET in reason and octet; a call that has them writes them whatever the outcome. */
enum { MARK = 0xA5, HEAD = 5, TOLD = 11, MOST = 8, WRITTEN = 255, STALE = 0xBADC0DE, STALE_OCTET = 0xEE };

static size_t guard = 32;
static uint8_t *memory[MOST];
static uint8_t *slice[MOST];
static size_t length[MOST];

static int take(uint8_t *to, size_t n)
{
    return fread(to, 1, n, stdin) == n;
}

static void give(const uint8_t *from, size_t n)
{
    fwrite(from, 1, n, stdout);
}

/* Lends the request's slices. */
static int lend(size_t count)
{
    if (count > MOST)
        return 0;
    for (size_t i = 0; i < count; i++) {
        uint8_t n[4];
        if (!take(n, 4))
            return 0;
        length[i] = n[0] | (size_t)n[1] << 8 | (size_t)n[2] << 16 | (size_t)n[3] << 24;
        memory[i] = malloc(length[i] + 2 * guard);
        if (memory[i] == NULL)
            return 0;
        memset(memory[i], MARK, length[i] + 2 * guard);
        slice[i] = memory[i] + guard;
        if (!take(slice[i], length[i]))
            return 0;
    }
    return 1;
}

static int guarded(size_t count)
{
    for (size_t i = 0; i < count; i++)
        for (size_t j = 0; j < guard; j++)
            if (memory[i][j] != MARK || slice[i][length[i] + j] != MARK)
                return 0;
    return 1;
}

static uint8_t call(uint8_t which, uint16_t number, uint8_t small, size_t *count, uint8_t *reason, uint8_t *octet)
{
    uint8_t **s = slice;
    size_t *n = length;
    switch (which) {
    case 1:
        return gneissfold_message(s[0], n[0], s[1], n[1], s[2], n[2], s[3], n[3], s[4], n[4], s[5], n[5], s[6], n[6], s[7], n[7], count, reason,
                                  octet);
    case 2:
        return gneissfold_admit(s[0], n[0], s[1], n[1], s[2], n[2], s[3], n[3], s[4], n[4], number, small, s[5]);
    case 3:
        return gneissfold_release(s[0], n[0], s[1], n[1], s[2], n[2], s[3], n[3], s[4], n[4], number);
    case 4:
        return gneissfold_copy(s[0], n[0], s[1], n[1], number, small, count);
    case 5:
        return gneissfold_read(s[0], n[0], (uint16_t *)(void *)s[1]);
    default:
        return gneissfold_carry_over(s[0], n[0], s[1], n[1]);
    }
}

int main(int words, char **word)
{
    uint8_t head[HEAD];
    (void)word;
    if (words > 1)
        guard = 0;
    while (take(head, HEAD)) {
        uint8_t told[TOLD];
        size_t count = STALE;
        uint8_t reason = STALE_OCTET, octet = STALE_OCTET;
        if (!lend(head[4]))
            return 1;
        told[0] = call(head[0], (uint16_t)(head[1] | head[2] << 8), head[3], &count, &reason, &octet);
        if (!guarded(head[4]))
            told[0] = WRITTEN;
        for (size_t i = 0; i < 8; i++)
            told[1 + i] = (uint8_t)(count >> (8 * i));
        told[9] = reason;
        told[10] = octet;
        give(told, TOLD);
        for (size_t i = 0; i < head[4]; i++) {
            give(slice[i], length[i]);
            free(memory[i]);
        }
        if (fflush(stdout) != 0)
            return 1;
    }
    return 0;
}
