/* Elimination by M4RI, as `bench` calls it. A check is a row of eight words, of which the first two are in use. */

#include <m4ri/m4ri.h>
#include <stdint.h>
#include <stdlib.h>

struct matrices {
    size_t n, m;
    int way; /* 0: what it chooses itself, 1: by the Four Russians, 2: by Gauss */
    mzd_t *given; /* m x n */
    mzd_t *known; /* m x (n + 1): the last column is what the known bits of a check come to */
};

void *shim_m4ri_new(size_t n, size_t m, int way) {
    struct matrices *all = malloc(sizeof *all);
    all->n = n;
    all->m = m;
    all->way = way;
    all->given = mzd_init(m, n);
    all->known = mzd_init(m, n + 1);
    return all;
}

static void fill(mzd_t *a, const uint64_t *words, size_t m) {
    for (size_t c = 0; c < m; c++)
        for (wi_t w = 0; w < a->width; w++)
            a->rows[c][w] = words[8 * c + w];
}

static int odd(const word *row, const uint64_t *ones, wi_t width) {
    uint64_t sum = 0;
    for (wi_t w = 0; w < width; w++)
        sum ^= row[w] & ones[w];
    return __builtin_parityll(sum);
}

static size_t lowest(const word *row) {
    return row[0] != 0 ? __builtin_ctzll(row[0]) : 64 + __builtin_ctzll(row[1]);
}

static size_t reduce(int way, mzd_t *a, int full) {
    if (way == 0)
        return mzd_echelonize(a, full);
    return way == 1 ? mzd_echelonize_m4ri(a, full, 0) : mzd_echelonize_naive(a, full);
}

size_t shim_m4ri_rank(struct matrices *all, const uint64_t *words) {
    fill(all->given, words, all->m);
    return reduce(all->way, all->given, 0);
}

/* The message in the bits that are no pivots, from left to right, and each pivot by its row. */
void shim_m4ri_encode(struct matrices *all, const uint64_t *words, const uint8_t *message, uint8_t *sent) {
    mzd_t *a = all->given;
    fill(a, words, all->m);
    size_t rank = reduce(all->way, a, 1);
    uint64_t parity[2] = {0, 0}, ones[2] = {0, 0};
    for (size_t i = 0; i < rank; i++) {
        size_t p = lowest(a->rows[i]);
        parity[p / 64] |= (uint64_t)1 << (p % 64);
    }
    for (size_t b = 0; b < all->n; b++)
        if ((parity[b / 64] >> (b % 64) & 1) == 0)
            ones[b / 64] |= (uint64_t)(sent[b] = *message++) << (b % 64);
    for (size_t i = 0; i < rank; i++)
        sent[lowest(a->rows[i])] = odd(a->rows[i], ones, a->width);
}

/* All that the checks determine of the erased bits, without peeling first. Returns 12, with the word as it was, if no codeword agrees. */
uint32_t shim_m4ri_determine(struct matrices *all, const uint64_t *words, uint8_t *received) {
    mzd_t *a = all->known;
    uint64_t erased[2] = {0, 0}, ones[2] = {0, 0};
    for (size_t b = 0; b < all->n; b++) {
        erased[b / 64] |= (uint64_t)(received[b] == 2) << (b % 64);
        ones[b / 64] |= (uint64_t)(received[b] == 1) << (b % 64);
    }
    size_t last = all->n;
    for (size_t c = 0; c < all->m; c++) {
        uint64_t sum = (uint64_t)__builtin_parityll((words[8 * c] & ones[0]) ^ (words[8 * c + 1] & ones[1]));
        for (wi_t w = 0; w < a->width; w++)
            a->rows[c][w] = words[8 * c + w] & erased[w];
        a->rows[c][last / 64] |= sum << (last % 64);
    }
    size_t rank = reduce(all->way, a, 1);
    if (rank > 0 && lowest(a->rows[rank - 1]) == last)
        return 12;
    for (size_t i = 0; i < rank; i++) {
        int count = 0;
        for (wi_t w = 0; w < a->width; w++)
            count += __builtin_popcountll(a->rows[i][w] & erased[w]);
        if (count == 1)
            received[lowest(a->rows[i])] = a->rows[i][last / 64] >> (last % 64) & 1;
    }
    return 0;
}
