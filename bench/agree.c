/* Two heaps of the same sizes that obeyed the same commands hold the same words: 01 and 02 determine every one. */
#include "agree.h"

#include <inttypes.h>
#include <stdio.h>
#include <string.h>

static int same(const char *name, const uint32_t *left, size_t left_words, const uint32_t *right, size_t right_words, size_t words) {
    if (left_words < words || right_words < words) {
        fprintf(stderr, "%s: %zu words, and lent are %zu and %zu\n", name, words, left_words, right_words);
        return 0;
    }
    if (memcmp(left, right, words * sizeof *left) == 0) return 1;
    size_t i = 0;
    while (left[i] == right[i]) i++;
    fprintf(stderr, "%s, word %zu: %" PRIu32 " and %" PRIu32 "\n", name, i, left[i], right[i]);
    return 0;
}

int agree(const Lent *left, const Lent *right) {
    const uint32_t *t = left->tables;
    size_t threads = t[0], variables = t[1], depth = t[2], pages = t[3], entries = t[4];
    return same("tables", left->tables, left->tables_words, right->tables, right->tables_words, threads * (variables + depth + 1) + 3 * pages + 8) &&
           same("cells", left->cells, left->cells_words, right->cells, right->cells_words, 256 * pages) &&
           same("remember", left->remember, left->remember_words, right->remember, right->remember_words, 2 * entries + 2) &&
           same("chains", left->chains, left->chains_words, right->chains, right->chains_words, 1 + threads * depth + entries);
}
