#ifndef AGREE_H
#define AGREE_H

#include <stddef.h>
#include <stdint.h>

/* Four lent slices and their lengths in words. */
typedef struct {
    uint32_t *cells, *remember, *tables, *chains;
    size_t cells_words, remember_words, tables_words, chains_words;
} Lent;

/* Whether two heaps hold the same words. If not, the first word that differs is told on standard error. The left one must be whole; words past
 * the lengths for its sizes are not looked at. */
int agree(const Lent *left, const Lent *right);

#endif
