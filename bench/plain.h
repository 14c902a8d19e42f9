/* The hand-written heap that ours is measured against: the same calls as taldreku_prepare and taldreku_run, on the same four slices, with
 * the same answers, but no proof and no check of the tables. */
#ifndef PLAIN_H
#define PLAIN_H

#include <stddef.h>
#include <stdint.h>

uint32_t plain_prepare(uint32_t threads, uint32_t variables, uint32_t depth, uint32_t pages, uint32_t entries,
                       uint32_t *cells, size_t cells_words, uint32_t *remember, size_t remember_words,
                       uint32_t *tables, size_t tables_words, uint32_t *chains, size_t chains_words);

uint32_t plain_run(uint32_t *cells, size_t cells_words, uint32_t *remember, size_t remember_words,
                   uint32_t *tables, size_t tables_words, uint32_t *chains, size_t chains_words,
                   const uint32_t *block, size_t block_words, uint32_t *answers, size_t answers_words);

/* The check that plain_run leaves out, written by hand too: 3 if the tables are not whole, 16 if the chains are short or others, else 0. */
uint32_t plain_check(const uint32_t *cells, size_t cells_words, const uint32_t *remember, size_t remember_words,
                     const uint32_t *tables, size_t tables_words, const uint32_t *chains, size_t chains_words);

#endif
