/* The check of the tables by hand, for the rows that measure ours alone: a pass over the pages, one over the cells, one over the remember
 * table, and one over it and the chains. */
#include "plain.h"

#include <string.h>

typedef struct {
    uint32_t threads, variables, depth, pages, entries;
    const uint32_t *cells, *depths, *vars, *owners, *used, *marks, *counts, *slots, *slot_regions;
} Lent;

/* x is null or names a cell in use. */
static int is_reference(const Lent *l, uint32_t x) {
    return x == 0 || ((x - 1) / 16 < l->pages && (x - 1) % 16 < l->used[(x - 1) / 16]);
}

static uint32_t crosses(const Lent *l, uint32_t from, uint32_t x) {
    if (x == 0) return 0;
    uint32_t to = l->owners[(x - 1) / 16];
    return to == 1 || to == from ? 0 : to;
}

static int pages_whole(const Lent *l) {
    uint32_t regions = 1 + l->threads * l->depth, objects[130] = {0};
    uint8_t open[130] = {0}, partly[130] = {0};
    open[1] = 1;
    for (uint32_t t = 0; t < l->threads; t++) {
        if (l->depths[t] > l->depth) return 0;
        for (uint32_t k = 1; k <= l->depths[t]; k++) open[1 + t * l->depth + k] = 1;
    }
    for (uint32_t page = 0; page < l->pages; page++) {
        uint32_t owner = l->owners[page], used = l->used[page];
        if (l->marks[page] != 0) return 0;
        if (owner == 0) {
            if (used != 0) return 0;
            continue;
        }
        if (owner > regions || !open[owner] || used < 1 || used > 16) return 0;
        if (used < 16 && partly[owner]++) return 0;
        objects[owner] += used;
    }
    if (memcmp(objects + 1, l->counts, regions * sizeof *objects) != 0) return 0;
    uint32_t all = 0;
    for (uint32_t region = 0; region < regions; region++) all += l->counts[region];
    return l->counts[regions] - l->counts[regions + 1] == all;      /* objects made less objects freed */
}

static int is_zero(const uint32_t *cell) {
    uint32_t any = 0;
    for (uint32_t i = 0; i < 16; i++) any |= cell[i];
    return any == 0;
}

/* The form of every cell in use, and that the others are zero; how many slots cross. */
static int cells_whole(const Lent *l, uint32_t *crossing) {
    uint32_t n = 0;
    for (uint32_t page = 0; page < l->pages; page++) {
        for (uint32_t place = 0; place < l->used[page]; place++) {
            const uint32_t *cell = l->cells + 16 * (16 * page + place);
            uint32_t refs = cell[0] / 16, all = refs + cell[0] % 16, rest = cell[1];
            if (refs > 14 || all > 14) return 0;
            for (uint32_t f = 0; f < refs; f++) {
                if (!is_reference(l, cell[2 + f])) return 0;
                n += crosses(l, l->owners[page], cell[2 + f]) != 0;
            }
            for (uint32_t f = all; f < 14; f++) rest |= cell[2 + f];
            if (rest != 0) return 0;
        }
        for (uint32_t place = l->used[page]; place < 16; place++)
            if (!is_zero(l->cells + 16 * (16 * page + place))) return 0;
    }
    *crossing = n;
    return 1;
}

/* The entry names a crossing slot, with the right region. */
static int entry_whole(const Lent *l, uint32_t at, uint32_t region) {
    if (at >= 256 * l->pages || region == 0) return 0;
    uint32_t page = at / 256, place = at / 16 % 16, word = at % 16;
    if (place >= l->used[page] || word < 2 || word - 2 >= l->cells[at - word] / 16) return 0;
    return crosses(l, l->owners[page], l->cells[at]) == region;
}

/* As many entries as slots cross, all of crossing slots, and rising: so they name each once. */
static int entries_whole(const Lent *l, uint32_t n) {
    for (uint32_t i = 0; i < n; i++) {
        if (!entry_whole(l, l->slots[i], l->slot_regions[i])) return 0;
        if (i != 0 && l->slots[i] <= l->slots[i - 1]) return 0;
    }
    for (uint32_t i = n; i < l->entries; i++)
        if ((l->slots[i] | l->slot_regions[i]) != 0) return 0;
    return 1;
}

/* From the last entry down each has the one of its region after it as next, and in the end each region has its first. */
static int chains_right(const Lent *l, uint32_t n, const uint32_t *chains) {
    uint32_t regions = 1 + l->threads * l->depth, first[130] = {0}, any = 0;
    const uint32_t *next = chains + regions;
    for (uint32_t i = n; i-- != 0;) {
        uint32_t region = l->slot_regions[i];
        any |= next[i] ^ first[region];
        first[region] = i + 1;
    }
    for (uint32_t i = n; i < l->entries; i++) any |= next[i];
    return any == 0 && memcmp(first + 1, chains, regions * sizeof *first) == 0;
}

uint32_t plain_check(const uint32_t *cells, size_t cells_words, const uint32_t *remember, size_t remember_words,
                     const uint32_t *tables, size_t tables_words, const uint32_t *chains, size_t chains_words) {
    if (tables_words < 5 || remember_words < 2) return 3;
    Lent l = {.threads = tables[0], .variables = tables[1], .depth = tables[2], .pages = tables[3], .entries = tables[4], .cells = cells};
    if (l.threads < 1 || l.threads > 16 || l.variables < 1 || l.variables > 32 || l.depth < 1 || l.depth > 8 || l.pages < 1
        || l.pages > 1024 || l.entries > 4096 || remember[0] != l.entries)
        return 3;
    if (cells_words < 256 * l.pages || remember_words < 2 * l.entries + 2
        || tables_words < l.threads * (l.variables + l.depth + 1) + 3 * l.pages + 8)
        return 3;
    l.depths = tables + 5;
    l.vars = l.depths + l.threads;
    l.owners = l.vars + l.threads * l.variables;
    l.used = l.owners + l.pages;
    l.marks = l.used + l.pages;
    l.counts = l.marks + l.pages;
    l.slots = remember + 2;
    l.slot_regions = l.slots + l.entries;
    uint32_t crossing;
    if (!pages_whole(&l)) return 3;
    for (uint32_t i = 0; i < l.threads * l.variables; i++)
        if (!is_reference(&l, l.vars[i])) return 3;
    if (!cells_whole(&l, &crossing)) return 3;
    if (remember[1] != crossing || crossing > l.entries || !entries_whole(&l, crossing)) return 3;
    return chains_words >= 1 + l.threads * l.depth + l.entries && chains_right(&l, crossing, chains) ? 0 : 16;
}
