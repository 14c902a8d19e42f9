/* What the import imports, said once for every way of writing it: four threads, each with a workbook of sheets of rows of wheels. A wheel is
 * linked to the one before it in its row, a row to the row before it. The workbook keeps the first row of each sheet, the register keeps one
 * wheel in a hundred with the wheels before it in its row. */
#ifndef IMPORT_H
#define IMPORT_H

#include <stdint.h>

enum { IMPORT_SEED = 20240229, SHEET_THREADS = 4, SHEETS = 4, ROWS = 100, WHEELS = 8, KEEP_ONE_IN = 100 };

/* Marsaglia's xorshift32. */
static inline uint32_t draw(uint32_t *state) {
    uint32_t x = *state;
    x ^= x << 13;
    x ^= x >> 17;
    x ^= x << 5;
    return *state = x;
}

/* What an import ends with: the wheels that the register names and the sum of their pressures. Every way must end with the same. */
typedef struct {
    uint32_t objects, kept, pressure;
} Imported;

Imported import_talloc(void);
Imported import_gc(void);

#endif
