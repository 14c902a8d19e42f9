/* The import as one would write it on Boehm's collector: objects are allocated and forgotten, and what a sheet made is garbage once its last
 * row is dropped. */
#include <gc.h>

#include "natural.h"

Imported import_gc(void) {
    GC_INIT();
    Imported imported = {0};
    uint32_t state = IMPORT_SEED;
    row *firsts[SHEET_THREADS][SHEETS], *rows[SHEET_THREADS];
    node *nodes = NULL;
    for (int sheet = 0; sheet < SHEETS; sheet++) {
        for (int t = 0; t < SHEET_THREADS; t++) rows[t] = NULL;
        for (uint32_t number = 0; number < ROWS; number++)
            for (int t = 0; t < SHEET_THREADS; t++) {
                row *r = GC_MALLOC(sizeof *r);
                r->number = number;
                r->before = rows[t];
                for (uint32_t position = 0; position < WHEELS; position++) {
                    wheel *w = GC_MALLOC(sizeof *w);
                    w->position = position;
                    w->pressure = 700 + draw(&state) % 200;
                    w->before = r->last;
                    r->last = w;
                    if (draw(&state) % KEEP_ONE_IN == 0) {
                        node *n = GC_MALLOC(sizeof *n);
                        n->before = nodes;
                        n->kept = w;
                        nodes = n;
                    }
                }
                rows[t] = r;
                if (number == 0) firsts[t][sheet] = r;
                imported.objects += 1 + WHEELS;
            }
    }
    (void)firsts;
    for (node *n = nodes; n; n = n->before) {
        imported.kept++;
        imported.pressure += n->kept->pressure;
    }
    return imported;
}
