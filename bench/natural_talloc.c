/* The import as one would write it on talloc: a context for each epoch, objects in it, and by hand what the heap does by itself at an end:
 * what is kept is moved to the context that keeps it, with what it leads to. */
#include <talloc.h>

#include "natural.h"

/* The wheels from this one back to the first of its row, as far as they are still the sheet's. */
static void move_wheels(void *to, void *sheet, wheel *w) {
    for (; w; w = w->before)
        if (talloc_parent(w) == sheet) talloc_steal(to, w);
}

Imported import_talloc(void) {
    Imported imported = {0};
    uint32_t state = IMPORT_SEED;
    void *control = talloc_new(NULL), *books[SHEET_THREADS], *sheets[SHEET_THREADS];
    row *firsts[SHEET_THREADS][SHEETS], *rows[SHEET_THREADS];
    node *nodes = NULL;
    for (int t = 0; t < SHEET_THREADS; t++) books[t] = talloc_new(NULL);
    for (int sheet = 0; sheet < SHEETS; sheet++) {
        for (int t = 0; t < SHEET_THREADS; t++) {
            sheets[t] = talloc_new(books[t]);
            rows[t] = NULL;
        }
        for (uint32_t number = 0; number < ROWS; number++)
            for (int t = 0; t < SHEET_THREADS; t++) {
                row *r = talloc_zero(sheets[t], row);
                r->number = number;
                r->before = rows[t];
                for (uint32_t position = 0; position < WHEELS; position++) {
                    wheel *w = talloc_zero(sheets[t], wheel);
                    w->position = position;
                    w->pressure = 700 + draw(&state) % 200;
                    w->before = r->last;
                    r->last = w;
                    if (draw(&state) % KEEP_ONE_IN == 0) {
                        node *n = talloc_zero(control, node);
                        n->before = nodes;
                        n->kept = w;
                        nodes = n;
                        move_wheels(control, sheets[t], w);
                    }
                }
                rows[t] = r;
                if (number == 0) firsts[t][sheet] = r;
                imported.objects += 1 + WHEELS;
            }
        for (int t = 0; t < SHEET_THREADS; t++) {
            move_wheels(books[t], sheets[t], firsts[t][sheet]->last);
            talloc_steal(books[t], firsts[t][sheet]);
            talloc_free(sheets[t]);
        }
    }
    for (int t = 0; t < SHEET_THREADS; t++) talloc_free(books[t]);
    for (node *n = nodes; n; n = n->before) {
        imported.kept++;
        imported.pressure += n->kept->pressure;
    }
    talloc_free(control);
    return imported;
}
