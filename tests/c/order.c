/* The order of cells and entries: the cell that a new object takes, the cells that the survivors of an end are copied to, and entries by rising
 * slot position, after every store and in every table that is accepted. The check by hand of the benchmark says the same of each heap. */
#include "check.h"

#include <string.h>

static Lent heap;
static Block block;

/* The cell that a variable names. */
static uint32_t cell_in(uint32_t thread, uint32_t variable) {
    uint32_t x = heap.tables[5 + heap.tables[0] + thread * heap.tables[1] + variable];
    CHECK(x != 0);
    return x - 1;
}

/* ---- new objects */

/* Makes so many objects, which take the cells from this one on. */
static void take(uint32_t thread, uint32_t count, uint32_t page, uint32_t place) {
    for (uint32_t i = 0; i < count; i++) {
        obey_next(&heap, &block, TALDREKU_NEW, thread, 0, 0, 0);
        CHECK(cell_in(thread, 0) == 16 * page + place + i);
    }
}

static void new_objects(Edge edge) {
    heap = prepared((Sizes){2, 1, 2, 6, 0}, 7, edge);
    take(0, 3, 5, 0);
    obey_next(&heap, &block, TALDREKU_START, 1, 0, 0, 0);
    take(1, 16, 4, 0);
    take(0, 13, 5, 3);
    take(0, 1, 3, 0);
    obey_next(&heap, &block, TALDREKU_START, 1, 0, 0, 0);
    take(1, 2, 2, 0);

    /* nothing of the inner region survives: its page is free, and it is the highest */
    obey_next(&heap, &block, TALDREKU_CLEAR, 1, 0, 0, 0);
    obey_next(&heap, &block, TALDREKU_END, 1, 0, 0, 0);
    take(1, 1, 2, 0);
    take(0, 15, 3, 1);

    /* with the outer region pages 4 and 2 become free, and a region takes them before pages 1 and 0 */
    obey_next(&heap, &block, TALDREKU_CLEAR, 1, 0, 0, 0);
    obey_next(&heap, &block, TALDREKU_END, 1, 0, 0, 0);
    obey_next(&heap, &block, TALDREKU_START, 0, 0, 0, 0);
    take(0, 16, 4, 0);
    take(1, 16, 2, 0);
    take(0, 16, 1, 0);
    take(1, 1, 0, 0);
    uint32_t value;
    CHECK(answer(&heap, TALDREKU_NEW, 0, 0, 0, 0, &value) == TALDREKU_PAGES && value == 0);
    take(1, 15, 0, 1);
    release();
}

/* ---- survivors */

/* Twenty objects are to go to each of three regions, and twenty are freed; a list of each kind hangs on an object that lies there. */
enum { PAGES = 14, EACH = 20, KINDS = 4, OBJECT = 3, NEXT = 4, BEFORE = 0, NAME = 0 };

/* The name of the object that is number i of its kind by its old cell: of five pages, four of the kind on each, the first was filled last. */
static uint32_t name_by_cell(uint32_t kind, uint32_t i) { return 16 * (4 - i / 4) + KINDS * (i % 4) + kind; }

/* Objects of a kind stand in the cells of a page from this place on, from this one on by their old cells. */
static void stands(uint32_t page, uint32_t place, uint32_t kind, uint32_t first, uint32_t count) {
    CHECK(used_on(&heap, page) == place + count);
    for (uint32_t i = 0; i < count; i++) {
        const uint32_t *cell = heap.cells + 16 * (16 * page + place + i);
        CHECK(cell[0] == 16 + 1 && cell[3] == name_by_cell(kind, first + i));
    }
}

static void survivors(Edge edge) {
    heap = prepared((Sizes){1, 5, 3, PAGES, 3}, 3, edge);
    for (uint32_t level = 0; level < 3; level++) {
        add(&block, TALDREKU_NEW, 0, level, 1, 1);
        add(&block, TALDREKU_START, 0, 0, 0, 0);
    }
    for (uint32_t name = 0; name < KINDS * EACH; name++) {
        uint32_t kind = name % KINDS;
        add(&block, TALDREKU_NEW, 0, OBJECT, 1, 1);
        add(&block, TALDREKU_WRITE, 0, OBJECT, NAME, name);
        if (kind == 3) continue;
        add(&block, TALDREKU_LOAD, 0, NEXT, kind, BEFORE);
        add(&block, TALDREKU_STORE, 0, OBJECT, BEFORE, NEXT);
        add(&block, TALDREKU_STORE, 0, kind, BEFORE, OBJECT);
    }
    add(&block, TALDREKU_CLEAR, 0, OBJECT, 0, 0);
    add(&block, TALDREKU_CLEAR, 0, NEXT, 0, 0);
    obey_all(&heap, &block);
    /* pages 13, 12 and 11 have an object each, and the innermost region has the five after them */
    CHECK(cell_in(0, 0) == 16 * 13 && cell_in(0, 1) == 16 * 12 && cell_in(0, 2) == 16 * 11);
    for (uint32_t page = 6; page <= 10; page++) CHECK(owner_of(&heap, page) == 4 && used_on(&heap, page) == 16);
    CHECK(heap.remember[1] == 3);

    obey_next(&heap, &block, TALDREKU_END, 0, 0, 0, 0);
    /* each kind fills up its page, and then takes one of those that were free before: the control space first, then level by level */
    for (uint32_t kind = 0; kind < 3; kind++) {
        CHECK(owner_of(&heap, 13 - kind) == 1 + kind && owner_of(&heap, 5 - kind) == 1 + kind);
        stands(13 - kind, 1, kind, 0, 15);
        stands(5 - kind, 0, kind, 15, EACH - 15);
    }
    for (uint32_t page = 6; page <= 10; page++) CHECK(owner_of(&heap, page) == 0);
    CHECK(heap.remember[1] == 0);

    /* the pages that came back are the highest free ones */
    add(&block, TALDREKU_START, 0, 0, 0, 0);
    add(&block, TALDREKU_NEW, 0, OBJECT, 0, 0);
    obey_all(&heap, &block);
    CHECK(cell_in(0, OBJECT) == 16 * 10);
    release();
}

/* ---- entries */

enum { HOLDERS = 4, FIELDS = 14, ONE = HOLDERS, OTHER, OWN, NOTHING, VARIABLES };

/* Four objects of one region with all slots null, and variables with objects of two other regions, of its own, and null. */
static void holders(uint32_t entries, Edge edge) {
    heap = prepared((Sizes){3, VARIABLES, 1, 8, entries}, 5, edge);
    for (uint32_t thread = 0; thread < 3; thread++) add(&block, TALDREKU_START, thread, 0, 0, 0);
    for (uint32_t i = 0; i < HOLDERS; i++) {
        add(&block, TALDREKU_NEW, 0, i, FIELDS, 0);
        for (uint32_t k = 0; k < 9; k++) add(&block, TALDREKU_NEW, 0, OWN, 0, 0);      /* so that the holders are on three pages */
    }
    for (uint32_t thread = 1; thread < 3; thread++) {
        add(&block, TALDREKU_NEW, thread, 0, 1, 0);
        add(&block, TALDREKU_COPY, 0, thread == 1 ? ONE : OTHER, 0, thread);
    }
    obey_all(&heap, &block);
}

static void stores(Edge edge) {
    enum { MOST = 30, STORES = 3000 };
    uint32_t value, refused = 0;
    holders(MOST, edge);
    for (uint32_t i = 0; i < STORES; i++) {
        uint32_t number = answer(&heap, TALDREKU_STORE, 0, draw() % HOLDERS, draw() % FIELDS, ONE + draw() % 4, &value);
        CHECK(number == TALDREKU_DONE || (number == TALDREKU_ENTRIES && heap.remember[1] == MOST));
        CHECK(entries_rise(&heap) && chains_right(&heap));
        refused += number != TALDREKU_DONE;
    }
    CHECK(refused > 0 && refused < STORES / 2);

    /* the objects move, and the slots with them */
    for (uint32_t thread = 0; thread < 3; thread++) {
        obey_next(&heap, &block, TALDREKU_END, thread, 0, 0, 0);
        CHECK(entries_rise(&heap) && chains_right(&heap));
    }
    CHECK(heap.remember[1] == 0);
    release();
}

/* ---- entries in another order */

static void not_whole(void) {
    static const uint32_t start[TALDREKU_COMMAND_WORDS] = {TALDREKU_START, 0, 0, 0, 0};
    uint32_t answers[TALDREKU_ANSWER_WORDS] = {7, 8};
    struct taldreku_row rows[TALDREKU_MAX_ROWS];
    Lent before = copy_of(&heap);
    CHECK(run(&heap, start, TALDREKU_COMMAND_WORDS, answers, TALDREKU_ANSWER_WORDS) == TALDREKU_NOT_WHOLE);
    CHECK(answers[0] == 7 && answers[1] == 8);
    struct taldreku_reported r = report(&heap, rows, TALDREKU_MAX_ROWS);
    CHECK(r.number == TALDREKU_NOT_WHOLE && no_figures(r));
    CHECK(check_by_hand(&heap) == TALDREKU_NOT_WHOLE);
    CHECK(same_words(&heap, &before));
    drop(&before);
}

static void whole(void) {
    CHECK(run(&heap, NULL, 0, NULL, 0) == TALDREKU_DONE);
    CHECK(check_by_hand(&heap) == TALDREKU_DONE);
}

static void exchange(uint32_t *words, uint32_t i, uint32_t k) {
    uint32_t word = words[i];
    words[i] = words[k], words[k] = word;
}

/* Every two entries exchanged, every entry once more in the place of another, all entries turned round, and a gap between them. */
static void damaged(Edge edge) {
    enum { COUNT = 12, MOST = COUNT + 2 };
    holders(MOST, edge);
    for (uint32_t i = 0; i < COUNT; i++) add(&block, TALDREKU_STORE, 0, i % HOLDERS, 5 * i % FIELDS, i % 5 == 0 ? OTHER : ONE);
    obey_all(&heap, &block);
    uint32_t *slots = heap.remember + 2, *regions = slots + MOST, kept[2 * MOST];
    CHECK(heap.remember[1] == COUNT && entries_rise(&heap));
    whole();
    memcpy(kept, slots, sizeof kept);
    for (uint32_t i = 0; i < COUNT; i++)
        for (uint32_t k = 0; k < COUNT; k++) {
            if (i == k) continue;
            exchange(slots, i, k), exchange(regions, i, k);
            not_whole();
            memcpy(slots, kept, sizeof kept);
            slots[i] = slots[k], regions[i] = regions[k];
            not_whole();
            memcpy(slots, kept, sizeof kept);
        }
    for (uint32_t i = 0; i < COUNT / 2; i++) exchange(slots, i, COUNT - 1 - i), exchange(regions, i, COUNT - 1 - i);
    not_whole();
    memcpy(slots, kept, sizeof kept);
    for (uint32_t i = 0; i < COUNT; i++) {
        exchange(slots, i, COUNT), exchange(regions, i, COUNT);
        not_whole();
        memcpy(slots, kept, sizeof kept);
    }
    whole();
    release();
}

void test_order(void) {
    begin("order of cells and entries");
    for (Edge edge = AT_END; edge <= AT_START; edge++) {
        new_objects(edge);
        survivors(edge);
        stores(edge);
        damaged(edge);
    }
    discard(&block);
    end();
}
