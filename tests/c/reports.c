/* Reports: the rows and figures that the words themselves say; too few rows, exact and spare ones; arrays that are only read. */
#include "check.h"

#include <string.h>

int no_figures(struct taldreku_reported r) {
    return (r.rows | r.free_pages | r.crossing_slots | r.made | r.freed | r.total) == 0;
}

static uint32_t crossing_slots(const Lent *l) {
    uint32_t crossing = 0;
    for (uint32_t page = 0; page < l->tables[3]; page++)
        for (uint32_t place = 0; place < used_on(l, page); place++) {
            const uint32_t *cell = l->cells + 16 * (16 * page + place);
            for (uint32_t f = 0; f < cell[0] / 16; f++) {
                uint32_t x = cell[2 + f], to = x == 0 ? 1 : owner_of(l, (x - 1) / 16);
                crossing += to != 1 && to != owner_of(l, page);
            }
        }
    return crossing;
}

static struct taldreku_row row_by_words(const Lent *l, uint32_t thread, uint32_t level) {
    struct taldreku_row row = {.thread = thread, .level = level};
    uint32_t region = level == 0 ? 1 : 1 + thread * l->tables[2] + level;
    for (uint32_t page = 0; page < l->tables[3]; page++)
        if (owner_of(l, page) == region) row.pages++, row.objects += used_on(l, page);
    return row;
}

struct taldreku_reported count_words(const Lent *l, struct taldreku_row *rows) {
    struct taldreku_reported r = {.crossing_slots = crossing_slots(l), .made = *made_word(l), .freed = *freed_word(l)};
    rows[r.rows++] = row_by_words(l, 0, 0);
    for (uint32_t thread = 0; thread < l->tables[0]; thread++)
        for (uint32_t level = 1; level <= l->tables[5 + thread]; level++) rows[r.rows++] = row_by_words(l, thread, level);
    for (uint32_t page = 0; page < l->tables[3]; page++) r.free_pages += owner_of(l, page) == 0, r.total += used_on(l, page);
    return r;
}

enum { ROW_WORDS = sizeof(struct taldreku_row) / sizeof(uint32_t) };

/* A report into so many rows, fenced. */
static void report_into(const Lent *l, const struct taldreku_reported *wanted, const struct taldreku_row *by_words, size_t count, Edge edge) {
    struct taldreku_row *rows = (void *)fenced(ROW_WORDS * count, edge), kept[TALDREKU_MAX_ROWS + 3];
    CHECK(count <= TALDREKU_MAX_ROWS + 3);
    noise((uint32_t *)rows, ROW_WORDS * count);
    memcpy(kept, rows, count * sizeof *rows);
    struct taldreku_reported r = report(l, count == 0 ? NULL : rows, count);
    if (count < wanted->rows) CHECK(r.number == TALDREKU_ROWS && no_figures(r));
    else {
        uint32_t total = 0;
        CHECK(r.number == TALDREKU_DONE && r.rows == wanted->rows);
        CHECK(r.free_pages == wanted->free_pages && r.crossing_slots == wanted->crossing_slots);
        CHECK(r.made == wanted->made && r.freed == wanted->freed && r.total == wanted->total);
        CHECK(memcmp(rows, by_words, r.rows * sizeof *rows) == 0);
        for (uint32_t i = 0; i < r.rows; i++) total += rows[i].objects;
        CHECK(r.total == total && r.total == r.made - r.freed);
    }
    CHECK(memcmp(rows + r.rows, kept + r.rows, (count - r.rows) * sizeof *rows) == 0);
    release_last();
}

void check_report(const Lent *l) {
    struct taldreku_row by_words[TALDREKU_MAX_ROWS];
    struct taldreku_reported wanted = count_words(l, by_words);
    Lent before = copy_of(l);
    const size_t counts[] = {0, wanted.rows - 1, wanted.rows, wanted.rows + 3};
    for (size_t i = 0; i < 4; i++) report_into(l, &wanted, by_words, counts[i], i % 2 == 0 ? AT_END : AT_START);
    CHECK(same_words(l, &before));
    drop(&before);
}

/* A heap in which thread t has t epochs open, with some objects in each and slots that cross. */
static Lent stepped(size_t extra, Edge edge) {
    Lent l = prepared((Sizes){4, 4, 3, 20, 9}, extra, edge);
    Block b = {0};
    for (uint32_t i = 0; i < 33; i++) add(&b, TALDREKU_NEW, 0, 0, 14, 0);
    for (uint32_t thread = 1; thread < 4; thread++) {
        add(&b, TALDREKU_COPY, thread, 3, 0, 0);
        for (uint32_t level = 1; level <= thread; level++) {
            add(&b, TALDREKU_START, thread, 0, 0, 0);
            for (uint32_t i = 0; i < 7 * thread * (level % 2); i++) add(&b, TALDREKU_NEW, thread, 0, 1, 1);
            add(&b, TALDREKU_STORE, thread, 3, 4 * thread + level - 4, 0);
        }
    }
    obey(&l, &b);
    discard(&b);
    return l;
}

static void counted(Edge edge) {
    static const struct taldreku_row rows[] = {{0, 0, 33, 3}, {1, 1, 7, 1}, {2, 1, 14, 1}, {2, 2, 0, 0}, {3, 1, 21, 2}, {3, 2, 0, 0}, {3, 3, 21, 2}};
    static const struct taldreku_reported wanted = {.rows = 7, .free_pages = 11, .crossing_slots = 6, .made = 96, .total = 96};
    for (size_t extra = 0; extra <= 2; extra++)
        for (size_t count = 0; count <= 10; count++) {
            Lent l = stepped(extra, edge), before = copy_of(&l);
            read_only(l.cells), read_only(l.remember), read_only(l.tables), read_only(l.chains);
            report_into(&l, &wanted, rows, count, edge);
            CHECK(same_words(&l, &before));
            drop(&before);
            release();
        }
    Lent l = stepped(0, edge);
    check_report(&l);
    release();
}

/* On tables that are no heap no row is written, and all figures are 0. */
static void not_whole(Edge edge) {
    struct taldreku_row rows[8], kept[8];
    noise((uint32_t *)rows, 8 * ROW_WORDS);
    memcpy(kept, rows, sizeof rows);
    for (int which = 0; which < 7; which++) {
        Lent l = stepped(0, edge);
        if (which == 0) l.cells_words--;
        if (which == 1) l.remember_words--;
        if (which == 2) l.tables_words--;
        if (which == 3) l.cells = NULL, l.cells_words = 0;
        if (which == 4) l.remember = NULL, l.remember_words = 0;
        if (which == 5) l.tables = NULL, l.tables_words = 0;
        if (which == 6) l.tables[5]++;          /* an epoch of thread 0 that was not started is open: still a heap, with a row more */
        struct taldreku_reported r = report(&l, rows, which == 6 ? 7 : 8);
        CHECK(r.number == (which == 6 ? TALDREKU_ROWS : TALDREKU_NOT_WHOLE));
        CHECK(no_figures(r));
        CHECK(memcmp(rows, kept, sizeof rows) == 0);
        release();
    }
    struct taldreku_reported r = taldreku_report(NULL, 0, NULL, 0, NULL, 0, NULL, 0, NULL, 0);
    CHECK(r.number == TALDREKU_NOT_WHOLE && no_figures(r));
}

void test_reports(void) {
    begin("report");
    for (Edge edge = AT_END; edge <= AT_START; edge++) {
        counted(edge);
        not_whole(edge);
    }
    end();
}
