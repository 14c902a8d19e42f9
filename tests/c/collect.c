/* A collection of the control space: what it keeps and frees, where what is kept goes, what follows of references and entries, and that all else
 * stays: words past the lengths, other regions' cells, depths. The check by hand of the benchmark says of each heap that it is whole. */
#include "check.h"

#include <string.h>

/* Objects of the tests: two slots, and a number that names them. */
enum { LINK = 0, OTHER = 1, SLOTS = 2, NAME = 0, NAME_WORD = 2 + SLOTS };

static Lent heap;
static Block block;

static void make(uint32_t thread, uint32_t variable, uint32_t name) {
    add(&block, TALDREKU_NEW, thread, variable, SLOTS, 1);
    add(&block, TALDREKU_WRITE, thread, variable, NAME, name);
}

static void store(uint32_t thread, uint32_t a, uint32_t field, uint32_t c) { add(&block, TALDREKU_STORE, thread, a, field, c); }
static void copy(uint32_t thread, uint32_t a, uint32_t b, uint32_t from) { add(&block, TALDREKU_COPY, thread, a, b, from); }
static void start(uint32_t thread) { add(&block, TALDREKU_START, thread, 0, 0, 0); }

static void clear(uint32_t thread, uint32_t from, uint32_t to) {
    for (uint32_t v = from; v <= to; v++) add(&block, TALDREKU_CLEAR, thread, v, 0, 0);
}

/* Collects. The heap is whole by both checks, the entries are the crossing slots and chained, and a second collection changes no word. */
static void collect(uint32_t thread) {
    obey_next(&heap, &block, TALDREKU_COLLECT, thread, 0, 0, 0);
    CHECK(check_by_hand(&heap) == TALDREKU_DONE);
    CHECK(entries_rise(&heap) && chains_right(&heap));
    check_report(&heap);
    Lent before = copy_of(&heap);
    obey_next(&heap, &block, TALDREKU_COLLECT, 0, 0, 0, 0);
    CHECK(same_words(&heap, &before));
    drop(&before);
}

/* The cell of the object of this name, from 0; one past all cells if there is none. */
static uint32_t cell_of(uint32_t name) {
    uint32_t found = 16 * heap.tables[3];
    for (uint32_t cell = 0; cell < 16 * heap.tables[3]; cell++)
        if (heap.cells[16 * cell] != 0 && heap.cells[16 * cell + NAME_WORD] == name) {
            CHECK(found == 16 * heap.tables[3]);
            found = cell;
        }
    return found;
}

static int there(uint32_t name) { return cell_of(name) < 16 * heap.tables[3]; }
static uint32_t slot_of(uint32_t name, uint32_t field) { return heap.cells[16 * cell_of(name) + 2 + field]; }
static uint32_t variable_of(uint32_t thread, uint32_t v) { return heap.tables[5 + heap.tables[0] + thread * heap.tables[1] + v]; }
static uint32_t reference_to(uint32_t name) { return 1 + cell_of(name); }

/* ---- refusals */

static void refused(uint32_t number, uint32_t thread, uint32_t a, uint32_t b, uint32_t c) {
    uint32_t value;
    Lent before = copy_of(&heap);
    CHECK(answer(&heap, TALDREKU_COLLECT, thread, a, b, c, &value) == number && value == 0);
    CHECK(same_words(&heap, &before));
    drop(&before);
}

/* With something to free, so that a collection would change words; outside of epochs and in the middle of one. */
static void refusals(Edge edge) {
    heap = prepared((Sizes){2, 3, 1, 4, 2}, 6, edge);
    make(0, 0, 1), make(0, 0, 2);
    obey_all(&heap, &block);
    for (int inside = 0; inside < 2; inside++) {
        refused(TALDREKU_THREAD, 2, 0, 0, 0);
        refused(TALDREKU_THREAD, 0xffffffff, 0, 0, 0);
        refused(TALDREKU_THREAD, 2, 1, 1, 1);
        for (uint32_t thread = 0; thread < 2; thread++) {
            refused(TALDREKU_OPERAND, thread, 1, 0, 0);
            refused(TALDREKU_OPERAND, thread, 0, 1, 0);
            refused(TALDREKU_OPERAND, thread, 0, 0, 1);
            refused(TALDREKU_OPERAND, thread, 0x80000000, 0xffffffff, 2);
        }
        obey_next(&heap, &block, TALDREKU_START, (uint32_t)inside, 0, 0, 0);
    }
    CHECK(there(1) && there(2));
    collect(1);
    CHECK(!there(1) && there(2));
    release();
}

/* ---- what is kept */

/* Each of the first names is held in a way of its own, each of the others by nothing. */
enum { OWN = 1, FOREIGN, REACHED, UNREACHED, DEEPER, DOWN, UP, KEPT_CIRCLE, KEPT, LOST = 20, CIRCLE, OTHER_HALF, ITSELF, LEADS_TO_KEPT, NAMES };
enum { HOLDER = 100, LEVEL_ONE, LEVEL_TWO };

static void kept(Edge edge) {
    heap = prepared((Sizes){2, 12, 2, 8, 4}, 9, edge);
    /* thread 0 makes the objects of the control space, in cells that rise with the names */
    for (uint32_t name = OWN; name < KEPT; name++) make(0, name, name);
    make(0, 9, LOST), make(0, 9, CIRCLE), make(0, 10, OTHER_HALF);
    store(0, 9, LINK, 10), store(0, 10, LINK, 9);
    make(0, 9, ITSELF), store(0, 9, LINK, 9);
    make(0, 9, LEADS_TO_KEPT), store(0, 9, LINK, OWN);
    /* chains down and up by the cells, and a circle that is held */
    store(0, OWN, LINK, UP), store(0, UP, LINK, DOWN);
    store(0, DOWN, LINK, KEPT_CIRCLE), store(0, KEPT_CIRCLE, LINK, OWN);
    /* thread 1: a variable, and slots of two levels, one object of which nothing leads to */
    copy(1, 0, FOREIGN, 0);
    start(1), make(1, 1, HOLDER), make(1, 2, LEVEL_ONE);
    copy(1, 3, REACHED, 0), store(1, 1, LINK, 3);
    copy(1, 3, UNREACHED, 0), store(1, 2, OTHER, 3);
    start(1), make(1, 4, LEVEL_TWO);
    copy(1, 3, DEEPER, 0), store(1, 4, LINK, 3);
    clear(1, 2, 4), clear(0, 2, 11);
    obey_all(&heap, &block);
    CHECK(heap.remember[1] == 0 && *made_word(&heap) == 16 && *freed_word(&heap) == 0);

    uint32_t depth = heap.tables[6];
    collect(0);
    for (uint32_t name = OWN; name < KEPT; name++) CHECK(there(name) && owner_of(&heap, cell_of(name) / 16) == 1);
    for (uint32_t name = LOST; name < NAMES; name++) CHECK(!there(name));
    for (uint32_t name = HOLDER; name <= LEVEL_TWO; name++) CHECK(there(name) && owner_of(&heap, cell_of(name) / 16) != 1);
    CHECK(*made_word(&heap) == 16 && *freed_word(&heap) == 5 && heap.tables[6] == depth && depth == 2);
    CHECK(variable_of(0, OWN) == reference_to(OWN) && variable_of(1, 0) == reference_to(FOREIGN));
    CHECK(slot_of(OWN, LINK) == reference_to(UP) && slot_of(UP, LINK) == reference_to(DOWN) && slot_of(DOWN, LINK) == reference_to(KEPT_CIRCLE));
    CHECK(slot_of(HOLDER, LINK) == reference_to(REACHED) && slot_of(LEVEL_ONE, OTHER) == reference_to(UNREACHED));
    CHECK(slot_of(LEVEL_TWO, LINK) == reference_to(DEEPER));

    /* each holder goes in its turn, and what it alone held with it */
    obey_next(&heap, &block, TALDREKU_CLEAR, 1, 0, 0, 0);
    collect(1);
    CHECK(!there(FOREIGN) && there(OWN));
    obey_next(&heap, &block, TALDREKU_CLEAR, 0, OWN, 0, 0);
    collect(1);
    CHECK(!there(OWN) && !there(UP) && !there(DOWN) && !there(KEPT_CIRCLE) && there(REACHED) && there(UNREACHED) && there(DEEPER));
    obey_next(&heap, &block, TALDREKU_END, 1, 0, 0, 0);
    CHECK(there(DEEPER));
    collect(0);
    CHECK(!there(DEEPER) && there(REACHED) && there(UNREACHED));
    add(&block, TALDREKU_CLEAR, 1, 1, 0, 0);
    add(&block, TALDREKU_END, 1, 0, 0, 0);
    obey_all(&heap, &block);
    collect(0);
    CHECK(*freed_word(&heap) == 16 && *made_word(&heap) == 16 && owner_of(&heap, 7) == 0);
    release();
}

/* ---- order and places */

/* The control space has pages 7, 5 and 3 with 16, 16 and 5 objects, named in the order made; a region of thread 1 has page 6, one page 4. */
enum { FIRST_PAGE = 7, SECOND_PAGE = 5, THIRD_PAGE = 3, OBJECTS = 37, EPOCH_OBJECT = 200 };

/* The names by old cell: those on page 3, then on page 5, then on page 7. */
static uint32_t name_by_cell(uint32_t i) { return i < 5 ? 32 + i : i < 21 ? 16 + i - 5 : i - 21; }

/* Variable 0 holds the list of those that are kept, the newest first. Every object has a slot that crosses into thread 1's outer epoch. */
static void three_pages(Edge edge, int (*keeps)(uint32_t name)) {
    heap = prepared((Sizes){2, 4, 2, 8, OBJECTS + 1}, 4, edge);
    start(1);
    for (uint32_t name = 0; name < OBJECTS; name++) {
        make(0, 1, name);
        if (name == 0) make(1, 0, EPOCH_OBJECT);
        if (name == 16) start(1), make(1, 1, EPOCH_OBJECT + 1), store(1, 1, LINK, 0);
        copy(0, 2, 0, 1);
        store(0, 1, OTHER, 2);
        if (!keeps(name)) continue;
        store(0, 1, LINK, 0);
        copy(0, 0, 1, 0);
    }
    clear(0, 1, 2);
    obey_all(&heap, &block);
    CHECK(owner_of(&heap, 7) == 1 && owner_of(&heap, 6) == 4 && owner_of(&heap, 5) == 1 && owner_of(&heap, 4) == 5 && owner_of(&heap, 3) == 1);
    CHECK(cell_of(36) == 16 * THIRD_PAGE + 4 && heap.remember[1] == OBJECTS + 1 && entries_rise(&heap));
}

/* The k-th that is kept lies at the k-th place; pages past them are free, and every cell past them is zero. */
static void stand_packed(int (*keeps)(uint32_t name), uint32_t count) {
    static const uint32_t pages[] = {THIRD_PAGE, SECOND_PAGE, FIRST_PAGE};
    uint32_t k = 0, left = 0, before = 0;
    for (uint32_t i = 0; i < OBJECTS; i++) {
        uint32_t name = name_by_cell(i);
        CHECK(there(name) == (keeps(name) != 0));
        if (!keeps(name)) continue;
        CHECK(cell_of(name) == 16 * pages[k / 16] + k % 16);
        CHECK(slot_of(name, OTHER) == reference_to(EPOCH_OBJECT));
        k++;
    }
    CHECK(k == count);
    for (uint32_t name = 0; name < OBJECTS; name++) {
        if (!keeps(name)) continue;
        CHECK(slot_of(name, LINK) == before);
        before = reference_to(name);
    }
    CHECK(variable_of(0, 0) == before);
    for (uint32_t i = 0; i < 3; i++) {
        uint32_t use = count <= 16 * i ? 0 : count - 16 * i < 16 ? count - 16 * i : 16;
        CHECK(owner_of(&heap, pages[i]) == (use != 0) && used_on(&heap, pages[i]) == use);
        for (uint32_t word = 16 * use; word < 256; word++) left += heap.cells[256 * pages[i] + word] != 0;
    }
    CHECK(left == 0);
    CHECK(heap.remember[1] == count + 1 && heap.remember[2 + heap.remember[0]] == 4);
    CHECK(cell_of(EPOCH_OBJECT) == 16 * 6 && cell_of(EPOCH_OBJECT + 1) == 16 * 4 && slot_of(EPOCH_OBJECT + 1, LINK) == reference_to(EPOCH_OBJECT));
}

static int all_of_them(uint32_t name) { return name < OBJECTS; }
static int every_second(uint32_t name) { return name % 2 == 1; }
static int first_page_alone(uint32_t name) { return name < 16; }
static int one(uint32_t name) { return name == 20; }
static int none(uint32_t name) { return name == OBJECTS; }

static void places(Edge edge) {
    static int (*const which[])(uint32_t) = {all_of_them, every_second, first_page_alone, one, none};
    static const uint32_t counts[] = {OBJECTS, 18, 16, 1, 0};
    /* the page that a new object takes, and its place there: the partly filled page, else the highest that is free */
    static const uint32_t next[][2] = {{FIRST_PAGE, 5}, {SECOND_PAGE, 2}, {FIRST_PAGE, 0}, {THIRD_PAGE, 1}, {FIRST_PAGE, 0}};
    for (uint32_t i = 0; i < 5; i++) {
        three_pages(edge, which[i]);
        collect(i % 2);
        stand_packed(which[i], counts[i]);
        CHECK(*made_word(&heap) == OBJECTS + 2 && *freed_word(&heap) == OBJECTS - counts[i]);
        make(0, 3, 300);
        obey_all(&heap, &block);
        CHECK(cell_of(300) == 16 * next[i][0] + next[i][1]);
        /* the epochs end as ever: the list still leads to the outer one's object, if there is a list */
        add(&block, TALDREKU_CLEAR, 1, 0, 0, 0);
        add(&block, TALDREKU_CLEAR, 1, 1, 0, 0);
        add(&block, TALDREKU_END, 1, 0, 0, 0);
        add(&block, TALDREKU_END, 1, 0, 0, 0);
        obey_all(&heap, &block);
        CHECK(there(EPOCH_OBJECT) == (counts[i] != 0) && !there(EPOCH_OBJECT + 1) && heap.remember[1] == 0);
        release();
    }
}

/* ---- with no room at all, and words that stay */

/* No page is free, and every entry is used: a collection asks for neither. It changes no word past the lengths. */
static void full(Edge edge) {
    enum { EXTRA = 50, PAGES = 3, ENTRIES = 2 };
    uint32_t value;
    heap = prepared((Sizes){2, 4, 1, PAGES, ENTRIES}, EXTRA, edge);
    Lent fresh = copy_of(&heap);
    obey_next(&heap, &block, TALDREKU_COLLECT, 1, 0, 0, 0);
    CHECK(same_words(&heap, &fresh));       /* nothing to do */
    start(1);
    make(1, 0, 500);
    for (uint32_t name = 0; name < 32; name++) make(0, 1, name);
    copy(0, 2, 0, 1);
    store(0, 1, LINK, 2), store(0, 1, OTHER, 2);
    obey_all(&heap, &block);
    CHECK(answer(&heap, TALDREKU_NEW, 0, 3, 0, 0, &value) == TALDREKU_PAGES);
    CHECK(answer(&heap, TALDREKU_STORE, 1, 0, LINK, 0, &value) == TALDREKU_DONE);     /* inside one region */
    CHECK(heap.remember[1] == ENTRIES);
    /* as if the counters were about to pass their limit */
    *made_word(&heap) += 0xfffffff0, *freed_word(&heap) += 0xfffffff0;
    collect(0);
    CHECK(*made_word(&heap) == 33 - 16 && *freed_word(&heap) == 31 - 16 && there(31) && !there(30) && heap.remember[1] == ENTRIES);
    CHECK(cell_of(31) == 0 && owner_of(&heap, 0) == 1 && owner_of(&heap, 1) == 0 && owner_of(&heap, 2) == 3);
    CHECK(answer(&heap, TALDREKU_NEW, 0, 3, 0, 0, &value) == TALDREKU_DONE);
    CHECK(memcmp(heap.cells + heap.cells_words - EXTRA, fresh.cells + heap.cells_words - EXTRA, EXTRA * sizeof(uint32_t)) == 0);
    CHECK(memcmp(heap.remember + heap.remember_words - EXTRA, fresh.remember + heap.remember_words - EXTRA, EXTRA * sizeof(uint32_t)) == 0);
    CHECK(memcmp(heap.tables + heap.tables_words - EXTRA, fresh.tables + heap.tables_words - EXTRA, EXTRA * sizeof(uint32_t)) == 0);
    CHECK(memcmp(heap.chains + heap.chains_words - EXTRA, fresh.chains + heap.chains_words - EXTRA, EXTRA * sizeof(uint32_t)) == 0);
    drop(&fresh);
    release();
}

/* An object of an epoch that only a freed object led to: the entry has gone, and the end frees it. */
static void freed_holder(Edge edge) {
    heap = prepared((Sizes){1, 3, 1, 4, 1}, 2, edge);
    make(0, 0, 1), start(0), make(0, 1, 2);
    store(0, 0, LINK, 1);
    clear(0, 0, 1);
    obey_all(&heap, &block);
    CHECK(heap.remember[1] == 1);
    collect(0);
    CHECK(!there(1) && there(2) && heap.remember[1] == 0);
    obey_next(&heap, &block, TALDREKU_END, 0, 0, 0, 0);
    CHECK(!there(2) && *freed_word(&heap) == 2);
    release();
}

void test_collect(void) {
    begin("collections");
    for (Edge edge = AT_END; edge <= AT_START; edge++) {
        refusals(edge);
        kept(edge);
        places(edge);
        full(edge);
        freed_holder(edge);
    }
    discard(&block);
    end();
}
