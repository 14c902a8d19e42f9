/* Cells not in use hold zero words. An import whose numbers carry a pattern that no other word of the cells can have: after each end it stands
 * in the cells of the objects that are left, and nowhere else. Then prepare over used heaps, heaps with one word of such a cell damaged, and an
 * end that is refused. */
#include "check.h"

#include <string.h>

/* ---- the import: each of three threads has a workbook with a register, and three sheets in it, one after the other; a fleet register stands in
 * the control space */

/* A wheel has a reference, and numbers in all that is left of its cell. */
enum { BEFORE = 0, NUMBERS = TALDREKU_MAX_FIELDS - 1 };
enum { THREADS = 3, SHEETS = 3, WHEELS = 40, PLATES = THREADS * SHEETS * WHEELS * NUMBERS };
/* the variables of a thread */
enum { BOOK, FLEET, WHEEL, LAST, VARIABLES };

/* Word 0 of a cell is below 256 and a reference at most 16,384. */
#define PATTERN 0xd1a70000u

static Lent heap;
static Block block;
/* whether the wheel with this number is there, and how often the number stands in the cells */
static uint32_t living[PLATES], seen[PLATES];

static uint32_t plate(uint32_t thread, uint32_t sheet, uint32_t wheel) { return ((thread * SHEETS + sheet) * WHEELS + wheel) * NUMBERS; }

static void set_living(uint32_t thread, uint32_t sheet, uint32_t wheel, uint32_t there) {
    for (uint32_t f = 0; f < NUMBERS; f++) living[plate(thread, sheet, wheel) + f] = there;
}

/* Which wheels the registers keep; some lead to the one before them, which is kept with them. */
static int leads(uint32_t wheel) { return wheel % 3 == 2; }
static int in_book(uint32_t wheel) { return wheel % 10 == 5; }
static int in_fleet(uint32_t thread, uint32_t wheel) { return wheel == 20 + thread; }

/* Every plate of a living wheel stands in one word of the cells, no other word has the pattern, and no cell that is not in use has a word that is
 * not zero. */
static void check_cells(void) {
    uint32_t stray = 0, left = 0;
    memset(seen, 0, sizeof seen);
    for (size_t i = 0; i < taldreku_cells_length(heap.tables[3]); i++)
        if ((heap.cells[i] & 0xffff0000) == PATTERN) {
            if ((heap.cells[i] & 0xffff) < PLATES) seen[heap.cells[i] & 0xffff]++;
            else stray++;
        }
    for (uint32_t i = 0; i < PLATES; i++) stray += seen[i] != living[i];
    CHECK(stray == 0);
    for (uint32_t page = 0; page < heap.tables[3]; page++)
        for (uint32_t word = 16 * used_on(&heap, page); word < 256; word++) left += heap.cells[256 * page + word] != 0;
    CHECK(left == 0);
}

static void go(void) {
    obey(&heap, &block);
    empty(&block);
}

static void clear_variables(uint32_t thread, uint32_t from) {
    for (uint32_t v = from; v < VARIABLES; v++) add(&block, TALDREKU_CLEAR, thread, v, 0, 0);
}

static void make_wheel(uint32_t thread, uint32_t sheet, uint32_t wheel) {
    add(&block, TALDREKU_COPY, thread, LAST, WHEEL, thread);
    add(&block, TALDREKU_NEW, thread, WHEEL, 1, NUMBERS);
    for (uint32_t f = 0; f < NUMBERS; f++) add(&block, TALDREKU_WRITE, thread, WHEEL, f, PATTERN + plate(thread, sheet, wheel) + f);
    if (leads(wheel)) add(&block, TALDREKU_STORE, thread, WHEEL, BEFORE, LAST);
    if (in_book(wheel)) add(&block, TALDREKU_STORE, thread, BOOK, 4 * sheet + wheel / 10, WHEEL);
    if (in_fleet(thread, wheel)) add(&block, TALDREKU_STORE, thread, FLEET, SHEETS * thread + sheet, WHEEL);
    set_living(thread, sheet, wheel, 1);
}

/* The wheels of a sheet that are not kept are gone when it has ended; those of the book when the workbook has. */
static void gone(uint32_t thread, uint32_t sheet, int book_ended) {
    for (uint32_t wheel = 0; wheel < WHEELS; wheel++) {
        uint32_t next = wheel + 1;
        int led = next < WHEELS && leads(next);
        int fleet = in_fleet(thread, wheel) || (led && in_fleet(thread, next)), book = in_book(wheel) || (led && in_book(next));
        if (!fleet && (book_ended || !book)) set_living(thread, sheet, wheel, 0);
    }
}

static uint32_t living_plates(void) {
    uint32_t n = 0;
    for (uint32_t i = 0; i < PLATES; i++) n += living[i];
    return n;
}

static void sheets_of_all(uint32_t sheet) {
    for (uint32_t thread = 0; thread < THREADS; thread++) add(&block, TALDREKU_START, thread, 0, 0, 0);
    for (uint32_t wheel = 0; wheel < WHEELS; wheel++)
        for (uint32_t thread = 0; thread < THREADS; thread++) make_wheel(thread, sheet, wheel);
    go();
    check_cells();
    for (uint32_t thread = 0; thread < THREADS; thread++) {
        clear_variables(thread, WHEEL);
        add(&block, TALDREKU_END, thread, 0, 0, 0);
        go();
        gone(thread, sheet, 0);
        check_cells();
    }
}

/* What the fleet register keeps is in the control space, so it stays; its numbers are overwritten. */
static void overwrite_fleet(void) {
    for (uint32_t thread = 0; thread < THREADS; thread++)
        for (uint32_t sheet = 0; sheet < SHEETS; sheet++) {
            uint32_t wheel = 20 + thread;
            add(&block, TALDREKU_LOAD, 0, WHEEL, FLEET, SHEETS * thread + sheet);
            for (uint32_t f = 0; f < NUMBERS; f++) add(&block, TALDREKU_WRITE, 0, WHEEL, f, 0);
            set_living(thread, sheet, wheel, 0);
            if (leads(wheel)) {
                add(&block, TALDREKU_LOAD, 0, WHEEL, WHEEL, BEFORE);
                for (uint32_t f = 0; f < NUMBERS; f++) add(&block, TALDREKU_WRITE, 0, WHEEL, f, 0);
                set_living(thread, sheet, wheel - 1, 0);
            }
            go();
            check_cells();
        }
}

static void import(Edge edge) {
    heap = prepared((Sizes){THREADS, VARIABLES, 2, 24, 64}, 16, edge);
    memset(living, 0, sizeof living);
    add(&block, TALDREKU_NEW, 0, FLEET, THREADS * SHEETS, 0);
    for (uint32_t thread = 0; thread < THREADS; thread++) {
        add(&block, TALDREKU_COPY, thread, FLEET, FLEET, 0);
        add(&block, TALDREKU_START, thread, 0, 0, 0);
        add(&block, TALDREKU_NEW, thread, BOOK, 4 * SHEETS, 0);
    }
    go();
    for (uint32_t sheet = 0; sheet < SHEETS; sheet++) sheets_of_all(sheet);
    /* of each sheet the four wheels in the book with two more, the one in the fleet register, and in thread 0 one more */
    CHECK(living_plates() == NUMBERS * SHEETS * (THREADS * (4 + 2 + 1) + 1));

    for (uint32_t thread = 0; thread < THREADS; thread++) {
        add(&block, TALDREKU_CLEAR, thread, BOOK, 0, 0);
        add(&block, TALDREKU_END, thread, 0, 0, 0);
        go();
        for (uint32_t sheet = 0; sheet < SHEETS; sheet++) gone(thread, sheet, 1);
        check_cells();
    }
    CHECK(living_plates() == NUMBERS * SHEETS * (THREADS + 1));

    overwrite_fleet();
    CHECK(living_plates() == 0);

    /* new objects on the pages that came back begin with zeros */
    uint32_t other = 0;
    add(&block, TALDREKU_START, 0, 0, 0, 0);
    for (uint32_t i = 0; i < 16 * 20; i++) add(&block, TALDREKU_NEW, 0, WHEEL, 0, TALDREKU_MAX_FIELDS);
    go();
    for (uint32_t page = 0; page < heap.tables[3]; page++)
        for (uint32_t word = 0; word < 16 * used_on(&heap, page); word++)
            if (heap.cells[256 * page + word / 16 * 16] == TALDREKU_MAX_FIELDS && word % 16 != 0) other += heap.cells[256 * page + word] != 0;
    CHECK(other == 0);
    release();
}

/* ---- prepare */

/* A heap full of the pattern is prepared anew, with fewer pages: their cells become zero, and the words past them stay. A refused call leaves
 * them all. */
static void prepare_anew(Edge edge) {
    enum { FEWER = 3 };
    static const Sizes sizes = {2, 2, 1, 5, 3};
    Sizes wrong = sizes, fewer = sizes;
    wrong.depth = 0, fewer.pages = FEWER;
    heap = prepared(sizes, 7, edge);
    for (size_t i = 0; i < heap.cells_words; i++) heap.cells[i] = PATTERN + (uint32_t)i;
    Lent before = copy_of(&heap), shorter = heap;
    shorter.tables_words = taldreku_tables_length(sizes.threads, sizes.variables, sizes.depth, sizes.pages) - 1;
    CHECK(prepare(wrong, &heap) == TALDREKU_SIZES && same_words(&heap, &before));
    CHECK(prepare(sizes, &shorter) == TALDREKU_SHORT && same_words(&heap, &before));
    CHECK(run(&heap, NULL, 0, NULL, 0) == TALDREKU_NOT_WHOLE && same_words(&heap, &before));

    CHECK(prepare(fewer, &heap) == TALDREKU_DONE);
    uint32_t other = 0;
    for (size_t i = 0; i < heap.cells_words; i++) other += heap.cells[i] != (i < 256 * FEWER ? 0 : before.cells[i]);
    CHECK(other == 0);
    CHECK(run(&heap, NULL, 0, NULL, 0) == TALDREKU_DONE);
    drop(&before);
    release();
}

/* ---- heaps with one word too many */

static void refused_with(size_t word, uint32_t value) {
    static const uint32_t start[TALDREKU_COMMAND_WORDS] = {TALDREKU_START, 0, 0, 0, 0};
    uint32_t answers[TALDREKU_ANSWER_WORDS] = {7, 8};
    struct taldreku_row rows[TALDREKU_MAX_ROWS];
    CHECK(heap.cells[word] == 0);
    heap.cells[word] = value;
    Lent before = copy_of(&heap);
    CHECK(run(&heap, start, TALDREKU_COMMAND_WORDS, answers, TALDREKU_ANSWER_WORDS) == TALDREKU_NOT_WHOLE);
    CHECK(answers[0] == 7 && answers[1] == 8);
    CHECK(report(&heap, rows, TALDREKU_MAX_ROWS).number == TALDREKU_NOT_WHOLE);
    CHECK(same_words(&heap, &before));
    drop(&before);
    heap.cells[word] = 0;
}

/* Every word of every cell not in use, on free pages and past the cells in use of pages that are partly filled. */
static void damaged(Edge edge) {
    heap = prepared((Sizes){2, 2, 1, 5, 2}, 9, edge);
    add(&block, TALDREKU_START, 1, 0, 0, 0);
    for (uint32_t i = 0; i < 16 + 5; i++) add(&block, TALDREKU_NEW, 0, 0, 1, 1);
    for (uint32_t i = 0; i < 15; i++) add(&block, TALDREKU_NEW, 1, 0, 0, 14);
    go();
    size_t words = 0;
    for (uint32_t page = 0; page < 5; page++)
        for (uint32_t word = 16 * used_on(&heap, page); word < 256; word++, words++) {
            refused_with(256 * page + word, 1);
            refused_with(256 * page + word, 0x80000000);
            refused_with(256 * page + word, draw() | 1);
            if (word % 16 == 15) continue;
            heap.cells[256 * page + 16 * (word / 16) + 15] = 0x80000000;       /* two words of a cell whose sum is 0 */
            refused_with(256 * page + word, 0x80000000);
            heap.cells[256 * page + 16 * (word / 16) + 15] = 0;
        }
    CHECK(words == 16 * (5 * 16 - 21 - 15));
    CHECK(run(&heap, NULL, 0, NULL, 0) == TALDREKU_DONE);
    release();

    heap = prepared(LARGEST, 3, edge);
    refused_with(0, PATTERN);
    refused_with(256 * TALDREKU_MAX_PAGES - 1, PATTERN);
    CHECK(run(&heap, NULL, 0, NULL, 0) == TALDREKU_DONE);
    release();
}

/* ---- an end that is refused */

/* No page is free for the list that variable 0 holds: the end gives 13 (14 is in commands.c), and every word stays. Without the variable it ends,
 * and clears them. */
static void refused_end(Edge edge) {
    uint32_t value;
    heap = prepared((Sizes){1, 2, 1, 4, 0}, 5, edge);
    memset(living, 0, sizeof living);
    for (uint32_t i = 0; i < 16; i++) add(&block, TALDREKU_NEW, 0, 1, 0, 0);
    add(&block, TALDREKU_START, 0, 0, 0, 0);
    for (uint32_t i = 0; i < 16 * 2 + 6; i++) {
        add(&block, TALDREKU_COPY, 0, 1, 0, 0);
        add(&block, TALDREKU_NEW, 0, 0, 1, 1);
        add(&block, TALDREKU_WRITE, 0, 0, 0, PATTERN + i);
        add(&block, TALDREKU_STORE, 0, 0, 0, 1);
        living[i] = 1;
    }
    go();
    check_cells();
    Lent before = copy_of(&heap);
    CHECK(answer(&heap, TALDREKU_END, 0, 0, 0, 0, &value) == TALDREKU_PAGES && value == 0);
    CHECK(same_words(&heap, &before));
    drop(&before);
    check_cells();
    for (uint32_t v = 0; v < 2; v++) add(&block, TALDREKU_CLEAR, 0, v, 0, 0);
    add(&block, TALDREKU_END, 0, 0, 0, 0);
    go();
    memset(living, 0, sizeof living);
    check_cells();
    release();
}

void test_cleared(void) {
    begin("cells not in use");
    for (Edge edge = AT_END; edge <= AT_START; edge++) {
        import(edge);
        prepare_anew(edge);
        damaged(edge);
        refused_end(edge);
    }
    discard(&block);
    end();
}
