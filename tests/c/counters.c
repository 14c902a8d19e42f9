/* Objects made and objects freed. An import, after each block of which both counters and the total are what its commands say; counters that pass
 * 4,294,967,295; commands, blocks and reports that are refused; and heaps with a counter damaged. The check by hand of the benchmark says the
 * same of each heap. */
#include "check.h"

#include <string.h>

static Lent heap;
static Block block;

/* The report has these figures, the total is the sum of its rows, and the two words are the figures. */
static void check_counters(uint32_t made, uint32_t freed, uint32_t total) {
    struct taldreku_row rows[TALDREKU_MAX_ROWS];
    struct taldreku_reported r = report(&heap, rows, TALDREKU_MAX_ROWS);
    uint32_t sum = 0;
    CHECK(r.number == TALDREKU_DONE && r.made == made && r.freed == freed && r.total == total);
    for (uint32_t i = 0; i < r.rows; i++) sum += rows[i].objects;
    CHECK(sum == total);
    CHECK(*made_word(&heap) == made && *freed_word(&heap) == freed);
    CHECK(check_by_hand(&heap) == TALDREKU_DONE);
    check_report(&heap);
}

/* As if so many objects had been made, and all but those that are there freed. */
static void count_from(uint32_t made) {
    uint32_t live = *made_word(&heap) - *freed_word(&heap);
    *made_word(&heap) = made, *freed_word(&heap) = made - live;
}

/* ---- the import: each of three threads has a workbook with a register, and three sheets in it, one after the other; a fleet register stands in
 * the control space */

enum { THREADS = 3, SHEETS = 3, WHEELS = 40, IN_BOOK = 4, IN_FLEET = 1 };
/* the variables of a thread */
enum { BOOK, FLEET, WHEEL, VARIABLES };

/* A sheet of each thread. The workbook keeps every tenth wheel, the fleet register one of the others. */
static void load_sheets(uint32_t sheet, uint32_t *made, uint32_t *freed) {
    for (uint32_t thread = 0; thread < THREADS; thread++) {
        add(&block, TALDREKU_START, thread, 0, 0, 0);
        for (uint32_t wheel = 0; wheel < WHEELS; wheel++) {
            add(&block, TALDREKU_NEW, thread, WHEEL, 1, 2);
            if (wheel % 10 == 5) add(&block, TALDREKU_STORE, thread, BOOK, IN_BOOK * sheet + wheel / 10, WHEEL);
            if (wheel == 20 + thread) add(&block, TALDREKU_STORE, thread, FLEET, SHEETS * thread + sheet, WHEEL);
        }
        add(&block, TALDREKU_CLEAR, thread, WHEEL, 0, 0);
        obey_all(&heap, &block);
        *made += WHEELS;
        check_counters(*made, *freed, *made - *freed);
    }
    for (uint32_t thread = 0; thread < THREADS; thread++) {
        obey_next(&heap, &block, TALDREKU_END, thread, 0, 0, 0);
        *freed += WHEELS - IN_BOOK - IN_FLEET;
        check_counters(*made, *freed, *made - *freed);
    }
}

/* From prepare on, or with the counters moved so that both pass the limit on the way. */
static void import(uint32_t before, Edge edge) {
    uint32_t made, freed;
    heap = prepared((Sizes){THREADS, VARIABLES, 2, 24, 64}, 16, edge);
    check_counters(0, 0, 0);
    count_from(before);
    add(&block, TALDREKU_NEW, 0, FLEET, THREADS * SHEETS, 0);
    for (uint32_t thread = 0; thread < THREADS; thread++) {
        add(&block, TALDREKU_COPY, thread, FLEET, FLEET, 0);
        add(&block, TALDREKU_START, thread, 0, 0, 0);
        add(&block, TALDREKU_NEW, thread, BOOK, IN_BOOK * SHEETS, 0);
    }
    obey_all(&heap, &block);
    made = before + 1 + THREADS, freed = before;
    check_counters(made, freed, 1 + THREADS);
    for (uint32_t sheet = 0; sheet < SHEETS; sheet++) load_sheets(sheet, &made, &freed);
    check_counters(before + 364, before + 315, 49);

    /* a workbook and the wheels that it alone keeps */
    for (uint32_t thread = 0; thread < THREADS; thread++) {
        add(&block, TALDREKU_CLEAR, thread, BOOK, 0, 0);
        add(&block, TALDREKU_END, thread, 0, 0, 0);
        obey_all(&heap, &block);
        freed += 1 + SHEETS * IN_BOOK;
        check_counters(made, freed, made - freed);
    }
    check_counters(before + 364, before + 354, 10);
    release();
}

/* ---- counters that pass the limit, step by step */

static void wrapped(Edge edge) {
    static const Sizes sizes = {2, 4, 2, 6, 4};
    heap = prepared(sizes, 9, edge);
    add(&block, TALDREKU_NEW, 1, 0, 1, 1);          /* in the control space */
    add(&block, TALDREKU_START, 0, 0, 0, 0);
    for (uint32_t v = 0; v < 3; v++) add(&block, TALDREKU_NEW, 0, v, 1, 1);
    obey_all(&heap, &block);
    check_counters(4, 0, 4);
    count_from(4294967294);
    check_counters(4294967294, 4294967290, 4);

    obey_next(&heap, &block, TALDREKU_NEW, 0, 3, 0, 0);
    check_counters(4294967295, 4294967290, 5);
    obey_next(&heap, &block, TALDREKU_NEW, 0, 3, 0, 0);
    check_counters(0, 4294967290, 6);
    obey_next(&heap, &block, TALDREKU_NEW, 0, 3, 0, 0);
    check_counters(1, 4294967290, 7);

    /* of the six objects of the epoch variables 0 and 3 keep two: four are freed */
    add(&block, TALDREKU_CLEAR, 0, 1, 0, 0);
    add(&block, TALDREKU_CLEAR, 0, 2, 0, 0);
    add(&block, TALDREKU_END, 0, 0, 0, 0);
    obey_all(&heap, &block);
    check_counters(1, 4294967294, 3);

    /* two are freed: to 0 */
    add(&block, TALDREKU_START, 0, 0, 0, 0);
    for (uint32_t i = 0; i < 2; i++) add(&block, TALDREKU_NEW, 0, 1, 2, 0);
    add(&block, TALDREKU_CLEAR, 0, 1, 0, 0);
    add(&block, TALDREKU_END, 0, 0, 0, 0);
    obey_all(&heap, &block);
    check_counters(3, 0, 3);

    /* past the limit in one end, which keeps three of twenty: by a slot of the control space and by variables 1 and 2 */
    count_from(4294967290);
    add(&block, TALDREKU_START, 0, 0, 0, 0);
    for (uint32_t i = 0; i < 20; i++) {
        add(&block, TALDREKU_NEW, 0, 1, 1, 0);
        if (i == 7) add(&block, TALDREKU_COPY, 1, 1, 1, 0);
        if (i == 8) add(&block, TALDREKU_COPY, 0, 2, 1, 0);
    }
    add(&block, TALDREKU_STORE, 1, 0, 0, 1);
    add(&block, TALDREKU_CLEAR, 1, 1, 0, 0);
    obey_all(&heap, &block);
    check_counters(14, 4294967287, 23);
    obey_next(&heap, &block, TALDREKU_END, 0, 0, 0, 0);
    check_counters(14, 8, 6);

    /* an epoch inside another: what the inner keeps is freed once, by the outer */
    add(&block, TALDREKU_START, 0, 0, 0, 0);
    add(&block, TALDREKU_START, 0, 0, 0, 0);
    for (uint32_t i = 0; i < 3; i++) add(&block, TALDREKU_NEW, 0, 3, 0, 1);
    add(&block, TALDREKU_END, 0, 0, 0, 0);
    obey_all(&heap, &block);
    check_counters(17, 10, 7);
    add(&block, TALDREKU_CLEAR, 0, 3, 0, 0);
    add(&block, TALDREKU_END, 0, 0, 0, 0);
    obey_all(&heap, &block);
    check_counters(17, 11, 6);

    CHECK(prepare(sizes, &heap) == TALDREKU_DONE);
    check_counters(0, 0, 0);
    release();
}

/* ---- what is refused counts nothing */

static void refused(uint32_t number, uint32_t code, uint32_t thread, uint32_t a, uint32_t b, uint32_t c) {
    Lent before = copy_of(&heap);
    uint32_t value;
    CHECK(answer(&heap, code, thread, a, b, c, &value) == number && value == 0);
    CHECK(same_words(&heap, &before));
    drop(&before);
}

static void refused_blocks(void) {
    static const uint32_t new_object[TALDREKU_COMMAND_WORDS] = {TALDREKU_NEW, 1, 0, 0, 0};
    uint32_t answers[TALDREKU_ANSWER_WORDS];
    Lent before = copy_of(&heap), shorter = heap;
    CHECK(run(&heap, new_object, TALDREKU_COMMAND_WORDS - 1, answers, TALDREKU_ANSWER_WORDS) == TALDREKU_BLOCK);
    CHECK(run(&heap, new_object, TALDREKU_COMMAND_WORDS, answers, TALDREKU_ANSWER_WORDS - 1) == TALDREKU_ANSWERS);
    /* tables without the second counter, or without both */
    for (size_t words = 1; words <= 2; words++) {
        shorter.tables_words = (size_t)(made_word(&heap) + 2 - heap.tables) - words;
        CHECK(run(&shorter, new_object, TALDREKU_COMMAND_WORDS, answers, TALDREKU_ANSWER_WORDS) == TALDREKU_NOT_WHOLE);
    }
    CHECK(same_words(&heap, &before));
    drop(&before);
}

/* Thread 0 has z at level 1, in its slot y; at level 3 x with two slots to y, y, and w, which nothing holds. Its end sends y to level 1 and x to
 * level 2, so that two slots cross, and frees w. */
static void refusals(Edge edge) {
    struct taldreku_row rows[5];
    heap = prepared((Sizes){2, 4, 3, 3, 1}, 12, edge);
    add(&block, TALDREKU_START, 0, 0, 0, 0);
    add(&block, TALDREKU_NEW, 0, 0, 2, 0);
    for (uint32_t i = 0; i < 2; i++) add(&block, TALDREKU_START, 0, 0, 0, 0);
    add(&block, TALDREKU_NEW, 0, 1, 2, 0);
    add(&block, TALDREKU_NEW, 0, 2, 0, 1);
    add(&block, TALDREKU_NEW, 0, 3, 0, 0);
    add(&block, TALDREKU_STORE, 0, 0, 0, 2);
    for (uint32_t f = 0; f < 2; f++) add(&block, TALDREKU_STORE, 0, 1, f, 2);
    add(&block, TALDREKU_CLEAR, 0, 3, 0, 0);
    obey_all(&heap, &block);
    check_counters(4, 0, 4);
    count_from(4294967295);

    refused(TALDREKU_CODE, 12, 0, 0, 0, 0);
    refused(TALDREKU_THREAD, TALDREKU_NEW, 2, 0, 0, 0);
    refused(TALDREKU_OPERAND, TALDREKU_NEW, 0, 4, 0, 0);
    refused(TALDREKU_OPERAND, TALDREKU_NEW, 0, 0, 8, 7);
    refused(TALDREKU_OPERAND, TALDREKU_END, 0, 1, 0, 0);
    refused(TALDREKU_OPERAND, TALDREKU_COLLECT, 0, 1, 0, 0);
    refused(TALDREKU_NULL, TALDREKU_READ, 0, 3, 0, 0);
    refused(TALDREKU_FIELD, TALDREKU_READ, 0, 2, 1, 0);
    refused(TALDREKU_DEPTH, TALDREKU_START, 0, 0, 0, 0);
    refused(TALDREKU_NO_EPOCH, TALDREKU_END, 1, 0, 0, 0);
    refused(TALDREKU_ENTRIES, TALDREKU_STORE, 0, 0, 1, 2);
    refused(TALDREKU_ENTRIES, TALDREKU_END, 0, 0, 0, 0);
    refused_blocks();
    check_counters(4294967295, 4294967291, 4);

    /* the third page goes to the control space, and is the last */
    add(&block, TALDREKU_NEW, 1, 0, 0, 0);
    add(&block, TALDREKU_START, 1, 0, 0, 0);
    obey_all(&heap, &block);
    refused(TALDREKU_PAGES, TALDREKU_NEW, 1, 1, 0, 0);
    refused(TALDREKU_PAGES, TALDREKU_END, 0, 0, 0, 0);
    check_counters(0, 4294967291, 5);

    struct taldreku_reported r = report(&heap, rows, 4);
    CHECK(r.number == TALDREKU_ROWS && no_figures(r));
    r = report(&heap, rows, 5);
    CHECK(r.number == TALDREKU_DONE && r.rows == 5 && r.made == 0 && r.freed == 4294967291 && r.total == 5);

    /* without x the end needs neither page nor entry: x and w are freed */
    obey_next(&heap, &block, TALDREKU_CLEAR, 0, 1, 0, 0);
    obey_next(&heap, &block, TALDREKU_END, 0, 0, 0, 0);
    check_counters(0, 4294967293, 3);
    release();
}

/* ---- a counter damaged */

static void not_whole(void) {
    static const uint32_t start[TALDREKU_COMMAND_WORDS] = {TALDREKU_START, 0, 0, 0, 0};
    uint32_t answers[TALDREKU_ANSWER_WORDS] = {7, 8};
    struct taldreku_row rows[TALDREKU_MAX_ROWS], kept[TALDREKU_MAX_ROWS];
    memset(rows, 0xa5, sizeof rows), memset(kept, 0xa5, sizeof kept);
    Lent before = copy_of(&heap);
    CHECK(run(&heap, start, TALDREKU_COMMAND_WORDS, answers, TALDREKU_ANSWER_WORDS) == TALDREKU_NOT_WHOLE);
    CHECK(answers[0] == 7 && answers[1] == 8);
    struct taldreku_reported r = report(&heap, rows, TALDREKU_MAX_ROWS);
    CHECK(r.number == TALDREKU_NOT_WHOLE && no_figures(r));
    CHECK(memcmp(rows, kept, sizeof rows) == 0);
    CHECK(check_by_hand(&heap) == TALDREKU_NOT_WHOLE);
    CHECK(same_words(&heap, &before));
    drop(&before);
}

/* Each bit of each word; one more made and one less freed; both exchanged. Tables with both words moved alike are whole, whatever they are then. */
static void damage(void) {
    uint32_t made = *made_word(&heap), freed = *freed_word(&heap), live = made - freed;
    uint32_t *words[] = {made_word(&heap), freed_word(&heap)};
    for (size_t i = 0; i < 2; i++)
        for (uint32_t bit = 0; bit < 32; bit++) {
            *words[i] ^= 1u << bit;
            not_whole();
            *words[i] ^= 1u << bit;
        }
    *made_word(&heap) = made + 1, *freed_word(&heap) = freed - 1;
    not_whole();
    *made_word(&heap) = freed, *freed_word(&heap) = made;
    if (live != 0) not_whole();
    static const uint32_t others[] = {0, 1, 2147483647, 2147483648, 4294967294, 4294967295};
    for (size_t i = 0; i < sizeof others / sizeof others[0]; i++) {
        *made_word(&heap) = others[i], *freed_word(&heap) = others[i] - live;
        check_counters(others[i], others[i] - live, live);
        *freed_word(&heap) = others[i], *made_word(&heap) = others[i] + live;
        check_counters(others[i] + live, others[i], live);
    }
    *made_word(&heap) = made, *freed_word(&heap) = freed;
    CHECK(run(&heap, NULL, 0, NULL, 0) == TALDREKU_DONE);
}

static void damaged(Edge edge) {
    heap = prepared((Sizes){1, 1, 1, 1, 0}, 0, edge);
    damage();
    release();

    /* objects in the control space and in two regions, and some that were freed */
    heap = prepared((Sizes){2, 2, 2, 5, 2}, 9, edge);
    add(&block, TALDREKU_START, 1, 0, 0, 0);
    for (uint32_t i = 0; i < 16 + 5; i++) add(&block, TALDREKU_NEW, 0, 0, 1, 1);
    for (uint32_t i = 0; i < 6; i++) add(&block, TALDREKU_NEW, 1, 0, 0, 14);
    add(&block, TALDREKU_END, 1, 0, 0, 0);
    for (uint32_t level = 0; level < 2; level++) {
        add(&block, TALDREKU_START, 1, 0, 0, 0);
        for (uint32_t i = 0; i < 3; i++) add(&block, TALDREKU_NEW, 1, 1, 2, 0);
    }
    obey_all(&heap, &block);
    check_counters(33, 5, 28);
    damage();
    release();

    heap = prepared(LARGEST, 3, edge);
    obey_next(&heap, &block, TALDREKU_NEW, 15, 31, 0, 0);
    damage();
    release();
}

void test_counters(void) {
    begin("objects made and freed");
    for (Edge edge = AT_END; edge <= AT_START; edge++) {
        import(0, edge);
        import(4294967000, edge);
        wrapped(edge);
        refusals(edge);
        damaged(edge);
    }
    discard(&block);
    end();
}
