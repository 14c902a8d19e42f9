/* The largest sizes: all 129 regions open, every page and every entry in use, and ends that many objects survive. Fifteen threads have a list of
 * 112 objects at each of their eight levels; in the first 39 objects of a list a second slot points to the list one level further out. The
 * sixteenth fills what pages are left. An object of the control space holds the tenth object of thread 0's innermost list, and with it the nine
 * that it leads to. The hand-written heap of the benchmark obeys the same commands, and is compared. */
#include "check.h"

#include <stdio.h>

#include "../../bench/plain.h"

enum { THREADS = 15, LEVELS = 8, LIST = 112, CROSSING = 39, HELD = 10, FILLER = 15 };
/* the objects that survive, with the register, and those of the sixteenth thread, which are freed */
enum { KEPT = 1 + THREADS * LEVELS * LIST, FILLING = 183 * 16 };
/* variables: the head of the list of a level, and of every thread the object that is made, the one held, and the register */
enum { OBJECT = LEVELS, LOOK, TENTH, REGISTER };
/* fields of an object */
enum { BEFORE = 0, OUTER = 1, NAME = 0 };

static Lent ours, plain;
static Block block;

static uint32_t name_of(uint32_t thread, uint32_t level, uint32_t i) { return (thread * LEVELS + level) * LIST + i; }

/* Runs the block on both heaps; no command of it is refused. */
static void both(void) {
    static uint32_t answers[2 * 8192];
    CHECK(block.commands <= 8192);
    obey(&ours, &block);
    CHECK(plain_run(plain.cells, plain.cells_words, plain.remember, plain.remember_words, plain.tables, plain.tables_words, plain.chains,
                    plain.chains_words, block.words, TALDREKU_COMMAND_WORDS * block.commands, answers,
                    sizeof answers / sizeof answers[0]) == TALDREKU_DONE);
    size_t other = 0;
    for (size_t i = 0; i < TALDREKU_ANSWER_WORDS * block.commands; i++) other += answers[i] != block.answers[i];
    CHECK(other == 0);
    empty(&block);
}

static void make_list(uint32_t thread, uint32_t level) {
    add(&block, TALDREKU_START, thread, 0, 0, 0);
    for (uint32_t i = 0; i < LIST; i++) {
        add(&block, TALDREKU_NEW, thread, OBJECT, 2, 1);
        add(&block, TALDREKU_WRITE, thread, OBJECT, NAME, name_of(thread, level, i));
        add(&block, TALDREKU_STORE, thread, OBJECT, BEFORE, level);
        if (level > 0 && i < CROSSING) add(&block, TALDREKU_STORE, thread, OBJECT, OUTER, level - 1);
        add(&block, TALDREKU_COPY, thread, level, OBJECT, thread);
        if (thread == 0 && level == LEVELS - 1 && i == HELD - 1) add(&block, TALDREKU_COPY, thread, TENTH, OBJECT, thread);
    }
    add(&block, TALDREKU_CLEAR, thread, OBJECT, 0, 0);
    both();
}

static void fill(void) {
    struct taldreku_row rows[TALDREKU_MAX_ROWS];
    uint32_t value;
    add(&block, TALDREKU_NEW, 0, REGISTER, TALDREKU_MAX_FIELDS, 0);
    both();
    for (uint32_t thread = 0; thread < THREADS; thread++)
        for (uint32_t level = 0; level < LEVELS; level++) make_list(thread, level);
    add(&block, TALDREKU_STORE, 0, REGISTER, 0, TENTH);
    add(&block, TALDREKU_CLEAR, 0, TENTH, 0, 0);
    for (uint32_t level = 0; level < LEVELS; level++) add(&block, TALDREKU_START, FILLER, 0, 0, 0);
    for (uint32_t page = 1 + THREADS * LEVELS * LIST / 16; page < TALDREKU_MAX_PAGES; page++)
        for (uint32_t i = 0; i < 16; i++) add(&block, TALDREKU_NEW, FILLER, 0, 14, 0);
    both();

    struct taldreku_reported r = report(&ours, rows, TALDREKU_MAX_ROWS);
    CHECK(r.number == TALDREKU_DONE && r.rows == TALDREKU_MAX_ROWS && r.free_pages == 0 && r.crossing_slots == TALDREKU_MAX_ENTRIES);
    CHECK(r.made == KEPT + FILLING && r.freed == 0 && r.total == KEPT + FILLING);
    CHECK(rows[0].objects == 1 && rows[0].pages == 1);
    CHECK(rows[1].objects == LIST && rows[1].pages == LIST / 16 && rows[1].thread == 0 && rows[1].level == 1);
    CHECK(rows[128].objects == FILLING && rows[128].pages == 183 && rows[128].thread == FILLER && rows[128].level == LEVELS);
    check_report(&ours);

    /* no page and no entry is left, and what is refused changes no word */
    Lent before = copy_of(&ours);
    CHECK(answer(&ours, TALDREKU_NEW, FILLER, 1, 0, 0, &value) == TALDREKU_PAGES && value == 0);
    CHECK(answer(&ours, TALDREKU_END, 0, 0, 0, 0, &value) == TALDREKU_PAGES && value == 0);
    CHECK(answer(&ours, TALDREKU_STORE, 0, REGISTER, 1, 0, &value) == TALDREKU_ENTRIES && value == 0);
    CHECK(answer(&ours, TALDREKU_START, 3, 0, 0, 0, &value) == TALDREKU_DEPTH && value == 0);
    CHECK(same_words(&ours, &before));
    drop(&before);
}

/* Whether both heaps are whole, each by the other's check, and the same word for word. */
static void compare(void) {
    CHECK(check_by_hand(&ours) == TALDREKU_DONE);
    CHECK(run(&plain, NULL, 0, NULL, 0) == TALDREKU_DONE);
    CHECK(agree(&ours, &plain) && chains_right(&ours));
}

static void ends(void) {
    struct taldreku_row rows[TALDREKU_MAX_ROWS];
    compare();
    add(&block, TALDREKU_CLEAR, FILLER, 0, 0, 0);
    for (uint32_t level = 0; level < LEVELS; level++) add(&block, TALDREKU_END, FILLER, 0, 0, 0);
    both();
    struct taldreku_reported r = report(&ours, rows, TALDREKU_MAX_ROWS);
    CHECK(r.rows == 1 + THREADS * LEVELS && r.free_pages == 183);
    CHECK(r.made == KEPT + FILLING && r.freed == FILLING && r.total == KEPT);

    /* the innermost epoch of thread 0: ten objects go to the control space, and with them slots that still cross */
    add(&block, TALDREKU_END, 0, 0, 0, 0);
    both();
    r = report(&ours, rows, TALDREKU_MAX_ROWS);
    CHECK(rows[0].objects == 1 + HELD && rows[LEVELS - 1].objects == 2 * LIST - HELD && rows[LEVELS - 1].level == LEVELS - 1);
    CHECK(r.crossing_slots == TALDREKU_MAX_ENTRIES - 1 - (CROSSING - HELD));
    compare();

    for (uint32_t thread = 0; thread < THREADS; thread++) {
        for (uint32_t level = thread == 0 ? 1 : 0; level < LEVELS; level++) {
            add(&block, TALDREKU_END, thread, 0, 0, 0);
            both();
        }
        compare();
        check_report(&ours);
    }
    r = report(&ours, rows, TALDREKU_MAX_ROWS);
    CHECK(r.rows == 1 && r.crossing_slots == 0 && r.free_pages == TALDREKU_MAX_PAGES - rows[0].pages);
    CHECK(rows[0].objects == KEPT && rows[0].pages == (KEPT + 15) / 16);
    CHECK(r.made == KEPT + FILLING && r.freed == FILLING && r.total == KEPT);
}

/* Every list is as it was made. */
static void walk(void) {
    for (uint32_t thread = 0; thread < THREADS; thread++)
        for (uint32_t level = 0; level < LEVELS; level++) {
            add(&block, TALDREKU_COPY, thread, OBJECT, level, thread);
            for (uint32_t i = 0; i < LIST; i++) {
                add(&block, TALDREKU_READ, thread, OBJECT, NAME, 0);
                add(&block, TALDREKU_LOAD, thread, LOOK, OBJECT, OUTER);
                add(&block, TALDREKU_SAME, thread, LOOK, level == 0 ? 0 : level - 1, 0);
                add(&block, TALDREKU_LOAD, thread, OBJECT, OBJECT, BEFORE);
            }
            obey(&ours, &block);
            for (uint32_t i = 0; i < LIST; i++) {
                const uint32_t *a = block.answers + TALDREKU_ANSWER_WORDS * (1 + 4 * i);
                uint32_t at = LIST - 1 - i, outer = level > 0 && at < CROSSING;
                CHECK(a[1] == name_of(thread, level, at) && a[3] == outer && a[5] == outer && a[7] == (at > 0));
            }
            empty(&block);
        }
}

/* The variables that the walk, on our heap alone, has set. */
static void clear_walked(void) {
    for (uint32_t thread = 0; thread < THREADS; thread++) {
        add(&block, TALDREKU_CLEAR, thread, OBJECT, 0, 0);
        add(&block, TALDREKU_CLEAR, thread, LOOK, 0, 0);
    }
}

/* Collections of the full control space: the first moves nearly all objects, and frees none; the second keeps the lists of every second thread. */
static void collections(void) {
    struct taldreku_row rows[TALDREKU_MAX_ROWS];
    clear_walked();
    add(&block, TALDREKU_COLLECT, FILLER, 0, 0, 0);
    both();
    compare();
    struct taldreku_reported r = report(&ours, rows, TALDREKU_MAX_ROWS);
    CHECK(rows[0].objects == KEPT && r.freed == FILLING);
    walk();

    clear_walked();
    for (uint32_t thread = 1; thread < THREADS; thread += 2)
        for (uint32_t v = 0; v < LARGEST.variables; v++) add(&block, TALDREKU_CLEAR, thread, v, 0, 0);
    add(&block, TALDREKU_COLLECT, 0, 0, 0, 0);
    both();
    compare();
    r = report(&ours, rows, TALDREKU_MAX_ROWS);
    uint32_t gone = THREADS / 2 * LEVELS * LIST;
    CHECK(rows[0].objects == KEPT - gone && rows[0].pages == (KEPT - gone + 15) / 16 && r.freed == FILLING + gone);
    CHECK(r.free_pages == TALDREKU_MAX_PAGES - rows[0].pages);
    check_report(&ours);
}

/* ---- the stack of each call */

static uint32_t stack_number, stack_answers[TALDREKU_ANSWER_WORDS] = {99, 99};

static void ends_one(void) {
    static const uint32_t end_one[TALDREKU_COMMAND_WORDS] = {TALDREKU_END, 1, 0, 0, 0};
    stack_number = taldreku_run(ours.cells, ours.cells_words, ours.remember, ours.remember_words, ours.tables, ours.tables_words, ours.chains,
                                ours.chains_words, end_one, TALDREKU_COMMAND_WORDS, stack_answers, TALDREKU_ANSWER_WORDS);
}

static void collects_all(void) {
    static const uint32_t collect[TALDREKU_COMMAND_WORDS] = {TALDREKU_COLLECT, 0, 0, 0, 0};
    stack_number = taldreku_run(ours.cells, ours.cells_words, ours.remember, ours.remember_words, ours.tables, ours.tables_words, ours.chains,
                                ours.chains_words, collect, TALDREKU_COMMAND_WORDS, stack_answers, TALDREKU_ANSWER_WORDS);
}

static struct taldreku_row stack_rows[TALDREKU_MAX_ROWS];

static void reports_all(void) {
    stack_number = taldreku_report(ours.cells, ours.cells_words, ours.remember, ours.remember_words, ours.tables, ours.tables_words, ours.chains,
                                   ours.chains_words, stack_rows, TALDREKU_MAX_ROWS).number;
}

static void prepares_all(void) {
    stack_number = taldreku_prepare(LARGEST.threads, LARGEST.variables, LARGEST.depth, LARGEST.pages, LARGEST.entries, plain.cells,
                                    plain.cells_words, plain.remember, plain.remember_words, plain.tables, plain.tables_words, plain.chains,
                                    plain.chains_words);
}

static void nothing(void) { stack_number = TALDREKU_DONE; }

static void stack(void) {
    void (*works[])(void) = {reports_all, ends_one, collects_all, prepares_all};
    begin("stack");
    ours = prepared(LARGEST, 0, AT_END), plain = lend(LARGEST, 0, AT_END);
    /* 300 objects whose second slots point to the outermost level go to the control space: so many new entries are sorted at once, in the
     * arrays that take most of the stack; the collection after it moves them all once more */
    add(&block, TALDREKU_NEW, 0, REGISTER, TALDREKU_MAX_FIELDS, 0);
    add(&block, TALDREKU_START, 1, 0, 0, 0);
    add(&block, TALDREKU_NEW, 1, LOOK, 0, 0);
    for (uint32_t level = 1; level < LEVELS; level++) add(&block, TALDREKU_START, 1, 0, 0, 0);
    for (uint32_t i = 0; i < 300; i++) {
        add(&block, TALDREKU_NEW, 1, OBJECT, 2, 1);
        add(&block, TALDREKU_STORE, 1, OBJECT, BEFORE, 0);
        add(&block, TALDREKU_STORE, 1, OBJECT, OUTER, LOOK);
        add(&block, TALDREKU_COPY, 1, 0, OBJECT, 1);
    }
    add(&block, TALDREKU_COPY, 0, OBJECT, 0, 1);
    add(&block, TALDREKU_STORE, 0, REGISTER, 3, OBJECT);
    obey(&ours, &block);
    empty(&block);
    CHECK(ours.remember[1] == 301);
    size_t before = stack_of(nothing), most = 0;
    for (size_t i = 0; i < sizeof works / sizeof works[0]; i++) {
        size_t bytes = stack_of(works[i]) - before;
        CHECK(stack_number == TALDREKU_DONE && bytes < TALDREKU_STACK_BYTES);
        if (bytes > most) most = bytes;
    }
    CHECK(stack_answers[0] == TALDREKU_DONE && stack_rows[8].objects == 300 && ours.remember[1] == 300);
    printf("stack: %zu bytes at most\n", most);
    end();
}

void test_largest(void) {
    begin("largest sizes");
    ours = prepared(LARGEST, 0, AT_END), plain = lend(LARGEST, 0, AT_END);
    CHECK(plain_prepare(LARGEST.threads, LARGEST.variables, LARGEST.depth, LARGEST.pages, LARGEST.entries, plain.cells, plain.cells_words,
                        plain.remember, plain.remember_words, plain.tables, plain.tables_words, plain.chains,
                        plain.chains_words) == TALDREKU_DONE);
    fill();
    ends();
    walk();
    collections();
    end();
    stack();
    discard(&block);
}
