/* The chains: what stores, ends and collections leave there, word for word in a small heap, and by the remember entries after every command of
 * longer ones; that what is refused leaves them; and that a run and a report refuse chains that are short, or differ in any word, with 16, after
 * 3 and before 4, 5 and 15. Their length, and prepare, are in calls.c. */
#include "check.h"

#include <stdlib.h>
#include <string.h>

/* write_chains, as the manual page has it; lib/test takes it from there */
#include "write_chains.h"

static Lent heap;
static Block block;

static size_t chains_length(void) { return taldreku_chains_length(heap.tables[0], heap.tables[2], heap.tables[4]); }

/* ---- word for word */

/* Three threads without an epoch inside another: the first words are those of the control space and of the three threads' regions. */
enum { REGIONS = 4, ENTRIES = 5, FIELDS = 5, RECORD = 0, ONE, OTHER, NOTHING, VARIABLES };

#define STAND(...) CHECK(memcmp(heap.chains, (const uint32_t[REGIONS + ENTRIES]){__VA_ARGS__}, (REGIONS + ENTRIES) * sizeof(uint32_t)) == 0)

static void store(uint32_t field, uint32_t variable) { obey_next(&heap, &block, TALDREKU_STORE, 0, RECORD, field, variable); }

/* The record, of the control space, has slots to an object of thread 1 and one of thread 2. */
static void record(size_t extra, Edge edge) {
    heap = prepared((Sizes){3, VARIABLES, 1, 6, ENTRIES}, extra, edge);
    add(&block, TALDREKU_NEW, 0, RECORD, FIELDS, 0);
    for (uint32_t thread = 1; thread < 3; thread++) {
        add(&block, TALDREKU_START, thread, 0, 0, 0);
        add(&block, TALDREKU_NEW, thread, RECORD, 1, 0);
        add(&block, TALDREKU_COPY, 0, thread == 1 ? ONE : OTHER, RECORD, thread);
    }
    add(&block, TALDREKU_COPY, 1, OTHER, RECORD, 2);
    obey_all(&heap, &block);
}

static void by_hand(Edge edge) {
    uint32_t value;
    record(3, edge);
    STAND(0, 0, 0, 0, /* */ 0, 0, 0, 0, 0);
    store(2, ONE);
    STAND(0, 0, 1, 0, /* */ 0, 0, 0, 0, 0);
    store(0, OTHER);
    STAND(0, 0, 2, 1, /* */ 0, 0, 0, 0, 0);
    store(4, ONE);
    STAND(0, 0, 2, 1, /* */ 0, 3, 0, 0, 0);
    store(1, ONE);
    STAND(0, 0, 2, 1, /* */ 0, 3, 4, 0, 0);
    store(3, OTHER);
    STAND(0, 0, 2, 1, /* */ 4, 3, 5, 0, 0);
    store(2, OTHER);        /* the entry changes its region */
    STAND(0, 0, 2, 1, /* */ 3, 5, 4, 0, 0);
    store(2, OTHER);        /* as it is */
    store(0, OTHER);
    STAND(0, 0, 2, 1, /* */ 3, 5, 4, 0, 0);

    /* there is no entry for a sixth slot */
    Lent before = copy_of(&heap);
    CHECK(answer(&heap, TALDREKU_STORE, 1, RECORD, 0, OTHER, &value) == TALDREKU_ENTRIES && value == 0);
    CHECK(same_words(&heap, &before));
    drop(&before);

    store(1, NOTHING);
    STAND(0, 0, 4, 1, /* */ 2, 3, 0, 0, 0);
    store(4, RECORD);       /* into the control space: it crosses no more */
    STAND(0, 0, 0, 1, /* */ 2, 3, 0, 0, 0);
    store(4, ONE);
    obey_next(&heap, &block, TALDREKU_COLLECT, 0, 0, 0, 0);
    STAND(0, 0, 4, 1, /* */ 2, 3, 0, 0, 0);
    obey_next(&heap, &block, TALDREKU_STORE, 1, RECORD, 0, OTHER);      /* its page is below the record's, so its entry is the first */
    STAND(0, 0, 5, 1, /* */ 2, 3, 4, 0, 0);

    /* the object of thread 2 moves to the control space, where no slot crosses into it */
    obey_next(&heap, &block, TALDREKU_END, 2, 0, 0, 0);
    STAND(0, 0, 1, 0, /* */ 0, 0, 0, 0, 0);
    obey_next(&heap, &block, TALDREKU_END, 1, 0, 0, 0);
    STAND(0, 0, 0, 0, /* */ 0, 0, 0, 0, 0);
    release();
}

/* ---- ends */

/* An end of thread 0's level 2, with x that leads to y, beside four entries of thread 1, which goes on. z, at level 1, holds y. `held`: so does a
 * register of the control space x, and both go there; its slots are the first entries or, with `first` made, the last. `own`: x has a slot into
 * thread 1's inner region as well. */
enum { Z, X, Y, THEIRS, LEVEL_VARIABLES };

static void end_with(int first, int held, int own, Edge edge) {
    heap = prepared((Sizes){3, LEVEL_VARIABLES, 3, 10, 12}, 2, edge);
    if (first) add(&block, TALDREKU_NEW, 2, X, 2, 0);       /* the register: its slots are the last entries, else the first */
    for (uint32_t level = 0; level < 2; level++) {
        add(&block, TALDREKU_START, 1, 0, 0, 0);
        add(&block, TALDREKU_NEW, 1, Y, 4, 0);
        if (level == 0) add(&block, TALDREKU_COPY, 1, Z, Y, 1);
    }
    for (uint32_t field = 0; field < 4; field++) add(&block, TALDREKU_STORE, 1, Y, field, Z);
    add(&block, TALDREKU_COPY, 0, THEIRS, Y, 1);
    add(&block, TALDREKU_START, 0, 0, 0, 0);
    add(&block, TALDREKU_NEW, 0, Z, 2, 0);
    add(&block, TALDREKU_START, 0, 0, 0, 0);
    add(&block, TALDREKU_NEW, 0, X, 2, 0);
    add(&block, TALDREKU_NEW, 0, Y, 2, 0);
    add(&block, TALDREKU_STORE, 0, X, 0, Y);
    if (own) add(&block, TALDREKU_STORE, 0, X, 1, THEIRS);
    add(&block, TALDREKU_STORE, 0, Z, 0, Y);
    if (!first) add(&block, TALDREKU_NEW, 2, X, 2, 0);
    if (held) {
        add(&block, TALDREKU_COPY, 2, Y, X, 0);
        add(&block, TALDREKU_STORE, 2, X, 0, Y);
        add(&block, TALDREKU_STORE, 2, X, 1, Y);
    }
    for (uint32_t v = X; v <= THEIRS; v++) add(&block, TALDREKU_CLEAR, 0, v, 0, 0);
    obey_all(&heap, &block);
    CHECK(heap.remember[1] == 5u + 2 * (held != 0) + (own != 0) && entries_rise(&heap) && chains_right(&heap));
    obey_next(&heap, &block, TALDREKU_END, 0, 0, 0, 0);
    /* y is with z at level 1, or with x in the control space; thread 1's entries stay, and the one of x's slot moves with x */
    CHECK(heap.remember[1] == 4u + (held && own) && entries_rise(&heap) && chains_right(&heap));
    CHECK(check_by_hand(&heap) == TALDREKU_DONE);
    obey_next(&heap, &block, TALDREKU_END, 0, 0, 0, 0);
    CHECK(entries_rise(&heap) && chains_right(&heap));
    release();
}

/* Rows of a sheet in the last slots of the table, and nothing of the sheet's own: no word of another region's chain changes. */
static void last_entries(Edge edge) {
    enum { ROWS = 5, THEIR_SLOTS = 9 };
    heap = prepared((Sizes){3, 4, 2, 8, THEIR_SLOTS + ROWS + 2}, 1, edge);
    add(&block, TALDREKU_NEW, 2, 0, ROWS, 0);
    for (uint32_t level = 0; level < 2; level++) {
        add(&block, TALDREKU_START, 1, 0, 0, 0);
        add(&block, TALDREKU_NEW, 1, level, THEIR_SLOTS, 0);
    }
    for (uint32_t field = 0; field < THEIR_SLOTS; field++) add(&block, TALDREKU_STORE, 1, 1, field, 0);
    add(&block, TALDREKU_START, 0, 0, 0, 0);
    obey_all(&heap, &block);
    Lent before = copy_of(&heap);
    CHECK(chains_right(&heap) && heap.remember[1] == THEIR_SLOTS);
    for (uint32_t row = 0; row < ROWS; row++) {
        add(&block, TALDREKU_NEW, 0, 0, 1, 1);
        add(&block, TALDREKU_COPY, 2, 1, 0, 0);
        add(&block, TALDREKU_STORE, 2, 0, row, 1);
    }
    add(&block, TALDREKU_CLEAR, 0, 0, 0, 0);
    add(&block, TALDREKU_CLEAR, 2, 1, 0, 0);
    obey_all(&heap, &block);
    CHECK(heap.remember[1] == THEIR_SLOTS + ROWS && chains_right(&heap) && heap.chains[1] == THEIR_SLOTS + 1);
    obey_next(&heap, &block, TALDREKU_END, 0, 0, 0, 0);
    CHECK(memcmp(heap.chains, before.chains, heap.chains_words * sizeof(uint32_t)) == 0);
    CHECK(memcmp(heap.remember, before.remember, heap.remember_words * sizeof(uint32_t)) == 0);
    drop(&before);
    release();
}

/* z, at level 1, holds y, and x, at level 3 with y, has two slots to it: the end would send y to level 1 and x to level 2, and needs two entries
 * where there is one. The sizes are as in commands.c, with an entry more for a slot of thread 1 that stays. */
static void refused_end(Edge edge) {
    uint32_t value;
    heap = prepared((Sizes){2, LEVEL_VARIABLES, 3, 8, 2}, 7, edge);
    for (uint32_t level = 0; level < 2; level++) {
        add(&block, TALDREKU_START, 1, 0, 0, 0);
        add(&block, TALDREKU_NEW, 1, level, 1, 0);
    }
    add(&block, TALDREKU_STORE, 1, 1, 0, 0);
    add(&block, TALDREKU_START, 0, 0, 0, 0);
    add(&block, TALDREKU_NEW, 0, Z, 1, 0);
    for (uint32_t level = 1; level < 3; level++) add(&block, TALDREKU_START, 0, 0, 0, 0);
    add(&block, TALDREKU_NEW, 0, X, 2, 0);
    add(&block, TALDREKU_NEW, 0, Y, 0, 1);
    for (uint32_t field = 0; field < 2; field++) add(&block, TALDREKU_STORE, 0, X, field, Y);
    add(&block, TALDREKU_STORE, 0, Z, 0, Y);
    obey_all(&heap, &block);
    Lent before = copy_of(&heap);
    CHECK(heap.remember[1] == 2 && chains_right(&heap));
    CHECK(answer(&heap, TALDREKU_END, 0, 0, 0, 0, &value) == TALDREKU_ENTRIES && value == 0);
    CHECK(same_words(&heap, &before));
    drop(&before);

    /* with one slot less it ends: z's entry goes, and x's comes */
    add(&block, TALDREKU_STORE, 0, X, 1, THEIRS);
    add(&block, TALDREKU_END, 0, 0, 0, 0);
    obey_all(&heap, &block);
    CHECK(heap.remember[1] == 2 && entries_rise(&heap) && chains_right(&heap));
    release();
}

static void ends(Edge edge) {
    for (int which = 0; which < 8; which++) end_with(which & 1, which & 2, which & 4, edge);
    last_entries(edge);
    refused_end(edge);
}

/* ---- drawn commands, one at a time */

/* The lines of the manual page write the chains of a heap that has the other three arrays, over whatever stands there. */
static void written_anew(void) {
    size_t words = chains_length();
    uint32_t *anew = malloc(words * sizeof(uint32_t));
    memset(anew, 255, words * sizeof(uint32_t));
    write_chains(heap.remember, heap.tables, anew);
    CHECK(memcmp(anew, heap.chains, words * sizeof(uint32_t)) == 0);
    free(anew);
}

/* Each number of an end and of a store, as bits. */
static uint32_t ended, stored, collected;

/* Stores, and copies between threads so that they cross, are most of what is drawn. */
static void draw_one(Sizes s) {
    static const uint32_t codes[] = {1, 1, 2, 3, 3, 3, 4, 4, 4, 4, 5, 6, 7, 7, 7, 7, 7, 7, 7, 11};
    uint32_t code = codes[draw() % (sizeof codes / sizeof codes[0])], thread = draw() % s.threads, value;
    uint32_t v = draw() % s.variables, w = draw() % s.variables, field = draw() % 3, number;
    if (code == TALDREKU_COLLECT && draw() % 4 != 0) code = TALDREKU_STORE;
    Lent before = copy_of(&heap);
    switch (code) {
    case TALDREKU_NEW: number = answer(&heap, code, thread, v, 3, 1, &value); break;
    case TALDREKU_COPY: number = answer(&heap, code, thread, v, w, draw() % s.threads, &value); break;
    case TALDREKU_CLEAR: number = answer(&heap, code, thread, v, 0, 0, &value); break;
    case TALDREKU_LOAD: number = answer(&heap, code, thread, v, w, field, &value); break;
    case TALDREKU_STORE: number = answer(&heap, code, thread, v, field, w, &value); break;
    default: number = answer(&heap, code, thread, 0, 0, 0, &value); break;
    }
    if (code == TALDREKU_END) ended |= 1u << number;
    if (code == TALDREKU_STORE) stored |= 1u << number;
    if (code == TALDREKU_COLLECT) collected |= 1u << number;
    CHECK(number == TALDREKU_DONE || same_words(&heap, &before));
    CHECK(entries_rise(&heap) && chains_right(&heap));
    written_anew();
    CHECK(memcmp(heap.chains + chains_length(), before.chains + chains_length(), (heap.chains_words - chains_length()) * sizeof(uint32_t)) == 0);
    drop(&before);
}

static void drawn(Edge edge) {
    static const Sizes sizes[] = {{5, 4, 3, 5, 20}, {2, 5, 3, 3, 6}, {4, 4, 2, 40, 60}, {16, 3, 8, 64, 200}, {3, 6, 4, 30, 3}, {2, 8, 6, 60, 1}};
    ended = stored = collected = 0;
    for (size_t i = 0; i < sizeof sizes / sizeof sizes[0]; i++) {
        heap = prepared(sizes[i], 4, edge);
        for (uint32_t n = 0; n < 3000; n++) draw_one(sizes[i]);
        CHECK(check_by_hand(&heap) == TALDREKU_DONE);
        release();
    }
    CHECK((ended >> TALDREKU_DONE & ended >> TALDREKU_PAGES & 1) == 1);
    CHECK((stored >> TALDREKU_DONE & stored >> TALDREKU_ENTRIES & 1) == 1 && collected == 1u << TALDREKU_DONE);
}

/* ---- chains that are short, or others */

static const uint32_t START[TALDREKU_COMMAND_WORDS] = {TALDREKU_START, 0, 0, 0, 0};

/* Run and report give this number, and change no word, answer or row: with the arguments in order, and with a block, answers and rows that are
 * refused as well. */
static void refused(const Lent *l, uint32_t number) {
    uint32_t answers[TALDREKU_ANSWER_WORDS] = {7, 8};
    struct taldreku_row rows[TALDREKU_MAX_ROWS], kept[TALDREKU_MAX_ROWS];
    memset(rows, 0xa5, sizeof rows), memset(kept, 0xa5, sizeof kept);
    Lent before = copy_of(l);
    CHECK(run(l, START, TALDREKU_COMMAND_WORDS, answers, TALDREKU_ANSWER_WORDS) == number);
    CHECK(run(l, NULL, 0, NULL, 0) == number);
    CHECK(run(l, START, TALDREKU_COMMAND_WORDS - 1, answers, TALDREKU_ANSWER_WORDS) == number);
    CHECK(run(l, START, TALDREKU_COMMAND_WORDS, answers, TALDREKU_ANSWER_WORDS - 1) == number);
    CHECK(answers[0] == 7 && answers[1] == 8);
    for (size_t count = 0; count <= TALDREKU_MAX_ROWS; count += TALDREKU_MAX_ROWS) {
        struct taldreku_reported r = report(l, count == 0 ? NULL : rows, count);
        CHECK(r.number == number && no_figures(r));
    }
    CHECK(memcmp(rows, kept, sizeof rows) == 0);
    CHECK(check_by_hand(l) == number);
    CHECK(same_words(l, &before));
    drop(&before);
}

/* Right chains: only then are 4, 5 and 15 asked. */
static void accepted(void) {
    uint32_t answers[TALDREKU_ANSWER_WORDS];
    CHECK(run(&heap, NULL, 0, NULL, 0) == TALDREKU_DONE);
    CHECK(run(&heap, START, TALDREKU_COMMAND_WORDS - 1, answers, TALDREKU_ANSWER_WORDS) == TALDREKU_BLOCK);
    CHECK(run(&heap, START, TALDREKU_COMMAND_WORDS, answers, TALDREKU_ANSWER_WORDS - 1) == TALDREKU_ANSWERS);
    CHECK(report(&heap, NULL, 0).number == TALDREKU_ROWS);
    CHECK(check_by_hand(&heap) == TALDREKU_DONE && chains_right(&heap));
    check_report(&heap);
}

/* Tables that are not whole are refused with 3, whatever the chains are. */
static void after_not_whole(const Lent *l) {
    ++*made_word(&heap);
    refused(l, TALDREKU_NOT_WHOLE);
    --*made_word(&heap);
}

/* Each word with each of these in its place, and every two words that are not the same exchanged. */
static void others(void) {
    size_t words = chains_length();
    uint32_t used = heap.remember[1];
    for (size_t i = 0; i < words; i++) {
        uint32_t kept = heap.chains[i];
        const uint32_t values[] = {0, 1, used, used + 1, heap.tables[4] + 1, kept + 1, kept - 1, kept ^ 0x80000000, 0xffffffff, draw()};
        for (size_t k = 0; k < sizeof values / sizeof values[0]; k++) {
            if (values[k] == kept) continue;
            heap.chains[i] = values[k];
            refused(&heap, TALDREKU_CHAINS);
            if (k == 0) after_not_whole(&heap);
            heap.chains[i] = kept;
        }
        for (size_t k = 0; k < i; k++) {
            if (heap.chains[k] == kept) continue;
            heap.chains[i] = heap.chains[k], heap.chains[k] = kept;
            refused(&heap, TALDREKU_CHAINS);
            heap.chains[k] = heap.chains[i], heap.chains[i] = kept;
        }
    }
    accepted();
}

/* Every length that is too short, fenced, and NULL. */
static void shorter(Edge edge) {
    Lent l = heap;
    for (size_t words = 0; words < chains_length(); words++) {
        l.chains = fenced(words, edge), l.chains_words = words;
        memcpy(l.chains, heap.chains, words * sizeof *l.chains);
        refused(&l, TALDREKU_CHAINS);
        if (words % 5 == 0) after_not_whole(&l);
        release_last();
    }
    struct taldreku_row rows[TALDREKU_MAX_ROWS];
    uint32_t answers[TALDREKU_ANSWER_WORDS] = {7, 8};
    l.chains = NULL, l.chains_words = 0;
    CHECK(run(&l, START, TALDREKU_COMMAND_WORDS, answers, TALDREKU_ANSWER_WORDS) == TALDREKU_CHAINS && answers[0] == 7 && answers[1] == 8);
    CHECK(report(&l, rows, TALDREKU_MAX_ROWS).number == TALDREKU_CHAINS);
    accepted();
}

static void damaged(Edge edge) {
    /* no entry at all; the record's five, full; and some of each with words to spare */
    heap = prepared((Sizes){1, 1, 1, 1, 0}, 0, edge);
    others(), shorter(edge);
    release();
    record(0, edge);
    others(), shorter(edge);
    for (uint32_t field = 0; field < FIELDS; field++) store(field, field % 2 == 0 ? ONE : OTHER);
    others(), shorter(edge);
    release();
    record(6, edge);
    for (uint32_t field = 1; field < 4; field++) store(field, field == 3 ? OTHER : ONE);
    others(), shorter(edge);
    /* words past the length may be any */
    for (size_t i = chains_length(); i < heap.chains_words; i++) heap.chains[i] = draw();
    accepted();
    release();

    heap = prepared(LARGEST, 1, edge);
    size_t last = chains_length() - 1;
    const size_t some[] = {0, 1, TALDREKU_MAX_ROWS - 1, TALDREKU_MAX_ROWS, last};
    for (size_t i = 0; i < sizeof some / sizeof some[0]; i++) {
        heap.chains[some[i]] = 1;
        refused(&heap, TALDREKU_CHAINS);
        heap.chains[some[i]] = 0;
    }
    heap.chains_words = last;
    refused(&heap, TALDREKU_CHAINS);
    heap.chains_words = last + 1;
    accepted();
    release();
}

void test_chains(void) {
    begin("chains");
    for (Edge edge = AT_END; edge <= AT_START; edge++) {
        by_hand(edge);
        ends(edge);
        drawn(edge);
        damaged(edge);
    }
    discard(&block);
    end();
}
