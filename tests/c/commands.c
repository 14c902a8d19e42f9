/* Every command done, and every refusal of a command: the heap as before, value 0, and the block goes on. */
#include "check.h"

#include <string.h>

static Lent heap;
static Block block;
/* beside each command of the block, the answer that is expected */
static uint32_t wanted[2 * 64];

static void say(uint32_t code, uint32_t thread, uint32_t a, uint32_t b, uint32_t c, uint32_t number, uint32_t value) {
    CHECK(block.commands < 64);
    wanted[2 * block.commands] = number, wanted[2 * block.commands + 1] = value;
    add(&block, code, thread, a, b, c);
}

/* Runs the block, on exact answers at an unreadable page, and compares the answers. */
static void go(void) {
    size_t n = block.commands;
    uint32_t *answers = fenced(TALDREKU_ANSWER_WORDS * n, AT_END);
    noise(answers, TALDREKU_ANSWER_WORDS * n);
    CHECK(run(&heap, block.words, TALDREKU_COMMAND_WORDS * n, answers, TALDREKU_ANSWER_WORDS * n) == TALDREKU_DONE);
    for (size_t i = 0; i < n; i++) {
        CHECK(answers[2 * i] == wanted[2 * i]);
        CHECK(answers[2 * i + 1] == wanted[2 * i + 1]);
        given(answers[2 * i]);
    }
    empty(&block);
}

/* Each of the commands alone is refused with the number, and not a word of the heap changes. */
static void refused(uint32_t number, const uint32_t commands[][5], size_t count) {
    for (size_t i = 0; i < count; i++) {
        Lent before = copy_of(&heap);
        uint32_t value;
        CHECK(answer(&heap, commands[i][0], commands[i][1], commands[i][2], commands[i][3], commands[i][4], &value) == number);
        CHECK(value == 0);
        CHECK(same_words(&heap, &before));
        drop(&before);
    }
}
#define REFUSED(number, ...) refused(number, (const uint32_t[][5]){__VA_ARGS__}, sizeof((const uint32_t[][5]){__VA_ARGS__}) / sizeof(uint32_t[5]))

static void done(Edge edge) {
    heap = prepared((Sizes){2, 4, 2, 8, 4}, 16, edge);
    /* the sample run of 01, the scope document */
    say(TALDREKU_START, 0, 0, 0, 0, 0, 0);
    say(TALDREKU_NEW, 0, 0, 1, 1, 0, 0);
    say(TALDREKU_NEW, 0, 1, 0, 1, 0, 0);
    say(TALDREKU_WRITE, 0, 1, 0, 77, 0, 0);
    say(TALDREKU_STORE, 0, 0, 0, 1, 0, 0);
    say(TALDREKU_NEW, 1, 0, 1, 0, 0, 0);
    say(TALDREKU_CLEAR, 0, 1, 0, 0, 0, 0);
    say(TALDREKU_END, 0, 0, 0, 0, 0, 0);
    say(TALDREKU_LOAD, 0, 2, 0, 0, 0, 1);
    say(TALDREKU_READ, 0, 2, 0, 0, 0, 77);
    /* a refused command in the middle, and the rest of the codes */
    say(TALDREKU_READ, 0, 2, 1, 0, TALDREKU_FIELD, 0);
    say(TALDREKU_COPY, 0, 3, 0, 1, 0, 0);
    say(TALDREKU_SAME, 0, 3, 0, 0, 0, 0);
    say(TALDREKU_COPY, 0, 3, 0, 0, 0, 0);
    say(TALDREKU_SAME, 0, 3, 0, 0, 0, 1);
    say(TALDREKU_LOAD, 1, 1, 0, 0, 0, 0);
    say(TALDREKU_SAME, 1, 1, 2, 0, 0, 1);
    say(TALDREKU_NEW, 1, 3, 7, 7, 0, 0);
    say(TALDREKU_WRITE, 1, 3, 6, 0xffffffff, 0, 0);
    say(TALDREKU_READ, 1, 3, 6, 0, 0, 0xffffffff);
    go();
    release();
}

static void refusals(Edge edge) {
    heap = prepared((Sizes){2, 4, 2, 2, 1}, 16, edge);
    REFUSED(TALDREKU_CODE, {0, 0, 0, 0, 0}, {12, 0, 0, 0, 0}, {0xffffffff, 9, 9, 9, 9}, {0x80000001, 0, 0, 0, 0});
    REFUSED(TALDREKU_THREAD, {1, 2, 0, 0, 0}, {3, 0xffffffff, 9, 9, 9}, {10, 2, 4, 0, 0}, {11, 2, 0, 0, 0});
    REFUSED(TALDREKU_OPERAND, {1, 0, 1, 0, 0}, {1, 0, 0, 1, 0}, {1, 0, 0, 0, 1}, {2, 0, 1, 0, 0}, {2, 0, 0, 1, 0}, {2, 0, 0, 0, 1},
            {3, 0, 4, 0, 0}, {3, 0, 0, 15, 0}, {3, 0, 0, 0, 15}, {3, 0, 0, 8, 7}, {3, 0, 0, 0xffffffff, 1}, {3, 0, 0, 0x80000000, 0x80000000},
            {4, 0, 4, 0, 0}, {4, 0, 0, 4, 0}, {4, 0, 0, 0, 2}, {5, 0, 4, 0, 0}, {5, 0, 0, 1, 0}, {5, 0, 0, 0, 1}, {6, 0, 4, 0, 0},
            {6, 0, 0, 4, 0}, {7, 0, 4, 0, 0}, {7, 0, 0, 0, 4}, {8, 0, 4, 0, 0}, {8, 0, 0, 0, 1}, {9, 0, 4, 0, 0}, {10, 0, 4, 0, 0},
            {10, 0, 0, 4, 0}, {10, 0, 0, 0, 1}, {11, 0, 1, 0, 0}, {11, 0, 0, 1, 0}, {11, 0, 0, 0, 1});
    REFUSED(TALDREKU_NULL, {6, 0, 0, 1, 99}, {7, 0, 0, 99, 1}, {8, 0, 0, 99, 0}, {9, 0, 0, 99, 1});
    REFUSED(TALDREKU_NO_EPOCH, {2, 0, 0, 0, 0}, {2, 1, 0, 0, 0});

    /* the control space fills page 1; of the two epochs of thread 0 the inner has the other page; N is 1 */
    for (int i = 0; i < 16; i++) say(TALDREKU_NEW, 1, 0, 2, 3, 0, 0);
    say(TALDREKU_START, 0, 0, 0, 0, 0, 0);
    say(TALDREKU_START, 0, 0, 0, 0, 0, 0);
    say(TALDREKU_NEW, 0, 0, 1, 1, 0, 0);
    go();
    REFUSED(TALDREKU_FIELD, {6, 1, 1, 0, 2}, {6, 1, 1, 0, 0xffffffff}, {7, 1, 0, 2, 0}, {8, 1, 0, 3, 0}, {9, 1, 0, 3, 7}, {8, 0, 0, 1, 0});
    REFUSED(TALDREKU_DEPTH, {1, 0, 0, 0, 0});
    REFUSED(TALDREKU_PAGES, {3, 1, 2, 0, 0}, {2, 0, 0, 0, 0});

    /* a slot of the control space holds the object of the inner epoch: one slot crosses, and a second may not */
    say(TALDREKU_COPY, 1, 1, 0, 0, 0, 0);
    say(TALDREKU_STORE, 1, 0, 0, 1, 0, 0);
    say(TALDREKU_STORE, 1, 0, 0, 1, 0, 0);
    go();
    REFUSED(TALDREKU_ENTRIES, {7, 1, 0, 1, 1});
    REFUSED(TALDREKU_PAGES, {2, 0, 0, 0, 0});

    /* nothing leads to it any more, so the end needs no page, and the new object that was refused is made */
    say(TALDREKU_STORE, 1, 0, 0, 2, 0, 0);
    say(TALDREKU_CLEAR, 1, 1, 0, 0, 0, 0);
    say(TALDREKU_CLEAR, 0, 0, 0, 0, 0, 0);
    say(TALDREKU_END, 0, 0, 0, 0, 0, 0);
    say(TALDREKU_NEW, 1, 2, 0, 0, 0, 0);
    go();
    release();
}

/* An end refused with 14: a slot that becomes crossing by the move, with no entry for it. */
static void end_without_entries(Edge edge) {
    heap = prepared((Sizes){1, 4, 3, 8, 1}, 16, edge);
    say(TALDREKU_START, 0, 0, 0, 0, 0, 0);
    say(TALDREKU_NEW, 0, 0, 1, 0, 0, 0);            /* level 1: z */
    say(TALDREKU_START, 0, 0, 0, 0, 0, 0);
    say(TALDREKU_START, 0, 0, 0, 0, 0, 0);
    say(TALDREKU_NEW, 0, 1, 2, 0, 0, 0);            /* level 3: x with two slots to y, both at level 3 */
    say(TALDREKU_NEW, 0, 2, 0, 1, 0, 0);
    say(TALDREKU_WRITE, 0, 2, 0, 5, 0, 0);
    say(TALDREKU_STORE, 0, 1, 0, 2, 0, 0);
    say(TALDREKU_STORE, 0, 1, 1, 2, 0, 0);
    say(TALDREKU_STORE, 0, 0, 0, 2, 0, 0);          /* z holds y, so y would go to level 1 and x to level 2 */
    go();
    REFUSED(TALDREKU_ENTRIES, {2, 0, 0, 0, 0});
    say(TALDREKU_CLEAR, 0, 3, 0, 0, 0, 0);
    say(TALDREKU_STORE, 0, 1, 1, 3, 0, 0);          /* with one slot less it ends */
    say(TALDREKU_END, 0, 0, 0, 0, 0, 0);
    say(TALDREKU_LOAD, 0, 3, 1, 0, 0, 1);
    say(TALDREKU_SAME, 0, 3, 2, 0, 0, 1);
    say(TALDREKU_READ, 0, 3, 0, 0, 0, 5);
    go();
    release();
}

/* No command changes a word past the lengths of the four arrays. */
static void spare_words(Edge edge) {
    enum { EXTRA = 100 };
    heap = prepared((Sizes){2, 4, 2, 4, 2}, EXTRA, edge);
    Lent before = copy_of(&heap);
    static uint32_t random[5 * 400], answers[2 * 400];
    for (size_t i = 0; i < 400; i++) {
        uint32_t *m = random + 5 * i;
        m[0] = 1 + draw() % 11, m[1] = draw() % 2, m[2] = draw() % 4, m[3] = draw() % 4, m[4] = draw() % 4;
        int alone = m[0] <= 2 || m[0] == 11;        /* without an operand but the thread */
        if (alone) m[2] = 0;
        if (alone || m[0] == 5) m[3] = 0;
        if (alone || m[0] == 5 || m[0] == 8 || m[0] == 10) m[4] = 0;
    }
    CHECK(run(&heap, random, 5 * 400, answers, 2 * 400) == TALDREKU_DONE);
    for (size_t i = 0; i < 400; i++) given(answers[2 * i]);
    CHECK(memcmp(heap.cells + heap.cells_words - EXTRA, before.cells + heap.cells_words - EXTRA, EXTRA * sizeof(uint32_t)) == 0);
    CHECK(memcmp(heap.remember + heap.remember_words - EXTRA, before.remember + heap.remember_words - EXTRA, EXTRA * sizeof(uint32_t)) == 0);
    CHECK(memcmp(heap.tables + heap.tables_words - EXTRA, before.tables + heap.tables_words - EXTRA, EXTRA * sizeof(uint32_t)) == 0);
    CHECK(memcmp(heap.chains + heap.chains_words - EXTRA, before.chains + heap.chains_words - EXTRA, EXTRA * sizeof(uint32_t)) == 0);
    CHECK(!same_words(&heap, &before));
    drop(&before);
    release();
}

void test_commands(void) {
    begin("commands");
    for (Edge edge = AT_END; edge <= AT_START; edge++) {
        done(edge);
        refusals(edge);
        end_without_entries(edge);
        spare_words(edge);
    }
    discard(&block);
    end();
}
