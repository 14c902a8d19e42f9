/* Pseudo-random commands, on sizes up to the largest: the same answers as the hand-written heap's, which keeps no check and shares no code, the
 * same words afterwards, and a report that the words bear out. Then the same commands on several heaps at the same time. */
#include "check.h"

#include <pthread.h>
#include <string.h>

#include "../../bench/plain.h"

enum { STREAMS = 60, BLOCKS = 12, COMMANDS = 1500 };

static uint32_t between(uint32_t least, uint32_t most) { return least + draw() % (most - least + 1); }

/* Mostly operands that are there; ends and collections are rarer than starts, so that regions fill. */
static void draw_command(Block *b, Sizes s) {
    static const uint32_t codes[] = {1, 2, 3, 3, 3, 3, 3, 3, 4, 4, 5, 6, 6, 7, 7, 7, 7, 7, 8, 9, 10, 11};
    uint32_t code = draw() % 200 == 0 ? draw() % 13 : codes[draw() % (sizeof codes / sizeof codes[0])];
    uint32_t thread = draw() % (s.threads + (draw() % 200 == 0));
    uint32_t v = draw() % s.variables, w = draw() % s.variables, f = draw() % 3;
    if ((code == 2 || code == 11) && draw() % 4 != 0) code = 3;
    switch (code) {
    case TALDREKU_START: case TALDREKU_END: case TALDREKU_COLLECT: add(b, code, thread, 0, 0, 0); break;
    case TALDREKU_NEW: add(b, code, thread, v, between(1, 7), between(1, 7)); break;
    case TALDREKU_COPY: add(b, code, thread, v, w, draw() % s.threads); break;
    case TALDREKU_CLEAR: add(b, code, thread, v, 0, 0); break;
    case TALDREKU_LOAD: add(b, code, thread, v, w, f); break;
    case TALDREKU_STORE: add(b, code, thread, v, f, w); break;
    case TALDREKU_READ: add(b, code, thread, v, f, 0); break;
    case TALDREKU_WRITE: add(b, code, thread, v, f, draw()); break;
    default: add(b, code, thread, v, w, 0); break;
    }
}

static void stream(Sizes s) {
    Lent ours = prepared(s, 5, AT_END), plain = lend(s, 5, AT_END);
    Block b = {0};
    static uint32_t answers[TALDREKU_ANSWER_WORDS * COMMANDS];
    CHECK(plain_prepare(s.threads, s.variables, s.depth, s.pages, s.entries, plain.cells, plain.cells_words, plain.remember,
                        plain.remember_words, plain.tables, plain.tables_words, plain.chains, plain.chains_words) == TALDREKU_DONE);
    for (size_t i = 0; i < BLOCKS; i++) {
        empty(&b);
        for (size_t k = 0; k < COMMANDS; k++) draw_command(&b, s);
        CHECK(run(&ours, b.words, TALDREKU_COMMAND_WORDS * b.commands, b.answers, TALDREKU_ANSWER_WORDS * b.commands) == TALDREKU_DONE);
        CHECK(plain_run(plain.cells, plain.cells_words, plain.remember, plain.remember_words, plain.tables, plain.tables_words, plain.chains,
                        plain.chains_words, b.words, TALDREKU_COMMAND_WORDS * b.commands, answers,
                        TALDREKU_ANSWER_WORDS * b.commands) == TALDREKU_DONE);
        CHECK(memcmp(answers, b.answers, TALDREKU_ANSWER_WORDS * b.commands * sizeof *answers) == 0);
        for (size_t k = 0; k < b.commands; k++) given(answers[TALDREKU_ANSWER_WORDS * k]);
        CHECK(check_by_hand(&ours) == TALDREKU_DONE);
        CHECK(run(&plain, NULL, 0, NULL, 0) == TALDREKU_DONE);
        CHECK(agree(&ours, &plain) && chains_right(&ours));
    }
    check_report(&ours);
    discard(&b);
    release();
}

static void streams(void) {
    begin("streams of commands");
    for (size_t i = 0; i < STREAMS; i++) {
        Sizes s = {between(1, TALDREKU_MAX_THREADS), between(3, TALDREKU_MAX_VARIABLES), between(1, TALDREKU_MAX_DEPTH),
                   i % 3 == 0 ? between(1, 32) : between(33, TALDREKU_MAX_PAGES),
                   i % 4 == 0 ? between(0, 16) : between(17, TALDREKU_MAX_ENTRIES)};
        stream(i == 1 ? LARGEST : s);
    }
    end();
}

/* ---- heaps at the same time */

enum { HEAPS = 4 };

typedef struct {
    Lent heap;
    const Block *block;
    uint32_t *answers, number;
    struct taldreku_reported reported;
    struct taldreku_row rows[TALDREKU_MAX_ROWS];
} Work;

static void *work(void *given_work) {
    Work *w = given_work;
    const Lent *l = &w->heap;
    for (size_t i = 0; i < w->block->commands && w->number == TALDREKU_DONE; i += 50)
        w->number = taldreku_run(l->cells, l->cells_words, l->remember, l->remember_words, l->tables, l->tables_words, l->chains,
                                 l->chains_words, w->block->words + TALDREKU_COMMAND_WORDS * i, TALDREKU_COMMAND_WORDS * 50,
                                 w->answers + TALDREKU_ANSWER_WORDS * i, TALDREKU_ANSWER_WORDS * 50);
    w->reported = taldreku_report(l->cells, l->cells_words, l->remember, l->remember_words, l->tables, l->tables_words, l->chains,
                                  l->chains_words, w->rows, TALDREKU_MAX_ROWS);
    return NULL;
}

static void at_the_same_time(void) {
    static Work works[HEAPS];
    static uint32_t answers[HEAPS][TALDREKU_ANSWER_WORDS * 20000];
    static const Sizes s = {4, 8, 4, 256, 512};
    pthread_t threads[HEAPS];
    Block b = {0};
    begin("heaps at the same time");
    for (size_t i = 0; i < 20000; i++) draw_command(&b, s);
    for (size_t i = 0; i < HEAPS; i++) works[i] = (Work){.heap = prepared(s, 0, AT_END), .block = &b, .answers = answers[i]};
    work(&works[0]);
    for (size_t i = 1; i < HEAPS; i++) CHECK(pthread_create(&threads[i], NULL, work, &works[i]) == 0);
    for (size_t i = 1; i < HEAPS; i++) CHECK(pthread_join(threads[i], NULL) == 0);
    CHECK(works[0].number == TALDREKU_DONE && works[0].reported.number == TALDREKU_DONE && works[0].rows[0].objects > 0);
    for (size_t i = 1; i < HEAPS; i++) {
        CHECK(works[i].number == TALDREKU_DONE && same_words(&works[i].heap, &works[0].heap));
        CHECK(memcmp(answers[i], answers[0], sizeof answers[0]) == 0);
        CHECK(memcmp(&works[i].reported, &works[0].reported, sizeof works[0].reported) == 0);
        CHECK(memcmp(works[i].rows, works[0].rows, works[0].reported.rows * sizeof works[0].rows[0]) == 0);
    }
    discard(&b);
    end();
}

void test_streams(void) {
    streams();
    at_the_same_time();
}
