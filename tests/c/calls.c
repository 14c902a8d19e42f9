/* The lengths, prepare, and run as a call: arrays that are too short, exact and longer, at unreadable pages, and NULL. */
#include "check.h"

#include <string.h>

static const Sizes SMALL = {2, 3, 2, 2, 3};

static void lengths(void) {
    begin("lengths");
    for (uint32_t p = 1; p <= TALDREKU_MAX_PAGES; p++) CHECK(taldreku_cells_length(p) == 256 * p);
    for (uint32_t n = 0; n <= TALDREKU_MAX_ENTRIES; n++) CHECK(taldreku_remember_length(n) == 2 + 2 * n);
    for (uint32_t t = 0; t <= TALDREKU_MAX_THREADS + 1; t++)
        for (uint32_t v = 0; v <= TALDREKU_MAX_VARIABLES + 1; v++)
            for (uint32_t d = 0; d <= TALDREKU_MAX_DEPTH + 1; d++)
                for (uint32_t p = 0; p <= TALDREKU_MAX_PAGES + 1; p += p == 1 ? TALDREKU_MAX_PAGES - 1 : 1) {
                    int in_range = t >= 1 && t <= TALDREKU_MAX_THREADS && v >= 1 && v <= TALDREKU_MAX_VARIABLES && d >= 1 &&
                                   d <= TALDREKU_MAX_DEPTH && p >= 1 && p <= TALDREKU_MAX_PAGES;
                    CHECK(taldreku_tables_length(t, v, d, p) == (in_range ? t * (v + d + 1) + 3 * p + 8 : 0));
                }
    for (uint32_t t = 0; t <= TALDREKU_MAX_THREADS + 1; t++)
        for (uint32_t d = 0; d <= TALDREKU_MAX_DEPTH + 1; d++)
            for (uint32_t n = 0; n <= TALDREKU_MAX_ENTRIES + 1; n += n == 1 ? TALDREKU_MAX_ENTRIES - 1 : 1) {
                int in_range = t >= 1 && t <= TALDREKU_MAX_THREADS && d >= 1 && d <= TALDREKU_MAX_DEPTH && n <= TALDREKU_MAX_ENTRIES;
                CHECK(taldreku_chains_length(t, d, n) == (in_range ? t * d + 1 + n : 0));
            }
    for (uint32_t n = 0; n <= TALDREKU_MAX_ENTRIES; n++) CHECK(taldreku_chains_length(3, 2, n) == 7 + n);
    static const uint32_t out[] = {0x80000000, 0x80000001, 0xffffffff, 0x10001};
    for (size_t i = 0; i < sizeof out / sizeof out[0]; i++) {
        CHECK(taldreku_cells_length(out[i]) == 0 && taldreku_remember_length(out[i]) == 0);
        CHECK(taldreku_tables_length(out[i], 1, 1, 1) == 0 && taldreku_tables_length(1, out[i], 1, 1) == 0);
        CHECK(taldreku_tables_length(1, 1, out[i], 1) == 0 && taldreku_tables_length(1, 1, 1, out[i]) == 0);
        CHECK(taldreku_chains_length(out[i], 1, 1) == 0 && taldreku_chains_length(1, out[i], 1) == 0 && taldreku_chains_length(1, 1, out[i]) == 0);
    }
    CHECK(taldreku_cells_length(0) == 0 && taldreku_cells_length(TALDREKU_MAX_PAGES + 1) == 0);
    CHECK(taldreku_remember_length(TALDREKU_MAX_ENTRIES + 1) == 0);
    CHECK(TALDREKU_MAX_ROWS == 1 + TALDREKU_MAX_THREADS * TALDREKU_MAX_DEPTH);
    end();
}

/* The call is refused with the number, and no word changes. */
static void refused_prepare(Sizes s, const Lent *l, uint32_t number) {
    Lent before = copy_of(l);
    CHECK(prepare(s, l) == number);
    CHECK(same_words(l, &before));
    drop(&before);
}

static void prepare_sizes(Edge edge) {
    static const uint32_t most[] = {TALDREKU_MAX_THREADS, TALDREKU_MAX_VARIABLES, TALDREKU_MAX_DEPTH, TALDREKU_MAX_PAGES, TALDREKU_MAX_ENTRIES};
    Lent none = {0}, l = lend(LARGEST, 0, edge);
    for (size_t i = 0; i < 5; i++) {
        uint32_t wrong[] = {0, most[i] + 1, 0x80000000 + most[i], 0xffffffff};
        for (size_t k = i == 4 ? 1 : 0; k < 4; k++) {
            Sizes s = LARGEST;
            uint32_t *size[] = {&s.threads, &s.variables, &s.depth, &s.pages, &s.entries};
            *size[i] = wrong[k];
            refused_prepare(s, &l, TALDREKU_SIZES);
            refused_prepare(s, &none, TALDREKU_SIZES);      /* asked before the lengths */
        }
    }
    release();
}

/* Every length that is too short, for each array. */
static void prepare_short(Sizes s, Edge edge) {
    for (int which = 0; which < 4; which++) {
        Lent whole = lend(s, 0, edge);
        size_t lengths[] = {whole.cells_words, whole.remember_words, whole.tables_words, whole.chains_words}, exact = lengths[which];
        release();
        for (size_t length = 0; length < exact; length++) {
            Lent l = lend(s, 0, edge);
            uint32_t *array = fenced(length, edge);
            noise(array, length);
            if (which == 0) l.cells = array, l.cells_words = length;
            if (which == 1) l.remember = array, l.remember_words = length;
            if (which == 2) l.tables = array, l.tables_words = length;
            if (which == 3) l.chains = array, l.chains_words = length;
            refused_prepare(s, &l, TALDREKU_SHORT);
            if (length == 0) {
                if (which == 0) l.cells = NULL;
                if (which == 1) l.remember = NULL;
                if (which == 2) l.tables = NULL;
                if (which == 3) l.chains = NULL;
                CHECK(prepare(s, &l) == TALDREKU_SHORT);
            }
            release();
        }
    }
    CHECK(given(taldreku_prepare(s.threads, s.variables, s.depth, s.pages, s.entries, NULL, 0, NULL, 0, NULL, 0, NULL, 0)) == TALDREKU_SHORT);
}

/* Exact and longer arrays: the words of a heap without objects, and the words past the lengths as they were. */
static void prepare_done(Sizes s, size_t extra, Edge edge) {
    Lent l = lend(s, extra, edge), before = copy_of(&l);
    size_t cells = l.cells_words - extra, remember = l.remember_words - extra, tables = l.tables_words - extra, chains = l.chains_words - extra;
    size_t zeros = 0;
    CHECK(prepare(s, &l) == TALDREKU_DONE);
    CHECK(l.tables[0] == s.threads && l.tables[1] == s.variables && l.tables[2] == s.depth && l.tables[3] == s.pages && l.tables[4] == s.entries);
    for (size_t i = 5; i < tables; i++) zeros += l.tables[i] == 0;
    CHECK(zeros == tables - 5);
    CHECK(l.remember[0] == s.entries);
    for (size_t i = 1; i < remember; i++) zeros += l.remember[i] == 0;
    CHECK(zeros == tables - 5 + remember - 1);
    for (size_t i = 0; i < cells; i++) zeros += l.cells[i] == 0;
    CHECK(zeros == tables - 5 + remember - 1 + cells);
    for (size_t i = 0; i < chains; i++) zeros += l.chains[i] == 0;
    CHECK(zeros == tables - 5 + remember - 1 + cells + chains);
    CHECK(memcmp(l.cells + cells, before.cells + cells, extra * sizeof(uint32_t)) == 0);
    CHECK(memcmp(l.remember + remember, before.remember + remember, extra * sizeof(uint32_t)) == 0);
    CHECK(memcmp(l.tables + tables, before.tables + tables, extra * sizeof(uint32_t)) == 0);
    CHECK(memcmp(l.chains + chains, before.chains + chains, extra * sizeof(uint32_t)) == 0);
    CHECK(run(&l, NULL, 0, NULL, 0) == TALDREKU_DONE);
    drop(&before);
    release();
}

static void prepares(void) {
    static const Sizes smallest = {1, 1, 1, 1, 0};
    begin("prepare");
    for (Edge edge = AT_END; edge <= AT_START; edge++) {
        prepare_sizes(edge);
        prepare_short(smallest, edge);
        prepare_short(SMALL, edge);
        for (size_t extra = 0; extra <= 3; extra++) {
            prepare_done(smallest, extra, edge);
            prepare_done(SMALL, extra, edge);
            prepare_done(LARGEST, 1000 * extra, edge);
        }
    }
    end();
}

/* The call is refused with the number; neither the heap nor the answers change. */
static void refused_run(const Lent *l, const uint32_t *block, size_t block_words, uint32_t *answers, size_t answers_words, uint32_t number) {
    Lent before = copy_of(l);
    uint32_t kept[64];
    CHECK(answers_words <= 64);
    if (answers_words > 0) memcpy(kept, answers, answers_words * sizeof *answers);
    CHECK(run(l, block, block_words, answers, answers_words) == number);
    CHECK(same_words(l, &before));
    CHECK(answers_words == 0 || memcmp(kept, answers, answers_words * sizeof *answers) == 0);
    drop(&before);
}

/* A block of starts, read-only, with an unreadable page at its end or start. */
static uint32_t *starts(size_t words, Edge edge) {
    static const uint32_t start[TALDREKU_COMMAND_WORDS] = {TALDREKU_START, 0, 0, 0, 0};
    uint32_t *block = fenced(words, edge);
    for (size_t i = 0; i < words; i++) block[i] = start[i % TALDREKU_COMMAND_WORDS];
    read_only(block);
    return block;
}

/* Tables that are no heap: too short, NULL, or with one word of the sizes or of the remember table's head another. */
static void run_not_whole(Edge edge) {
    uint32_t answers[2] = {7, 8};
    for (int which = 0; which < 3; which++)
        for (int null = 0; null < 2; null++) {
            Lent l = prepared(SMALL, 0, edge), s = l;
            uint32_t **array = which == 0 ? &s.cells : which == 1 ? &s.remember : &s.tables;
            size_t *length = which == 0 ? &s.cells_words : which == 1 ? &s.remember_words : &s.tables_words;
            if (null) *array = NULL, *length = 0;
            else {
                uint32_t *shorter = fenced(*length - 1, edge);
                memcpy(shorter, *array, (*length - 1) * sizeof *shorter);
                *array = shorter, *length -= 1;
            }
            if (null) CHECK(run(&s, NULL, 0, answers, 2) == TALDREKU_NOT_WHOLE && answers[0] == 7 && answers[1] == 8);
            else refused_run(&s, starts(5, edge), 5, answers, 2, TALDREKU_NOT_WHOLE);
            if (!null) refused_run(&s, starts(3, edge), 3, answers, 0, TALDREKU_NOT_WHOLE);      /* 3 is asked before 4 and 5 */
            release();
        }
    for (size_t i = 0; i < 7; i++) {
        Lent l = prepared(SMALL, 8, edge);
        uint32_t *word = i < 5 ? l.tables + i : l.remember + (i - 5);
        static const uint32_t other[] = {0, 1, 0x80000000, 0xffffffff};
        uint32_t kept = *word;
        for (size_t k = 0; k < 4; k++) {
            *word = other[k];
            /* a smaller size may be that of another heap */
            if (*word != kept && !(i < 4 && *word != 0 && *word < kept)) refused_run(&l, starts(5, edge), 5, answers, 2, TALDREKU_NOT_WHOLE);
        }
        release();
    }
    CHECK(given(taldreku_run(NULL, 0, NULL, 0, NULL, 0, NULL, 0, NULL, 0, NULL, 0)) == TALDREKU_NOT_WHOLE);
}

static void run_blocks(Edge edge) {
    uint32_t answers[64];
    noise(answers, 64);
    Lent l = prepared(SMALL, 0, edge);
    for (size_t words = 1; words < 20; words++)
        if (words % TALDREKU_COMMAND_WORDS != 0) {
            refused_run(&l, starts(words, edge), words, answers, 64, TALDREKU_BLOCK);
            refused_run(&l, starts(words, edge), words, NULL, 0, TALDREKU_BLOCK);       /* asked before the answers */
        }
    release();
    for (size_t commands = 1; commands <= 8; commands++) {
        l = prepared(SMALL, 0, edge);
        const uint32_t *block = starts(TALDREKU_COMMAND_WORDS * commands, edge);
        for (size_t words = 0; words < TALDREKU_ANSWER_WORDS * commands; words++) {
            uint32_t *lent = fenced(words, edge);
            noise(lent, words);
            refused_run(&l, block, TALDREKU_COMMAND_WORDS * commands, words == 0 ? NULL : lent, words, TALDREKU_ANSWERS);
        }
        release();
        for (size_t extra = 0; extra <= 3; extra++) {
            l = prepared(SMALL, extra, edge);
            Lent before = copy_of(&l);
            uint32_t *lent = fenced(TALDREKU_ANSWER_WORDS * commands + extra, edge);
            noise(lent, TALDREKU_ANSWER_WORDS * commands + extra);
            uint32_t spare[3];
            memcpy(spare, lent + TALDREKU_ANSWER_WORDS * commands, extra * sizeof *spare);
            CHECK(run(&l, starts(TALDREKU_COMMAND_WORDS * commands, edge), TALDREKU_COMMAND_WORDS * commands, lent,
                      TALDREKU_ANSWER_WORDS * commands + extra) == TALDREKU_DONE);
            /* two epochs can be started; the other commands are refused, one by one */
            for (size_t i = 0; i < commands; i++)
                CHECK(lent[2 * i] == (i < 2 ? TALDREKU_DONE : TALDREKU_DEPTH) && lent[2 * i + 1] == 0);
            CHECK(memcmp(spare, lent + TALDREKU_ANSWER_WORDS * commands, extra * sizeof *spare) == 0);
            /* the depth of thread 0 is the only word that is another */
            CHECK(l.tables[5] == (commands < 2 ? 1u : 2u));
            l.tables[5] = 0;
            CHECK(same_words(&l, &before));
            drop(&before);
            release();
        }
    }
}

static void runs(void) {
    begin("run");
    for (Edge edge = AT_END; edge <= AT_START; edge++) {
        run_not_whole(edge);
        run_blocks(edge);
        /* an empty block, with and without pointers */
        uint32_t word = 5;
        Lent l = prepared(SMALL, 0, edge);
        refused_run(&l, NULL, 0, NULL, 0, TALDREKU_DONE);
        refused_run(&l, &word, 0, &word, 0, TALDREKU_DONE);
        CHECK(word == 5);
        release();
    }
    end();
}

void test_calls(void) {
    lengths();
    prepares();
    runs();
}
