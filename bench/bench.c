/* Runs every workload on our heap and on the hand-written one, interleaved, and prints nanoseconds a command and the ratio. Every answer
 * word of every timed run is compared, and every lent word after the first, but for the row of memset, which leaves no heap; a difference stops
 * the program. For bench/counts the command line may name one row, which is then run once. */
#define _POSIX_C_SOURCE 199309L
#include <stdio.h>
#include <stdlib.h>
#include <string.h>
#include <time.h>

#include "agree.h"
#include "plain.h"
#include "taldreku.h"
#include "workloads.h"

enum { AT_LEAST = 9, AT_MOST = 301, BLOCK_BEFORE = 1000 };      /* runs of a row; commands in an untimed block */
static const double LONG_ENOUGH = 3e8;                          /* nanoseconds after which AT_LEAST runs are enough */
static const char *picked;

typedef uint32_t (*Run)(uint32_t *, size_t, uint32_t *, size_t, uint32_t *, size_t, uint32_t *, size_t, const uint32_t *, size_t, uint32_t *, size_t);

static void stop(const char *name, const char *what) {
    fprintf(stderr, "%s: %s\n", name, what);
    exit(1);
}

static void *room(size_t words) {
    void *p = calloc(words + 1, sizeof(uint32_t));
    if (!p) stop("bench", "no memory");
    return p;
}

static double now(void) {
    struct timespec t;
    clock_gettime(CLOCK_MONOTONIC, &t);
    return 1e9 * (double)t.tv_sec + (double)t.tv_nsec;
}

static int rising(const void *a, const void *b) {
    double x = *(const double *)a, y = *(const double *)b;
    return (x > y) - (x < y);
}

static double median(double *times, size_t n) {
    qsort(times, n, sizeof *times, rising);
    return times[n / 2];
}

static Lent lend(const Workload *w) {
    Lent l = {.cells_words = taldreku_cells_length(w->pages),
              .remember_words = taldreku_remember_length(w->entries),
              .tables_words = taldreku_tables_length(w->threads, w->variables, w->depth, w->pages),
              .chains_words = taldreku_chains_length(w->threads, w->depth, w->entries)};
    l.cells = room(l.cells_words), l.remember = room(l.remember_words), l.tables = room(l.tables_words), l.chains = room(l.chains_words);
    return l;
}

static void restore(Lent *to, const Lent *from) {
    memcpy(to->cells, from->cells, from->cells_words * sizeof(uint32_t));
    memcpy(to->remember, from->remember, from->remember_words * sizeof(uint32_t));
    memcpy(to->tables, from->tables, from->tables_words * sizeof(uint32_t));
    memcpy(to->chains, from->chains, from->chains_words * sizeof(uint32_t));
}

static void give_back(Lent *l) {
    free(l->cells);
    free(l->remember);
    free(l->tables);
    free(l->chains);
}

static uint32_t run_block(Run run, Lent *l, const uint32_t *block, size_t commands, uint32_t *answers) {
    return run(l->cells, l->cells_words, l->remember, l->remember_words, l->tables, l->tables_words, l->chains, l->chains_words, block, 5 * commands,
               answers, 2 * commands);
}

static void run_stream(Run run, Lent *l, const Stream *s, size_t block, uint32_t *answers, const char *name) {
    for (size_t i = 0; i < s->commands; i += block) {
        size_t n = s->commands - i < block ? s->commands - i : block;
        if (run_block(run, l, s->words + 5 * i, n, answers + 2 * i) != TALDREKU_DONE) stop(name, "a block was refused");
    }
}

/* A stream of no command is one empty block. */
static size_t blocks_of(const Workload *w) { return w->timed.commands == 0 ? 1 : (w->timed.commands + w->block - 1) / w->block; }

/* Nanoseconds for each block of the timed stream; or, before each block, for an empty one, which is what the check of the tables costs. Not
 * inlined: bench/counts looks for its name. */
__attribute__((noinline)) static void time_stream(Run run, Lent *l, const Workload *w, uint32_t *answers, double *times) {
    for (size_t i = 0; i < blocks_of(w); i++) {
        size_t at = i * w->block, n = w->timed.commands - at < w->block ? w->timed.commands - at : w->block;
        double from = now();
        uint32_t number = run_block(run, l, w->timed.words + 5 * at, n, answers + 2 * at);
        times[i] = now() - from;
        if (number != TALDREKU_DONE) stop(w->name, "a block was refused");
    }
}

static void time_checks(Run run, Lent *l, const Workload *w, uint32_t *answers, double *times) {
    for (size_t i = 0; i < blocks_of(w); i++) {
        size_t at = i * w->block, n = w->timed.commands - at < w->block ? w->timed.commands - at : w->block;
        double from = now();
        run_block(run, l, NULL, 0, NULL);
        times[i] = now() - from;
        run_block(run, l, w->timed.words + 5 * at, n, answers + 2 * at);
    }
}

/* The median of each block's runs, summed over the blocks. */
static double typical(const double *times, size_t blocks, size_t runs) {
    static double column[AT_MOST];
    double sum = 0;
    for (size_t i = 0; i < blocks; i++) {
        for (size_t n = 0; n < runs; n++) column[n] = times[n * blocks + i];
        sum += median(column, runs);
    }
    return sum;
}

static uint32_t check_by_hand(uint32_t *cells, size_t cells_words, uint32_t *remember, size_t remember_words, uint32_t *tables,
                              size_t tables_words, uint32_t *chains, size_t chains_words, const uint32_t *block, size_t block_words,
                              uint32_t *answers, size_t answers_words) {
    (void)block, (void)block_words, (void)answers, (void)answers_words;
    return plain_check(cells, cells_words, remember, remember_words, tables, tables_words, chains, chains_words);
}

/* A heap is prepared anew with the sizes that it has; by hand too; or all of its words are cleared. The last is not inlined: bench/counts looks
 * for its name. */
static uint32_t prepare_anew(uint32_t *cells, size_t cells_words, uint32_t *remember, size_t remember_words, uint32_t *tables,
                             size_t tables_words, uint32_t *chains, size_t chains_words, const uint32_t *block, size_t block_words,
                             uint32_t *answers, size_t answers_words) {
    (void)block, (void)block_words, (void)answers, (void)answers_words;
    return taldreku_prepare(tables[0], tables[1], tables[2], tables[3], tables[4], cells, cells_words, remember, remember_words, tables,
                            tables_words, chains, chains_words);
}

static uint32_t prepare_by_hand(uint32_t *cells, size_t cells_words, uint32_t *remember, size_t remember_words, uint32_t *tables,
                                size_t tables_words, uint32_t *chains, size_t chains_words, const uint32_t *block, size_t block_words,
                                uint32_t *answers, size_t answers_words) {
    (void)block, (void)block_words, (void)answers, (void)answers_words;
    return plain_prepare(tables[0], tables[1], tables[2], tables[3], tables[4], cells, cells_words, remember, remember_words, tables,
                         tables_words, chains, chains_words);
}

__attribute__((noinline)) static uint32_t memset_alone(uint32_t *cells, size_t cells_words, uint32_t *remember, size_t remember_words,
                                                       uint32_t *tables, size_t tables_words, uint32_t *chains, size_t chains_words,
                                                       const uint32_t *block, size_t block_words, uint32_t *answers, size_t answers_words) {
    (void)block, (void)block_words, (void)answers, (void)answers_words;
    memset(cells, 0, cells_words * sizeof *cells);
    memset(remember, 0, remember_words * sizeof *remember);
    memset(tables, 0, tables_words * sizeof *tables);
    memset(chains, 0, chains_words * sizeof *chains);
    return TALDREKU_DONE;
}

static Run by_hand(const Workload *w) {
    switch (w->what) {
    case PREPARE: return prepare_by_hand;
    case PREPARE_MEMSET: return memset_alone;
    default: return w->timed.commands == 0 ? check_by_hand : plain_run;
    }
}

static void same_tables(const Workload *w, Lent *ours, Lent *plain) {
    if (run_block(taldreku_run, plain, NULL, 0, NULL) != TALDREKU_DONE) stop(w->name, "the hand-written heap's tables are not whole");
    if (run_block(check_by_hand, ours, NULL, 0, NULL) != TALDREKU_DONE) stop(w->name, "our tables fail the check by hand");
    if (!agree(ours, plain)) stop(w->name, "the tables differ");
}

/* Nanoseconds for the timed stream: ours, of these the checks of the tables, and by hand. */
typedef struct {
    double ours, checks, plain;
} Times;

/* Interleaved runs, each from the tables as the untimed stream left them. */
static Times measure(const Workload *w) {
    size_t blocks = blocks_of(w), n = 0;
    double *ours = room(2 * blocks * AT_MOST), *checks = room(2 * blocks * AT_MOST), *plain = room(2 * blocks * AT_MOST);
    Lent kept[2] = {lend(w), lend(w)}, heap[2] = {lend(w), lend(w)};
    size_t most = w->before.commands > w->timed.commands ? w->before.commands : w->timed.commands;
    uint32_t *answers[2] = {room(2 * most), room(2 * most)};
    Run calls[2] = {w->what == BLOCKS ? taldreku_run : prepare_anew, by_hand(w)};

    if (taldreku_prepare(w->threads, w->variables, w->depth, w->pages, w->entries, kept[0].cells, kept[0].cells_words, kept[0].remember,
                         kept[0].remember_words, kept[0].tables, kept[0].tables_words, kept[0].chains, kept[0].chains_words) != TALDREKU_DONE
        || plain_prepare(w->threads, w->variables, w->depth, w->pages, w->entries, kept[1].cells, kept[1].cells_words, kept[1].remember,
                         kept[1].remember_words, kept[1].tables, kept[1].tables_words, kept[1].chains, kept[1].chains_words) != TALDREKU_DONE)
        stop(w->name, "the sizes were refused");
    run_stream(taldreku_run, &kept[0], &w->before, BLOCK_BEFORE, answers[0], w->name);
    run_stream(plain_run, &kept[1], &w->before, BLOCK_BEFORE, answers[1], w->name);
    if (memcmp(answers[0], answers[1], 2 * w->before.commands * sizeof(uint32_t)) != 0) stop(w->name, "the answers differ before it is timed");
    same_tables(w, &kept[0], &kept[1]);

    for (double began = now(); n < (picked ? 1 : AT_MOST) && (n < AT_LEAST || now() - began < LONG_ENOUGH); n++) {
        memset(answers[0], 255, 2 * w->timed.commands * sizeof(uint32_t));
        memset(answers[1], 254, 2 * w->timed.commands * sizeof(uint32_t));
        for (size_t k = 0; k < 2; k++) {
            size_t side = (n + k) % 2;
            restore(&heap[side], &kept[side]);
            time_stream(calls[side], &heap[side], w, answers[side], (side == 0 ? ours : plain) + n * blocks);
        }
        if (memcmp(answers[0], answers[1], 2 * w->timed.commands * sizeof(uint32_t)) != 0) stop(w->name, "the answers differ");
        if (n == 0 && w->what != PREPARE_MEMSET) same_tables(w, &heap[0], &heap[1]);
        if (w->what == BLOCKS) {
            restore(&heap[0], &kept[0]);
            time_checks(taldreku_run, &heap[0], w, answers[0], checks + n * blocks);
        }
    }
    Times t = {.ours = typical(ours, blocks, n), .checks = typical(checks, blocks, n), .plain = typical(plain, blocks, n)};
    free(ours);
    free(checks);
    free(plain);
    for (int side = 0; side < 2; side++) {
        give_back(&kept[side]);
        give_back(&heap[side]);
        free(answers[side]);
    }
    return t;
}

/* One row of the table. The last column leaves the checks out of ours, where they are not nearly all of it. */
static Times row(Workload w) {
    Times t = {0};
    if (!picked || strcmp(w.name, picked) == 0) {
        t = measure(&w);
        double commands = w.timed.commands == 0 ? 1 : (double)w.timed.commands;
        printf("| %s | %.0f | %.1f | %.1f | %.1f | %.3f |", w.name, commands, t.ours / commands, t.checks / commands, t.plain / commands,
               t.plain / t.ours);
        if (w.timed.commands == 0 || t.checks > 0.9 * t.ours) printf(" |\n");
        else printf(" %.2f |\n", t.plain / (t.ours - t.checks));
        fflush(stdout);
    }
    free_workload(&w);
    return t;
}

/* Growth: what an end or a collection costs without the check, for each survivor, end or object, ours and the hand-written heap's. */
static void cost_of(Workload w, double times, double cost[2]) {
    Times t = measure(&w);
    cost[0] = (t.ours - t.checks) / times;
    cost[1] = t.plain / times;
    free_workload(&w);
}

static void growth(const char *name, Workload small, double few, Workload large, double many) {
    double less[2], more[2];
    cost_of(small, few, less);
    cost_of(large, many, more);
    printf("| %s | %.1f | %.1f | %.2f | %.1f | %.1f | %.2f |\n", name, less[0], more[0], more[0] / less[0], less[1], more[1], more[1] / less[1]);
    fflush(stdout);
}

#if defined HAVE_TALLOC || defined HAVE_GC
static void natural(const char *name, Imported (*import)(void), Imported wanted, double commands) {
    static double times[AT_LEAST];
    for (size_t n = 0; n < AT_LEAST; n++) {
        double from = now();
        Imported got = import();
        times[n] = now() - from;
        if (memcmp(&got, &wanted, sizeof got) != 0) stop(name, "another import");
    }
    double t = median(times, AT_LEAST);
    printf("| %s | %.1f | %.1f |\n", name, t / wanted.objects, t / commands);
}
#endif

static void by_heaps(void) {
    Imported imported;
    if (!picked) printf("A ratio is the time by hand divided by ours: below 1 ours is slower than by hand, above 1 it is faster.\n");
    printf("\n| workload | commands | ours, ns a command | of these the check | by hand | ratio | ratio less the check |\n|---|--:|--:|--:|--:|--:|--:|\n");
    Times t = row(import_commands("import, blocks of 1,000", 1000, SHEETS, &imported));
    Times whole = row(import_commands("import, one block", 100000, SHEETS, &imported));
    row(import_commands("import of one sheet a thread, blocks of 5", 5, 1, &imported));
    row(end_fifteen("15 ends of 480 objects, few survive", 0));
    row(end_fifteen("15 ends of 480 objects, nine in ten survive", 1));
    row(end_empty("start and end of empty epochs, 1,024 pages", 1024));
    row(end_among("48 ends of one page, 40 entries of other regions", 40, BY_LAST_ENTRIES));
    row(end_among("48 ends of one page, 400 entries of other regions", 400, BY_LAST_ENTRIES));
    row(end_among("48 ends of one page, 4,000 entries of other regions", 4000, BY_LAST_ENTRIES));
    row(end_among("48 ends of one page, 4,000 entries of other regions, held by variables alone", 4000, BY_VARIABLES));
    row(end_among("48 ends of one page, 4,000 entries of other regions behind those that go", 4000, BY_FIRST_ENTRIES));
    row(make_list("make a list of 16,000, linked backwards", 16000, BACKWARDS));
    row(make_list("make a list of 16,000, linked forwards", 16000, FORWARDS));
    row(end_list("end of a list of 8,176, backwards, all survive", 1024, 8176, 8176, BACKWARDS));
    row(end_list("end of a list of 8,176, forwards, all survive", 1024, 8176, 8176, FORWARDS));
    row(end_list("end of a list of 16,000, 160 survive", 1024, 16000, 160, FORWARDS));
    row(end_list("end of a list of 16,000, none survives", 1024, 16000, 0, FORWARDS));
    row(end_list("end of a list of 16,000, refused with 13", 1024, 16000, 16000, BACKWARDS));
    row(collect_list("collect a list of 8,176, backwards, all kept", 1024, 8176, BACKWARDS));
    row(collect_list("collect a list of 8,176, forwards, all kept", 1024, 8176, FORWARDS));
    row(collect_half("collect a register of 8,176, every second dropped", 1024, 8176, 0));
    row(collect_half("collect a register of 4,000 with 4,000 entries, every second dropped", 1024, 4000, 1));
    row(stores("stores that do not cross", 0, 0));
    row(stores("stores that cross", 1, 0));
    row(stores("stores that cross, 4,000 entries", 1, 4000));
    row(new_objects("new objects, 32 pages", 32));
    row(new_objects("new objects, 1,024 pages", 1024));
    row(loads("loads and reads, 16,000 objects, blocks of 1,000", 1024, 16000, 1000));
    row(loads("loads and reads, 400 objects, blocks of 1,000", 32, 400, 1000));
    row(loads("loads and reads, 400 objects, blocks of 5", 32, 400, 5));
    row(check("the check alone, no object", 0, 0));
    row(check("the check alone, 16,000 objects", 16000, 0));
    row(check("the check alone, 8,000 objects, 4,000 entries", 8000, 4000));
    row(prepare("prepare, 1,024 pages", PREPARE));
    row(prepare("prepare, 1,024 pages, beside memset alone", PREPARE_MEMSET));

    if (picked) return;
    Workload w = import_commands("", 1000, SHEETS, &imported);
    double commands = (double)w.timed.commands;
    free_workload(&w);
    printf("\n| the import of %u objects, written on | ns an object | ns for what is a command above |\n|---|--:|--:|\n", imported.objects);
    printf("| Taldreku, blocks of 1,000 | %.1f | %.1f |\n", t.ours / imported.objects, t.ours / commands);
    printf("| Taldreku, one block | %.1f | %.1f |\n", whole.ours / imported.objects, whole.ours / commands);
    printf("| the hand-written heap | %.1f | %.1f |\n", t.plain / imported.objects, t.plain / commands);
#ifdef HAVE_TALLOC
    natural("talloc, a context for each epoch", import_talloc, imported, commands);
#endif
#ifdef HAVE_GC
    natural("Boehm's collector", import_gc, imported, commands);
#endif
}

static void by_growth(void) {
    if (picked) return;
    printf("\n| how the cost of an end and of a collection grows, ns | ours, smaller | larger | growth | by hand, smaller | larger | growth |\n"
           "|---|--:|--:|--:|--:|--:|--:|\n");
    growth("a survivor, 160 to 1,600, 1,024 pages", end_list("", 1024, 160, 160, BACKWARDS), 160, end_list("", 1024, 1600, 1600, BACKWARDS), 1600);
    growth("a survivor, 1,600 to 8,176, 1,024 pages", end_list("", 1024, 1600, 1600, BACKWARDS), 1600, end_list("", 1024, 8176, 8176, BACKWARDS),
           8176);
    growth("a survivor, 160 to 1,600, pages to fit", end_list("", 20, 160, 160, BACKWARDS), 160, end_list("", 200, 1600, 1600, BACKWARDS), 1600);
    growth("a survivor, 1,600 to 8,176, pages to fit", end_list("", 200, 1600, 1600, BACKWARDS), 1600, end_list("", 1024, 8176, 8176, BACKWARDS),
           8176);
    growth("an end of one page, 32 to 1,024 pages, others free", end_pages("", 32, 0), 16, end_pages("", 1024, 0), 16);
    growth("an end of one page, 32 to 1,024 pages, others in use", end_pages("", 32, 1), 16, end_pages("", 1024, 1), 16);
    growth("an end of one page, 40 to 400 entries of other regions", end_among("", 40, BY_LAST_ENTRIES), SHEETS_ENDED,
           end_among("", 400, BY_LAST_ENTRIES), SHEETS_ENDED);
    growth("an end of one page, 40 to 4,000 entries of other regions", end_among("", 40, BY_LAST_ENTRIES), SHEETS_ENDED,
           end_among("", 4000, BY_LAST_ENTRIES), SHEETS_ENDED);
    growth("an end of one page, 40 to 4,000 entries of other regions, held by variables alone", end_among("", 40, BY_VARIABLES), SHEETS_ENDED,
           end_among("", 4000, BY_VARIABLES), SHEETS_ENDED);
    growth("an end of one page, 40 to 4,000 entries of other regions behind those that go", end_among("", 40, BY_FIRST_ENTRIES), SHEETS_ENDED,
           end_among("", 4000, BY_FIRST_ENTRIES), SHEETS_ENDED);
    for (uint32_t objects = 1000; objects < 8000; objects *= 2) {
        char name[80];
        snprintf(name, sizeof name, "an object of a collection, %u,000 to %u,000, pages to fit", objects / 1000, objects / 500);
        growth(name, collect_half("", objects / 16 + 2, objects, 0), objects, collect_half("", objects / 8 + 2, 2 * objects, 0), 2 * objects);
    }
}

int main(int words, char **word) {
    if (words == 2) picked = word[1];
    by_heaps();
    by_growth();
    return 0;
}
