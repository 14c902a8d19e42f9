#define _GNU_SOURCE
#include "check.h"

#include <signal.h>
#include <stdio.h>
#include <stdlib.h>
#include <string.h>
#include <sys/mman.h>
#include <ucontext.h>
#include <unistd.h>

#include "../../bench/plain.h"

/* ---- checks */

static const char *group = "";
static unsigned long checks, all;

void check(int holds, const char *what, const char *file, int line) {
    checks++;
    if (holds) return;
    fprintf(stderr, "%s:%d: %s: does not hold: %s\n", file, line, group, what);
    exit(1);
}

/* Only functions that a signal handler may call. */
static void stray(int signal) {
    static const char text[] = ": an access outside of the lent arrays, or a write to one that is only read\n";
    (void)signal;
    if (write(2, group, strlen(group)) < 0 || write(2, text, sizeof text - 1) < 0) _exit(2);
    _exit(1);
}

void begin(const char *name) {
    static char stack[65536];
    stack_t s = {.ss_sp = stack, .ss_size = sizeof stack};
    struct sigaction a = {.sa_handler = stray, .sa_flags = SA_ONSTACK};
    group = name, checks = 0;
    CHECK(sigaltstack(&s, NULL) == 0 && sigaction(SIGSEGV, &a, NULL) == 0 && sigaction(SIGBUS, &a, NULL) == 0);
}

void end(void) {
    release();
    printf("%s: %lu checks\n", group, checks);
    fflush(stdout);
    all += checks;
}

unsigned long all_checks(void) { return all; }

uint32_t numbers_given;

uint32_t given(uint32_t number) {
    CHECK(number <= TALDREKU_CHAINS);
    numbers_given |= 1u << number;
    return number;
}

uint32_t draw(void) {
    static uint32_t state = 1;
    state ^= state << 13, state ^= state >> 17, state ^= state << 5;
    return state;
}

void noise(uint32_t *words, size_t count) {
    for (size_t i = 0; i < count; i++) words[i] = draw();
}

/* ---- fenced arrays */

typedef struct {
    char *map;
    size_t bytes;               /* of the pages between the two unreadable ones */
    uint32_t *array;
    size_t words;
} Fence;

enum { FENCES = 64, WATCHED = 0xa5 };
static Fence fences[FENCES];
static size_t fence_count;

static size_t page_bytes(void) { return (size_t)sysconf(_SC_PAGESIZE); }

uint32_t *fenced(size_t words, Edge edge) {
    size_t page = page_bytes(), bytes = (words * sizeof(uint32_t) + page) / page * page;
    CHECK(fence_count < FENCES);
    char *map = mmap(NULL, bytes + 2 * page, PROT_NONE, MAP_PRIVATE | MAP_ANONYMOUS, -1, 0);
    CHECK(map != MAP_FAILED && mprotect(map + page, bytes, PROT_READ | PROT_WRITE) == 0);
    memset(map + page, WATCHED, bytes);
    char *from = edge == AT_END ? map + page + bytes - words * sizeof(uint32_t) : map + page;
    fences[fence_count++] = (Fence){.map = map, .bytes = bytes, .array = (uint32_t *)(void *)from, .words = words};
    return fences[fence_count - 1].array;
}

void read_only(const uint32_t *array) {
    for (size_t i = 0; i < fence_count; i++)
        if (fences[i].array == array) {
            CHECK(mprotect(fences[i].map + page_bytes(), fences[i].bytes, PROT_READ) == 0);
            return;
        }
    CHECK(!"a fenced array");
}

void release_last(void) {
    Fence f = fences[--fence_count];
    char *from = f.map + page_bytes(), *array = (char *)f.array, *behind = array + f.words * sizeof(uint32_t);
    int kept = 1;
    for (char *at = from; at < from + f.bytes; at++)
        if (at < array || at >= behind) kept &= (unsigned char)*at == WATCHED;
    CHECK(kept);
    CHECK(munmap(f.map, f.bytes + 2 * page_bytes()) == 0);
}

void release(void) {
    while (fence_count > 0) release_last();
}

/* ---- heaps */

const Sizes LARGEST = {TALDREKU_MAX_THREADS, TALDREKU_MAX_VARIABLES, TALDREKU_MAX_DEPTH, TALDREKU_MAX_PAGES, TALDREKU_MAX_ENTRIES};

Lent lend(Sizes s, size_t extra, Edge edge) {
    Lent l = {.cells_words = taldreku_cells_length(s.pages) + extra,
              .remember_words = taldreku_remember_length(s.entries) + extra,
              .tables_words = taldreku_tables_length(s.threads, s.variables, s.depth, s.pages) + extra,
              .chains_words = taldreku_chains_length(s.threads, s.depth, s.entries) + extra};
    l.cells = fenced(l.cells_words, edge), l.remember = fenced(l.remember_words, edge);
    l.tables = fenced(l.tables_words, edge), l.chains = fenced(l.chains_words, edge);
    noise(l.cells, l.cells_words), noise(l.remember, l.remember_words), noise(l.tables, l.tables_words), noise(l.chains, l.chains_words);
    return l;
}

uint32_t prepare(Sizes s, const Lent *l) {
    return given(taldreku_prepare(s.threads, s.variables, s.depth, s.pages, s.entries, l->cells, l->cells_words, l->remember,
                                  l->remember_words, l->tables, l->tables_words, l->chains, l->chains_words));
}

Lent prepared(Sizes s, size_t extra, Edge edge) {
    Lent l = lend(s, extra, edge);
    CHECK(prepare(s, &l) == TALDREKU_DONE);
    return l;
}

uint32_t run(const Lent *l, const uint32_t *block, size_t block_words, uint32_t *answers, size_t answers_words) {
    return given(taldreku_run(l->cells, l->cells_words, l->remember, l->remember_words, l->tables, l->tables_words, l->chains, l->chains_words,
                              block, block_words, answers, answers_words));
}

struct taldreku_reported report(const Lent *l, struct taldreku_row *rows, size_t count) {
    struct taldreku_reported r =
        taldreku_report(l->cells, l->cells_words, l->remember, l->remember_words, l->tables, l->tables_words, l->chains, l->chains_words, rows,
                        count);
    given(r.number);
    return r;
}

static uint32_t *copied(const uint32_t *words, size_t count) {
    uint32_t *copy = malloc((count + 1) * sizeof *copy);
    CHECK(copy != NULL);
    for (size_t i = 0; i < count; i++) copy[i] = words[i];
    return copy;
}

Lent copy_of(const Lent *l) {
    Lent copy = *l;
    copy.cells = copied(l->cells, l->cells_words);
    copy.remember = copied(l->remember, l->remember_words);
    copy.tables = copied(l->tables, l->tables_words);
    copy.chains = copied(l->chains, l->chains_words);
    return copy;
}

static int same(const uint32_t *a, const uint32_t *b, size_t count) { return count == 0 || memcmp(a, b, count * sizeof *a) == 0; }

int same_words(const Lent *l, const Lent *m) {
    return same(l->cells, m->cells, l->cells_words) && same(l->remember, m->remember, l->remember_words) &&
           same(l->tables, m->tables, l->tables_words) && same(l->chains, m->chains, l->chains_words);
}

uint32_t owner_of(const Lent *l, uint32_t page) { return l->tables[5 + l->tables[0] * (1 + l->tables[1]) + page]; }
uint32_t used_on(const Lent *l, uint32_t page) { return owner_of(l, l->tables[3] + page); }
uint32_t *made_word(const Lent *l) { return l->tables + taldreku_tables_length(l->tables[0], l->tables[1], l->tables[2], l->tables[3]) - 2; }
uint32_t *freed_word(const Lent *l) { return made_word(l) + 1; }

int entries_rise(const Lent *l) {
    uint32_t n = 0, most = l->remember[0], *slots = l->remember + 2, *regions = slots + most;
    for (uint32_t page = 0; page < l->tables[3]; page++)
        for (uint32_t word = 0; word < 16 * used_on(l, page); word++) {
            uint32_t at = 256 * page + word, references = l->cells[at - at % 16] / 16, x = l->cells[at];
            if (at % 16 < 2 || at % 16 >= 2 + references || x == 0) continue;
            uint32_t to = owner_of(l, (x - 1) / 16);
            if (to == 1 || to == owner_of(l, page)) continue;
            if (n == most || slots[n] != at || regions[n] != to) return 0;
            n++;
        }
    if (l->remember[1] != n) return 0;
    for (; n < most; n++)
        if (slots[n] != 0 || regions[n] != 0) return 0;
    return 1;
}

int chains_right(const Lent *l) {
    static uint32_t words[TALDREKU_MAX_ROWS + TALDREKU_MAX_ENTRIES];
    uint32_t regions = 1 + l->tables[0] * l->tables[2], *region_of = l->remember + 2 + l->remember[0];
    memset(words, 0, sizeof words);
    for (uint32_t region = 1; region <= regions; region++) {
        uint32_t *link = words + region - 1;
        for (uint32_t i = 0; i < l->remember[1]; i++)
            if (region_of[i] == region) *link = 1 + i, link = words + regions + i;
    }
    return same(words, l->chains, regions + l->remember[0]);
}

uint32_t check_by_hand(const Lent *l) {
    return plain_check(l->cells, l->cells_words, l->remember, l->remember_words, l->tables, l->tables_words, l->chains, l->chains_words);
}

void drop(Lent *copy) {
    free(copy->cells);
    free(copy->remember);
    free(copy->tables);
    free(copy->chains);
}

/* ---- blocks */

void add(Block *b, uint32_t code, uint32_t thread, uint32_t a, uint32_t x, uint32_t y) {
    if (b->commands == b->room) {
        b->room = b->room == 0 ? 1024 : 2 * b->room;
        b->words = realloc(b->words, b->room * TALDREKU_COMMAND_WORDS * sizeof *b->words);
        b->answers = realloc(b->answers, b->room * TALDREKU_ANSWER_WORDS * sizeof *b->answers);
        CHECK(b->words != NULL && b->answers != NULL);
    }
    uint32_t *at = b->words + TALDREKU_COMMAND_WORDS * b->commands++;
    at[0] = code, at[1] = thread, at[2] = a, at[3] = x, at[4] = y;
}

void empty(Block *b) { b->commands = 0; }

void discard(Block *b) {
    free(b->words);
    free(b->answers);
    *b = (Block){0};
}

void obey(const Lent *l, Block *b) {
    size_t refused = 0;
    CHECK(run(l, b->words, TALDREKU_COMMAND_WORDS * b->commands, b->answers, TALDREKU_ANSWER_WORDS * b->commands) == TALDREKU_DONE);
    for (size_t i = 0; i < b->commands; i++) refused += given(b->answers[TALDREKU_ANSWER_WORDS * i]) != TALDREKU_DONE;
    CHECK(refused == 0);
}

void obey_all(const Lent *l, Block *b) {
    obey(l, b);
    empty(b);
}

void obey_next(const Lent *l, Block *b, uint32_t code, uint32_t thread, uint32_t a, uint32_t x, uint32_t y) {
    add(b, code, thread, a, x, y);
    obey_all(l, b);
}

uint32_t answer(const Lent *l, uint32_t code, uint32_t thread, uint32_t a, uint32_t b, uint32_t c, uint32_t *value) {
    uint32_t block[TALDREKU_COMMAND_WORDS] = {code, thread, a, b, c}, words[TALDREKU_ANSWER_WORDS] = {99, 99};
    CHECK(run(l, block, TALDREKU_COMMAND_WORDS, words, TALDREKU_ANSWER_WORDS) == TALDREKU_DONE);
    *value = words[1];
    return given(words[0]);
}

/* ---- the stack */

static ucontext_t caller, callee;

size_t stack_of(void (*work)(void)) {
    enum { BYTES = 1 << 20 };
    char *stack = (char *)fenced(BYTES / sizeof(uint32_t), AT_START);
    size_t untouched = 0;
    memset(stack, WATCHED, BYTES);
    CHECK(getcontext(&callee) == 0);
    callee.uc_stack.ss_sp = stack, callee.uc_stack.ss_size = BYTES, callee.uc_link = &caller;
    makecontext(&callee, work, 0);
    CHECK(swapcontext(&caller, &callee) == 0);
    while (untouched < BYTES && (unsigned char)stack[untouched] == WATCHED) untouched++;
    return BYTES - untouched;
}
