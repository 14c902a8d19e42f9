/* dump < SCRIPT: prints every word of a heap after a script, so that two dumps can be laid side by side.
 *
 * A script is what the program reads: a line with the sizes T V D P N (threads, variables, depth, pages, remember entries), here up to the
 * largest that the library takes, then a command a line: code, thread, a, b, c. Commands that are refused change nothing, and their answers are
 * not printed.
 *
 * For each of the four arrays comes a line with its name and its length, then its words in decimal, sixteen to a line. A first line that is
 * missing, malformed or out of range prints "sizes" instead, line k that is not five numbers "line k".
 *
 * The exit status is 0. It is 1, with a line on standard error, if a call is refused, memory is short, or a read or a write fails.
 *
 * cc dump.c $(pkg-config --cflags --libs taldreku) -o dump */
#include "taldreku.h"

#include <inttypes.h>
#include <stdarg.h>
#include <stdio.h>
#include <stdlib.h>

enum { MOST_COMMANDS = 1000 };      /* of a block: the whole heap is checked once for each */

/* the numbers of the first line */
enum { T, V, D, P, N, SIZES };

typedef struct {
    uint32_t *cells, *remember, *tables, *chains;
    size_t cells_words, remember_words, tables_words, chains_words;
} Heap;

static _Noreturn void fail(const char *format, ...) {
    va_list values;
    fputs("dump: ", stderr);
    va_start(values, format);
    vfprintf(stderr, format, values);
    va_end(values);
    fputc('\n', stderr);
    exit(1);
}

static int next_character(void) {
    int c = getchar();
    if (c == EOF && ferror(stdin)) fail("the input cannot be read");
    return c;
}

typedef enum { NO_LINE, FIVE_NUMBERS, MALFORMED } Line;

/* Reads a line of five numbers with single spaces. The last line feed of the input may be missing. */
static Line next_line(uint32_t numbers[5]) {
    int c = next_character();
    if (c == EOF) return NO_LINE;
    for (int i = 0; i < 5; i++) {
        uint64_t value = 0;
        if (i > 0) {
            if (c != ' ') return MALFORMED;
            c = next_character();
        }
        if (c < '0' || c > '9') return MALFORMED;
        for (; c >= '0' && c <= '9'; c = next_character()) {
            value = 10 * value + (uint64_t)(c - '0');
            if (value > UINT32_MAX) return MALFORMED;
        }
        numbers[i] = (uint32_t)value;
    }
    return c == '\n' || c == EOF ? FIVE_NUMBERS : MALFORMED;
}

static uint32_t *lent(size_t words) {
    uint32_t *array = malloc(words * sizeof *array);
    if (array == NULL) fail("no memory for %zu words", words);
    return array;
}

/* Asks for the lengths, lends exactly so many words, and has them prepared; 0 if a size is out of range. */
static int prepare(Heap *h, const uint32_t size[SIZES]) {
    h->cells_words = taldreku_cells_length(size[P]);
    h->remember_words = taldreku_remember_length(size[N]);
    h->tables_words = taldreku_tables_length(size[T], size[V], size[D], size[P]);
    h->chains_words = taldreku_chains_length(size[T], size[D], size[N]);
    if (h->cells_words == 0 || h->remember_words == 0 || h->tables_words == 0 || h->chains_words == 0) return 0;
    h->cells = lent(h->cells_words);
    h->remember = lent(h->remember_words);
    h->tables = lent(h->tables_words);
    h->chains = lent(h->chains_words);
    uint32_t number = taldreku_prepare(size[T], size[V], size[D], size[P], size[N], h->cells, h->cells_words, h->remember, h->remember_words,
                                       h->tables, h->tables_words, h->chains, h->chains_words);
    if (number != TALDREKU_DONE) fail("prepare is refused with %" PRIu32, number);
    return 1;
}

static void run(const Heap *h, const uint32_t *block, size_t commands) {
    static uint32_t answers[TALDREKU_ANSWER_WORDS * MOST_COMMANDS];
    uint32_t number = taldreku_run(h->cells, h->cells_words, h->remember, h->remember_words, h->tables, h->tables_words, h->chains,
                                   h->chains_words, block, TALDREKU_COMMAND_WORDS * commands, answers, TALDREKU_ANSWER_WORDS * commands);
    if (number != TALDREKU_DONE) fail("a block is refused with %" PRIu32, number);
}

/* Runs the commands in blocks; gives the number of a malformed line, 0 if there is none. */
static uint64_t run_script(const Heap *h) {
    static uint32_t block[TALDREKU_COMMAND_WORDS * MOST_COMMANDS];
    size_t commands = 0;
    for (uint64_t k = 2;; k++) {
        switch (next_line(block + TALDREKU_COMMAND_WORDS * commands)) {
        case MALFORMED: return k;
        case NO_LINE: run(h, block, commands); return 0;
        case FIVE_NUMBERS: break;
        }
        if (++commands == MOST_COMMANDS) {
            run(h, block, commands);
            commands = 0;
        }
    }
}

static void print(const char *name, const uint32_t *words, size_t count) {
    printf("%s %zu\n", name, count);
    for (size_t i = 0; i < count; i++) printf("%" PRIu32 "%c", words[i], i % 16 == 15 || i + 1 == count ? '\n' : ' ');
}

static void dump(void) {
    uint32_t size[SIZES];
    Heap h = {0};
    if (next_line(size) != FIVE_NUMBERS || !prepare(&h, size)) {
        puts("sizes");
        return;
    }
    uint64_t malformed = run_script(&h);
    if (malformed != 0) printf("line %" PRIu64 "\n", malformed);
    else {
        print("cells", h.cells, h.cells_words);
        print("remember", h.remember, h.remember_words);
        print("tables", h.tables, h.tables_words);
        print("chains", h.chains, h.chains_words);
    }
    free(h.cells);
    free(h.remember);
    free(h.tables);
    free(h.chains);
}

int main(void) {
    dump();
    if (fflush(stdout) != 0 || ferror(stdout)) fail("the output cannot be written");
    return 0;
}
