/* A small import engine on the epoch heap. The workbook is an epoch of each of two threads, a sheet an epoch inside it, and a fleet register in
 * the control space keeps one wheel of each sheet. A finished sheet stays open, so that it can be looked up, until its room is needed.
 *
 * The heap is so small that room runs out, of pages (13) and of remember entries (14), to show what an engine does then. Build and run it with
 * examples/c/run. An argument sets how many pages the heap has. */
#include "taldreku.h"

#include <stdio.h>
#include <stdlib.h>
#include <string.h>

enum { THREADS = 2, VARIABLES = 5, DEPTH = 2, PAGES = 6, ENTRIES = 1, SHEETS = 3, ROWS = 1 + THREADS * DEPTH };

/* the variables of a thread */
enum { REGISTER = 0, WHEEL = 1, LAST = 2, KEPT = 3, FOUND = 4 };

/* the fields of a wheel: reference 0 is the wheel before it, number 0 its position, number 1 its pressure */
enum { BEFORE = 0, POSITION = 0, PRESSURE = 1 };

static uint32_t *cells, *remember, *tables, *chains;
static size_t cells_words, remember_words, tables_words, chains_words;

enum { MOST_COMMANDS = 16 };
static uint32_t block[TALDREKU_COMMAND_WORDS * MOST_COMMANDS], answers[TALDREKU_ANSWER_WORDS * MOST_COMMANDS];
static size_t commands;

static int sheet_open[THREADS];

static const char *meaning(uint32_t number) {
    switch (number) {
    case TALDREKU_DONE: return "done";
    case TALDREKU_SIZES: return "a size is out of range";
    case TALDREKU_SHORT: return "an array is too short";
    case TALDREKU_NOT_WHOLE: return "the arrays do not hold a heap";
    case TALDREKU_BLOCK: return "the block is no multiple of five words";
    case TALDREKU_ANSWERS: return "the answer array is too short";
    case TALDREKU_CODE: return "the code is not known";
    case TALDREKU_THREAD: return "there is no such thread";
    case TALDREKU_OPERAND: return "an operand is out of range";
    case TALDREKU_NULL: return "the variable is null";
    case TALDREKU_FIELD: return "the object has no such field";
    case TALDREKU_DEPTH: return "the epochs are nested to the full depth";
    case TALDREKU_NO_EPOCH: return "no epoch is open";
    case TALDREKU_PAGES: return "too few free pages";
    case TALDREKU_ENTRIES: return "too few remember entries";
    case TALDREKU_ROWS: return "too few rows";
    case TALDREKU_CHAINS: return "the chains are not those of the remember entries";
    default: return "an unknown number";
    }
}

static void stop(const char *what, uint32_t number) {
    fflush(stdout);
    fprintf(stderr, "import: %s: %s (%u)\n", what, meaning(number), (unsigned)number);
    exit(1);
}

/* Adds a command to the block. */
static void command(uint32_t code, uint32_t thread, uint32_t a, uint32_t b, uint32_t c) {
    if (commands == MOST_COMMANDS) {
        fprintf(stderr, "import: a block has room for %d commands\n", MOST_COMMANDS);
        exit(1);
    }
    uint32_t *at = block + TALDREKU_COMMAND_WORDS * commands++;
    at[0] = code, at[1] = thread, at[2] = a, at[3] = b, at[4] = c;
}

/* Runs the block. The commands after a refused one are obeyed too, so one that may be refused for room is the last of its block, and its number
 * is given back. Any other refusal stops the program. */
static uint32_t run(const char *what) {
    size_t n = commands;
    commands = 0;
    uint32_t number = taldreku_run(cells, cells_words, remember, remember_words, tables, tables_words, chains, chains_words, block,
                                   TALDREKU_COMMAND_WORDS * n, answers, TALDREKU_ANSWER_WORDS * n);
    if (number != TALDREKU_DONE) stop(what, number);
    for (size_t i = 0; i < n; i++) {
        number = answers[TALDREKU_ANSWER_WORDS * i];
        if (number != TALDREKU_DONE && !(i == n - 1 && (number == TALDREKU_PAGES || number == TALDREKU_ENTRIES))) stop(what, number);
    }
    return number;
}

static void run_all(const char *what) {
    uint32_t number = run(what);
    if (number != TALDREKU_DONE) stop(what, number);
}

static void clear_variables(uint32_t thread) {
    for (uint32_t variable = WHEEL; variable <= FOUND; variable++) command(TALDREKU_CLEAR, thread, variable, 0, 0);
}

/* Ends the sheet of a thread. What its variables lead to moves to the workbook; if there is no room for that, they are cleared first, and only
 * what the register keeps survives. */
static void end_sheet(uint32_t thread) {
    command(TALDREKU_END, thread, 0, 0, 0);
    uint32_t number = run("end of a sheet");
    if (number != TALDREKU_DONE) {
        printf("  end of the sheet of thread %u: %s (%u): its variables are cleared\n", (unsigned)thread, meaning(number), (unsigned)number);
        clear_variables(thread);
        command(TALDREKU_END, thread, 0, 0, 0);
        run_all("end of a sheet");
    }
    sheet_open[thread] = 0;
    printf("  the sheet of thread %u has ended\n", (unsigned)thread);
}

/* Runs the block of a thread. If its last command finds no room, the finished sheet of the other thread is ended, and it is tried again. */
static void run_with_room(const char *what, uint32_t thread) {
    uint32_t again[TALDREKU_COMMAND_WORDS];
    memcpy(again, block + TALDREKU_COMMAND_WORDS * (commands - 1), sizeof again);
    uint32_t number = run(what);
    if (number == TALDREKU_DONE) return;
    if (!sheet_open[1 - thread]) stop(what, number);
    printf("  %s: %s (%u): the sheet of thread %u is ended\n", what, meaning(number), (unsigned)number, (unsigned)(1 - thread));
    end_sheet(1 - thread);
    command(again[0], again[1], again[2], again[3], again[4]);
    run_all(what);
    printf("  %s: done at the second try\n", what);
}

/* A sheet of wheels, each of which leads to the one before it. The register keeps the second, and so the first. */
static void load_sheet(uint32_t sheet, uint32_t thread, uint32_t wheels, uint32_t pressure) {
    if (sheet_open[thread]) end_sheet(thread);
    printf("sheet %u, on thread %u\n", (unsigned)sheet, (unsigned)thread);
    clear_variables(thread);
    command(TALDREKU_START, thread, 0, 0, 0);
    run_all("start of a sheet");
    for (uint32_t i = 0; i < wheels; i++) {
        command(TALDREKU_COPY, thread, LAST, WHEEL, thread);
        command(TALDREKU_NEW, thread, WHEEL, 1, 2);
        run_with_room("a new wheel", thread);
        command(TALDREKU_WRITE, thread, WHEEL, POSITION, i);
        command(TALDREKU_WRITE, thread, WHEEL, PRESSURE, pressure + i);
        command(TALDREKU_STORE, thread, WHEEL, BEFORE, LAST);
        if (i == 1) command(TALDREKU_COPY, thread, KEPT, WHEEL, thread);
        run_all("a wheel");
    }
    command(TALDREKU_STORE, thread, REGISTER, sheet, KEPT);
    run_with_room("a wheel for the register", thread);
    sheet_open[thread] = 1;
    printf("  %u wheels\n", (unsigned)wheels);
}

static void report(void) {
    struct taldreku_row rows[ROWS];
    struct taldreku_reported r =
        taldreku_report(cells, cells_words, remember, remember_words, tables, tables_words, chains, chains_words, rows, ROWS);
    if (r.number != TALDREKU_DONE) stop("report", r.number);
    printf("thread  level  objects  pages\n");
    for (uint32_t i = 0; i < r.rows; i++)
        printf("%6u %6u %8u %6u\n", (unsigned)rows[i].thread, (unsigned)rows[i].level, (unsigned)rows[i].objects, (unsigned)rows[i].pages);
    printf("free pages %u, crossing slots %u\n", (unsigned)r.free_pages, (unsigned)r.crossing_slots);
    printf("objects made %u, freed %u, total %u\n", (unsigned)r.made, (unsigned)r.freed, (unsigned)r.total);
}

/* What the register keeps has moved to the control space, with what it leads to. */
static void look(void) {
    for (uint32_t kept = 0; kept < SHEETS; kept++) {
        command(TALDREKU_LOAD, 0, FOUND, REGISTER, kept);
        command(TALDREKU_READ, 0, FOUND, POSITION, 0);
        command(TALDREKU_READ, 0, FOUND, PRESSURE, 0);
        command(TALDREKU_LOAD, 0, FOUND, FOUND, BEFORE);
        command(TALDREKU_READ, 0, FOUND, PRESSURE, 0);
        run_all("a look at the register");
        printf("sheet %u: wheel %u at %u, the one before it at %u\n", (unsigned)kept, (unsigned)answers[3], (unsigned)answers[5],
               (unsigned)answers[9]);
    }
}

/* What a dump of the heap shows: the register and the wheels that it keeps. Where the others lay there are zeros. */
static void dump(void) {
    size_t shown = 0;
    for (size_t i = 0; i < cells_words; i++) shown += cells[i] != 0;
    printf("words of the cells that are not zero: %zu\n", shown);
}

int main(int words, char **word) {
    unsigned long pages = words > 1 ? strtoul(word[1], NULL, 10) : PAGES;
    if (pages > TALDREKU_MAX_PAGES) pages = TALDREKU_MAX_PAGES + 1;

    cells_words = taldreku_cells_length((uint32_t)pages);
    remember_words = taldreku_remember_length(ENTRIES);
    tables_words = taldreku_tables_length(THREADS, VARIABLES, DEPTH, (uint32_t)pages);
    chains_words = taldreku_chains_length(THREADS, DEPTH, ENTRIES);
    if (cells_words == 0 || remember_words == 0 || tables_words == 0 || chains_words == 0) stop("the sizes", TALDREKU_SIZES);
    cells = malloc(cells_words * sizeof *cells);
    remember = malloc(remember_words * sizeof *remember);
    tables = malloc(tables_words * sizeof *tables);
    chains = malloc(chains_words * sizeof *chains);
    if (!cells || !remember || !tables || !chains) {
        perror("import");
        return 1;
    }
    uint32_t number = taldreku_prepare(THREADS, VARIABLES, DEPTH, (uint32_t)pages, ENTRIES, cells, cells_words, remember, remember_words,
                                       tables, tables_words, chains, chains_words);
    if (number != TALDREKU_DONE) stop("prepare", number);

    /* the register stands in the control space: no epoch is open yet */
    command(TALDREKU_NEW, 0, REGISTER, SHEETS, 0);
    command(TALDREKU_COPY, 1, REGISTER, REGISTER, 0);
    for (uint32_t thread = 0; thread < THREADS; thread++) command(TALDREKU_START, thread, 0, 0, 0);
    run_all("start of the workbook");

    load_sheet(0, 0, 40, 800);
    report();
    load_sheet(1, 1, 40, 700);
    load_sheet(2, 0, 20, 600);
    report();

    printf("end of the workbook\n");
    for (uint32_t thread = 0; thread < THREADS; thread++) {
        if (sheet_open[thread]) end_sheet(thread);
        clear_variables(thread);
        command(TALDREKU_END, thread, 0, 0, 0);
        run_all("end of the workbook");
    }
    look();
    report();
    dump();

    free(cells);
    free(remember);
    free(tables);
    free(chains);
    return 0;
}
