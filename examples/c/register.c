/* A register that stays loaded all week, on the epoch heap. It stands in the control space: a list of vehicles, each of which leads to its last
 * reading. Every day a workbook, an epoch, brings a new reading for each vehicle; what the register holds moves to the control space when the
 * workbook ends, and the reading before it is left there with nothing that leads to it.
 *
 * Without a collection the pages run out on Thursday (13); with one each evening they never do. Build and run it with examples/c/run. */
#include "taldreku.h"

#include <stdio.h>
#include <stdlib.h>

enum { THREADS = 2, VARIABLES = 4, DEPTH = 1, PAGES = 9, ENTRIES = 24, VEHICLES = 24, DAYS = 7, FRIDAY = 4 };

/* The register's thread, and the inspector's, whose sheet stays open all week. */
enum { OFFICE = 0, INSPECTOR = 1 };

/* the variables of the office: the first vehicle, the one at hand, the one before it, and a reading */
enum { FIRST = 0, VEHICLE = 1, BEFORE = 2, READING = 3 };
/* the fields of a vehicle and of a reading; numbers count from 0 too */
enum { NEXT = 0, LAST_READING = 1, PLATE = 0, DAY = 0, PRESSURE = 1 };
/* the inspector's: a note, and in reference 0 of the note a vehicle */
enum { NOTE = 0, NOTED = 1 };

static const char *const days[DAYS] = {"Monday", "Tuesday", "Wednesday", "Thursday", "Friday", "Saturday", "Sunday"};

static uint32_t *cells, *remember, *tables, *chains;
static size_t cells_words, remember_words, tables_words, chains_words;

static void stop(const char *what, uint32_t number) {
    fflush(stdout);
    fprintf(stderr, "register: %s: refused with %u\n", what, (unsigned)number);
    exit(1);
}

/* Runs one command: gives its number, and its value where one is asked for. The whole heap is checked for each call, so an engine makes larger
 * blocks. */
static uint32_t attempt(uint32_t code, uint32_t thread, uint32_t a, uint32_t b, uint32_t c, uint32_t *value) {
    const uint32_t command[TALDREKU_COMMAND_WORDS] = {code, thread, a, b, c};
    uint32_t answer[TALDREKU_ANSWER_WORDS];
    uint32_t number = taldreku_run(cells, cells_words, remember, remember_words, tables, tables_words, chains, chains_words, command,
                                   TALDREKU_COMMAND_WORDS, answer, TALDREKU_ANSWER_WORDS);
    if (number != TALDREKU_DONE) stop("run", number);
    if (value) *value = answer[1];
    return answer[0];
}

/* Runs one command that has to be done, and gives its value. */
static uint32_t does(uint32_t code, uint32_t thread, uint32_t a, uint32_t b, uint32_t c) {
    uint32_t value, number = attempt(code, thread, a, b, c, &value);
    if (number != TALDREKU_DONE) stop("a command", number);
    return value;
}

static void prepare(void) {
    uint32_t number = taldreku_prepare(THREADS, VARIABLES, DEPTH, PAGES, ENTRIES, cells, cells_words, remember, remember_words, tables, tables_words,
                                       chains, chains_words);
    if (number != TALDREKU_DONE) stop("prepare", number);
}

/* No epoch of the office is open, so the vehicles are made in the control space. The inspector notes the second. */
static void load_register(void) {
    for (uint32_t plate = VEHICLES; plate > 0; plate--) {
        does(TALDREKU_NEW, OFFICE, VEHICLE, 2, 1);
        does(TALDREKU_WRITE, OFFICE, VEHICLE, PLATE, plate);
        does(TALDREKU_STORE, OFFICE, VEHICLE, NEXT, FIRST);
        does(TALDREKU_COPY, OFFICE, FIRST, VEHICLE, OFFICE);
    }
    does(TALDREKU_LOAD, OFFICE, VEHICLE, FIRST, NEXT);
    does(TALDREKU_START, INSPECTOR, 0, 0, 0);
    does(TALDREKU_NEW, INSPECTOR, NOTE, 1, 0);
    does(TALDREKU_COPY, INSPECTOR, NOTED, VEHICLE, OFFICE);
    does(TALDREKU_STORE, INSPECTOR, NOTE, 0, NOTED);
    does(TALDREKU_CLEAR, INSPECTOR, NOTED, 0, 0);
    does(TALDREKU_CLEAR, OFFICE, VEHICLE, 0, 0);
}

/* The workbook of a day: a reading for each vehicle of the register. Gives how many; 0 if there is no room for its end. */
static uint32_t read_all(uint32_t day) {
    uint32_t readings = 0, more = 1;
    does(TALDREKU_START, OFFICE, 0, 0, 0);
    for (does(TALDREKU_COPY, OFFICE, VEHICLE, FIRST, OFFICE); more; more = does(TALDREKU_LOAD, OFFICE, VEHICLE, VEHICLE, NEXT)) {
        does(TALDREKU_NEW, OFFICE, READING, 0, 2);
        does(TALDREKU_WRITE, OFFICE, READING, DAY, day);
        does(TALDREKU_WRITE, OFFICE, READING, PRESSURE, 800 + readings);
        does(TALDREKU_STORE, OFFICE, VEHICLE, LAST_READING, READING);
        readings++;
    }
    does(TALDREKU_CLEAR, OFFICE, READING, 0, 0);
    uint32_t number = attempt(TALDREKU_END, OFFICE, 0, 0, 0, NULL);
    if (number == TALDREKU_PAGES) return 0;
    if (number != TALDREKU_DONE) stop("the end of a workbook", number);
    return readings;
}

/* Every second vehicle leaves the register. */
static void sell_half(void) {
    uint32_t more = 1;
    does(TALDREKU_COPY, OFFICE, BEFORE, FIRST, OFFICE);
    while (more && does(TALDREKU_LOAD, OFFICE, VEHICLE, BEFORE, NEXT)) {
        more = does(TALDREKU_LOAD, OFFICE, VEHICLE, VEHICLE, NEXT);
        does(TALDREKU_STORE, OFFICE, BEFORE, NEXT, VEHICLE);
        does(TALDREKU_COPY, OFFICE, BEFORE, VEHICLE, OFFICE);
    }
    does(TALDREKU_CLEAR, OFFICE, BEFORE, 0, 0);
    does(TALDREKU_CLEAR, OFFICE, VEHICLE, 0, 0);
}

static struct taldreku_reported report(struct taldreku_row rows[TALDREKU_MAX_ROWS]) {
    struct taldreku_reported r =
        taldreku_report(cells, cells_words, remember, remember_words, tables, tables_words, chains, chains_words, rows, TALDREKU_MAX_ROWS);
    if (r.number != TALDREKU_DONE) stop("report", r.number);
    return r;
}

static void print_space(void) {
    struct taldreku_row rows[TALDREKU_MAX_ROWS];
    struct taldreku_reported r = report(rows);
    printf("%u objects on %u pages, %u free", (unsigned)rows[0].objects, (unsigned)rows[0].pages, (unsigned)r.free_pages);
}

static void collect(void) {
    struct taldreku_row rows[TALDREKU_MAX_ROWS];
    uint32_t before = report(rows).freed;
    does(TALDREKU_COLLECT, OFFICE, 0, 0, 0);
    printf("; collected %u: ", (unsigned)(report(rows).freed - before));
    print_space();
}

static void week(int collects) {
    prepare();
    load_register();
    for (uint32_t day = 0; day < DAYS; day++) {
        uint32_t readings = read_all(day);
        if (readings == 0) {
            printf("  %s: too few free pages for the end of the workbook (%d): ", days[day], TALDREKU_PAGES);
            print_space();
            printf("\n");
            return;
        }
        printf("  %s: %u readings, ", days[day], (unsigned)readings);
        print_space();
        if (day == FRIDAY) {
            sell_half();
            printf("; half of the vehicles are sold");
        }
        if (collects) collect();
        printf("\n");
    }
}

/* The vehicles of the register, and the one that the inspector noted: it was sold on Friday, and its sheet kept it with its reading. */
static void look(void) {
    uint32_t vehicles = 0, sundays = 0, more = 1;
    for (does(TALDREKU_COPY, OFFICE, VEHICLE, FIRST, OFFICE); more; more = does(TALDREKU_LOAD, OFFICE, VEHICLE, VEHICLE, NEXT)) {
        vehicles++;
        does(TALDREKU_LOAD, OFFICE, READING, VEHICLE, LAST_READING);
        sundays += does(TALDREKU_READ, OFFICE, READING, DAY, 0) == DAYS - 1;
    }
    printf("%u vehicles, %u of them read on Sunday\n", (unsigned)vehicles, (unsigned)sundays);
    does(TALDREKU_LOAD, INSPECTOR, NOTED, NOTE, 0);
    printf("the inspector's vehicle has plate %u, ", (unsigned)does(TALDREKU_READ, INSPECTOR, NOTED, PLATE, 0));
    does(TALDREKU_LOAD, INSPECTOR, NOTED, NOTED, LAST_READING);
    printf("read on %s\n", days[does(TALDREKU_READ, INSPECTOR, NOTED, DAY, 0)]);
}

/* The inspector's sheet ends, and what it alone kept goes. */
static void end_inspection(void) {
    does(TALDREKU_CLEAR, INSPECTOR, NOTE, 0, 0);
    does(TALDREKU_CLEAR, INSPECTOR, NOTED, 0, 0);
    does(TALDREKU_END, INSPECTOR, 0, 0, 0);
    does(TALDREKU_CLEAR, OFFICE, READING, 0, 0);
    printf("the inspector's sheet has ended: ");
    print_space();
    collect();
    struct taldreku_row rows[TALDREKU_MAX_ROWS];
    struct taldreku_reported r = report(rows);
    printf("\nobjects made %u, freed %u, total %u\n", (unsigned)r.made, (unsigned)r.freed, (unsigned)r.total);
}

int main(void) {
    cells_words = taldreku_cells_length(PAGES);
    remember_words = taldreku_remember_length(ENTRIES);
    tables_words = taldreku_tables_length(THREADS, VARIABLES, DEPTH, PAGES);
    chains_words = taldreku_chains_length(THREADS, DEPTH, ENTRIES);
    cells = malloc(cells_words * sizeof *cells);
    remember = malloc(remember_words * sizeof *remember);
    tables = malloc(tables_words * sizeof *tables);
    chains = malloc(chains_words * sizeof *chains);
    if (!cells || !remember || !tables || !chains) {
        perror("register");
        return 1;
    }

    printf("a week without a collection\n");
    week(0);
    printf("a week with a collection each evening\n");
    week(1);
    look();
    end_inspection();

    free(cells);
    free(remember);
    free(tables);
    free(chains);
    return 0;
}
