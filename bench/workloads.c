#include "workloads.h"

#include <stdio.h>
#include <stdlib.h>

#include "taldreku.h"

static void add(Stream *s, uint32_t code, uint32_t thread, uint32_t a, uint32_t b, uint32_t c) {
    if (s->commands == s->room) {
        s->room = s->room == 0 ? 1024 : 2 * s->room;
        s->words = realloc(s->words, 5 * s->room * sizeof *s->words);
        if (!s->words) {
            perror("bench");
            exit(1);
        }
    }
    uint32_t *at = s->words + 5 * s->commands++;
    at[0] = code, at[1] = thread, at[2] = a, at[3] = b, at[4] = c;
}

static void start(Stream *s, uint32_t t) { add(s, TALDREKU_START, t, 0, 0, 0); }
static void end(Stream *s, uint32_t t) { add(s, TALDREKU_END, t, 0, 0, 0); }
static void make(Stream *s, uint32_t t, uint32_t a, uint32_t refs, uint32_t numbers) { add(s, TALDREKU_NEW, t, a, refs, numbers); }
static void copy(Stream *s, uint32_t t, uint32_t a, uint32_t b, uint32_t from) { add(s, TALDREKU_COPY, t, a, b, from); }
static void clear(Stream *s, uint32_t t, uint32_t a) { add(s, TALDREKU_CLEAR, t, a, 0, 0); }
static void load(Stream *s, uint32_t t, uint32_t a, uint32_t b, uint32_t f) { add(s, TALDREKU_LOAD, t, a, b, f); }
static void store(Stream *s, uint32_t t, uint32_t a, uint32_t f, uint32_t c) { add(s, TALDREKU_STORE, t, a, f, c); }
static void get(Stream *s, uint32_t t, uint32_t a, uint32_t f) { add(s, TALDREKU_READ, t, a, f, 0); }
static void put(Stream *s, uint32_t t, uint32_t a, uint32_t f, uint32_t x) { add(s, TALDREKU_WRITE, t, a, f, x); }
static void same(Stream *s, uint32_t t, uint32_t a, uint32_t b) { add(s, TALDREKU_SAME, t, a, b, 0); }
static void collect(Stream *s, uint32_t t) { add(s, TALDREKU_COLLECT, t, 0, 0, 0); }

void free_workload(Workload *w) {
    free(w->before.words);
    free(w->timed.words);
}

/* The import. A sheet's thread has its row, wheel, wheel before, row before and workbook in variables; the last thread, which opens no epoch
 * and so makes objects in the control space, has the register: a list of nodes, each with a wheel. */
enum { ROW, WHEEL, BEFORE, LAST_ROW, BOOK };
enum { NODE, LAST_NODE, FOUND };
enum { CONTROL = SHEET_THREADS };

static void keep(Stream *s, uint32_t thread) {
    make(s, CONTROL, NODE, 2, 0);
    store(s, CONTROL, NODE, 0, LAST_NODE);
    copy(s, CONTROL, FOUND, WHEEL, thread);
    store(s, CONTROL, NODE, 1, FOUND);
    clear(s, CONTROL, FOUND);
    copy(s, CONTROL, LAST_NODE, NODE, CONTROL);
}

static void row(Stream *s, uint32_t *state, uint32_t thread, uint32_t sheet, uint32_t number, Imported *imported) {
    make(s, thread, ROW, 2, 1);
    put(s, thread, ROW, 0, number);
    store(s, thread, ROW, 0, LAST_ROW);
    clear(s, thread, BEFORE);
    for (uint32_t position = 0; position < WHEELS; position++) {
        uint32_t pressure = 700 + draw(state) % 200;
        make(s, thread, WHEEL, 1, 2);
        put(s, thread, WHEEL, 0, position);
        put(s, thread, WHEEL, 1, pressure);
        store(s, thread, WHEEL, 0, BEFORE);
        copy(s, thread, BEFORE, WHEEL, thread);
        if (draw(state) % KEEP_ONE_IN == 0) {
            keep(s, thread);
            imported->kept++;
            imported->pressure += pressure;
        }
    }
    store(s, thread, ROW, 1, WHEEL);
    if (number == 0) store(s, thread, BOOK, sheet, ROW);
    copy(s, thread, LAST_ROW, ROW, thread);
    imported->objects += 1 + WHEELS;
}

Workload import_commands(const char *name, size_t block, uint32_t sheets, Imported *imported) {
    Workload w = {.name = name, .threads = SHEET_THREADS + 1, .variables = 8, .depth = 2, .pages = 1024, .entries = 4096, .block = block};
    uint32_t state = IMPORT_SEED;
    Stream *s = &w.timed;
    *imported = (Imported){0};
    for (uint32_t thread = 0; thread < SHEET_THREADS; thread++) {
        start(s, thread);
        make(s, thread, BOOK, SHEETS, 0);
    }
    for (uint32_t sheet = 0; sheet < sheets; sheet++) {
        for (uint32_t thread = 0; thread < SHEET_THREADS; thread++) start(s, thread);
        for (uint32_t number = 0; number < ROWS; number++)
            for (uint32_t thread = 0; thread < SHEET_THREADS; thread++) row(s, &state, thread, sheet, number, imported);
        for (uint32_t thread = 0; thread < SHEET_THREADS; thread++) {
            for (uint32_t a = ROW; a <= LAST_ROW; a++) clear(s, thread, a);
            end(s, thread);
        }
    }
    for (uint32_t thread = 0; thread < SHEET_THREADS; thread++) {
        clear(s, thread, BOOK);
        end(s, thread);
    }
    for (uint32_t i = 0; i < imported->kept; i++) {
        load(s, CONTROL, FOUND, LAST_NODE, 1);
        get(s, CONTROL, FOUND, 1);
        load(s, CONTROL, LAST_NODE, LAST_NODE, 0);
    }
    return w;
}

/* A list: variable 0 holds its newest object, variable 1 the one made before it, and variable 2 is to hold its head. */
static void list(Stream *s, uint32_t objects, Links links, uint32_t survivors) {
    for (uint32_t i = 0; i < objects; i++) {
        make(s, 0, 0, 1, 1);
        if (links == BACKWARDS) store(s, 0, 0, 0, 1);
        else if (i != 0) store(s, 0, 1, 0, 0);
        copy(s, 0, 1, 0, 0);
        if (survivors != 0 && i + 1 == (links == BACKWARDS ? survivors : objects - survivors + 1)) copy(s, 0, 2, 0, 0);
    }
    clear(s, 0, 0);
    clear(s, 0, 1);
}

Workload make_list(const char *name, uint32_t objects, Links links) {
    Workload w = {.name = name, .threads = 1, .variables = 4, .depth = 1, .pages = 1024, .entries = 4096, .block = 1000};
    start(&w.timed, 0);
    list(&w.timed, objects, links, objects);
    return w;
}

Workload end_list(const char *name, uint32_t pages, uint32_t objects, uint32_t survivors, Links links) {
    Workload w = {.name = name, .threads = 1, .variables = 4, .depth = 1, .pages = pages, .entries = 4096, .block = 1};
    start(&w.before, 0);
    list(&w.before, objects, links, survivors);
    end(&w.timed, 0);
    return w;
}

Workload collect_list(const char *name, uint32_t pages, uint32_t objects, Links links) {
    Workload w = {.name = name, .threads = 1, .variables = 4, .depth = 1, .pages = pages, .entries = 4096, .block = 1};
    list(&w.before, objects, links, objects);
    collect(&w.timed, 0);
    return w;
}

/* Variable 0 holds the newest object of the register and variable 1 the one kept before it; thread 1 has an object in an epoch. */
Workload collect_half(const char *name, uint32_t pages, uint32_t objects, int crossing) {
    Workload w = {.name = name, .threads = 2, .variables = 4, .depth = 1, .pages = pages, .entries = 4096, .block = 1};
    Stream *s = &w.before;
    start(s, 1);
    make(s, 1, 0, 0, 1);
    copy(s, 0, 2, 0, 1);
    for (uint32_t i = 0; i < objects; i++) {
        make(s, 0, 0, 2, 1);
        if (crossing) store(s, 0, 0, 1, 2);
        if (i % 2 != 0) continue;
        store(s, 0, 0, 0, 1);
        copy(s, 0, 1, 0, 0);
    }
    clear(s, 0, 0);
    collect(&w.timed, 0);
    return w;
}

/* Fifteen threads with an epoch each, and one without, which makes objects of the control space. Few: the control space holds one object in a
 * hundred. Many: nine in ten are a list, whose head it holds. */
Workload end_fifteen(const char *name, int many) {
    enum { EPOCHS = 15, OBJECTS = 480 };
    Workload w = {.name = name, .threads = EPOCHS + 1, .variables = 4, .depth = 1, .pages = 1024, .entries = 4096, .block = 1000};
    uint32_t state = 2463534242u;
    Stream *s = &w.before;
    for (uint32_t t = 0; t < EPOCHS; t++) {
        start(s, t);
        for (uint32_t i = 0; i < OBJECTS; i++) {
            make(s, t, 0, 1, 1);
            if (many && draw(&state) % 10 != 0) {
                store(s, t, 0, 0, 1);
                copy(s, t, 1, 0, t);
            }
            if (many ? i + 1 == OBJECTS : draw(&state) % 100 == 0) {
                make(s, EPOCHS, 0, 2, 0);
                store(s, EPOCHS, 0, 0, 1);
                copy(s, EPOCHS, 2, many ? 1 : 0, t);
                store(s, EPOCHS, 0, 1, 2);
                copy(s, EPOCHS, 1, 0, EPOCHS);
            }
        }
        clear(s, t, 0);
        clear(s, t, 1);
        end(&w.timed, t);
    }
    clear(s, EPOCHS, 2);
    return w;
}

Workload end_empty(const char *name, uint32_t pages) {
    Workload w = {.name = name, .threads = 4, .variables = 8, .depth = 2, .pages = pages, .entries = 4096, .block = 1000};
    for (uint32_t i = 0; i < 500; i++) {
        start(&w.timed, 0);
        end(&w.timed, 0);
    }
    return w;
}

Workload end_pages(const char *name, uint32_t pages, int filled) {
    Workload w = {.name = name, .threads = 16, .variables = 4, .depth = 1, .pages = pages, .entries = 4096, .block = 16};
    if (filled)
        for (uint32_t i = 0; i < 16 * (pages - 18); i++) make(&w.before, 0, 0, 0, 1);
    for (uint32_t t = 0; t < 16; t++) {
        start(&w.before, t);
        for (uint32_t i = 0; i < 16; i++) make(&w.before, t, 0, 1, 1);
        end(&w.timed, t);
    }
    return w;
}

/* A thread has an object at level 1, and at level 2 objects with as many slots to it as are asked for; the pages are the same for any number. */
static void crossing_slots(Stream *s, uint32_t thread, uint32_t slots) {
    enum { MOST = 4000, FIELDS = 14 };
    start(s, thread);
    make(s, thread, 0, 0, 1);
    start(s, thread);
    for (uint32_t i = 0; i < MOST; i++) {
        if (i % FIELDS == 0) make(s, thread, 1, FIELDS, 0);
        if (i < slots) store(s, thread, 1, i % FIELDS, 0);
    }
}

/* Six threads have a sheet of sixteen rows at each of eight levels. The register is seven objects on one page of the control space: seven sheets
 * have two slots each in one of them, so that the sheet that ends first has the last two. Or the first row of a sheet is in a variable of the
 * next thread. */
Workload end_among(const char *name, uint32_t entries, Holders holders) {
    enum { IMPORTS = 6, LEVELS = SHEETS_ENDED / IMPORTS, MADE = 16, HELD = 2, SLOTS = 14 };
    enum { OTHERS = IMPORTS, OFFICE, THREADS, RECORD = 0, SHEET_ROW = LEVELS, VARIABLES };
    Workload w = {.name = name, .threads = THREADS, .variables = VARIABLES, .depth = LEVELS, .pages = 80, .entries = 4096, .block = SHEETS_ENDED};
    Stream *s = &w.before;
    if (holders == BY_LAST_ENTRIES) make(s, OFFICE, RECORD, SLOTS, 0);
    crossing_slots(s, OTHERS, entries);
    if (holders == BY_FIRST_ENTRIES) make(s, OFFICE, RECORD, SLOTS, 0);
    for (uint32_t sheet = 0, slot = 0; sheet < SHEETS_ENDED; sheet++) {
        uint32_t thread = sheet / LEVELS;
        start(s, thread);
        for (uint32_t i = 0; i < MADE; i++) {
            make(s, thread, SHEET_ROW, 1, 1);
            if (holders == BY_VARIABLES) {
                if (i == 0) copy(s, (thread + 1) % IMPORTS, sheet % LEVELS, SHEET_ROW, thread);
            } else if (i < HELD) {
                if (slot == SLOTS) make(s, OFFICE, RECORD, SLOTS, 0), slot = 0;
                copy(s, OFFICE, SHEET_ROW, SHEET_ROW, thread);
                store(s, OFFICE, RECORD, slot++, SHEET_ROW);
            }
        }
        clear(s, thread, SHEET_ROW);
    }
    clear(s, OFFICE, SHEET_ROW);
    for (uint32_t sheet = SHEETS_ENDED; sheet-- != 0;) end(&w.timed, sheet / LEVELS);
    return w;
}

/* Threads 1 and 2 have an object each in an epoch of their own. Thread 0 fills slots of its epoch with them, and stores into the last object:
 * those two or null if it crosses, else an object of the same epoch or null. */
Workload stores(const char *name, int crossing, uint32_t entries) {
    Workload w = {.name = name, .threads = 3, .variables = 8, .depth = 1, .pages = 1024, .entries = 4096, .block = 1000};
    uint32_t state = 88172645u;
    Stream *s = &w.before;
    for (uint32_t t = 0; t < 3; t++) {
        start(s, t);
        make(s, t, 0, 14, 0);
        copy(s, 0, t, 0, t);
    }
    for (uint32_t i = 0; i < entries; i++) {
        if (i % 14 == 0) make(s, 0, 0, 14, 0);
        store(s, 0, 0, i % 14, 1);
    }
    make(s, 0, 0, 14, 0);
    copy(s, 0, 3, 0, 0);
    for (uint32_t i = 0; i < 10000; i++) {
        uint32_t drawn = draw(&state) % 3, field = draw(&state) % 14;
        store(&w.timed, 0, 0, field, drawn == 0 ? 7 : crossing ? drawn : 3);
    }
    return w;
}

Workload new_objects(const char *name, uint32_t pages) {
    Workload w = {.name = name, .threads = 2, .variables = 4, .depth = 1, .pages = pages, .entries = 4096, .block = 1000};
    uint32_t state = 521288629u;
    start(&w.timed, 0);
    for (uint32_t i = 0; i < 16 * pages; i++) {
        uint32_t refs = draw(&state) % 8;
        make(&w.timed, 0, draw(&state) % 4, refs, draw(&state) % 7);
    }
    return w;
}

/* So many objects of four references and two numbers, each linked to what the eight variables hold. */
static void graph(Stream *s, uint32_t *state, uint32_t objects) {
    for (uint32_t i = 0; i < objects; i++) {
        uint32_t a = i < 8 ? i : draw(state) % 8;
        make(s, 0, a, 4, 2);
        put(s, 0, a, 0, draw(state));
        for (uint32_t f = 0; f < 4; f++) store(s, 0, a, f, i < 8 ? a : draw(state) % 8);
    }
}

Workload loads(const char *name, uint32_t pages, uint32_t objects, size_t block) {
    Workload w = {.name = name, .threads = 1, .variables = 8, .depth = 1, .pages = pages, .entries = 4096, .block = block};
    uint32_t state = 123456789u;
    start(&w.before, 0);
    graph(&w.before, &state, objects);
    for (uint32_t i = 0; i < 10000; i++) {
        uint32_t a = draw(&state) % 8, b = draw(&state) % 8;
        switch (draw(&state) % 4) {
        case 0: get(&w.timed, 0, a, draw(&state) % 2); break;
        case 1: same(&w.timed, 0, a, b); break;
        default: load(&w.timed, 0, a, b, draw(&state) % 4);
        }
    }
    return w;
}

Workload check(const char *name, uint32_t objects, uint32_t entries) {
    Workload w = {.name = name, .threads = 2, .variables = 8, .depth = 1, .pages = 1024, .entries = 4096, .block = 1};
    uint32_t state = 362436069u;
    Stream *s = &w.before;
    start(s, 0);
    graph(s, &state, objects);
    start(s, 1);
    make(s, 1, 0, 0, 0);
    copy(s, 0, 1, 0, 1);
    for (uint32_t i = 0; i < entries; i++) {
        if (i % 14 == 0) make(s, 0, 0, 14, 0);
        store(s, 0, 0, i % 14, 1);
    }
    return w;
}

Workload prepare(const char *name, Timed what) {
    Workload w = {.name = name, .what = what, .threads = 2, .variables = 8, .depth = 1, .pages = 1024, .entries = 4096, .block = 1};
    uint32_t state = 362436069u;
    graph(&w.before, &state, 16000);
    return w;
}
