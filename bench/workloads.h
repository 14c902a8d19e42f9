/* The streams of commands that both heaps obey, each from a fixed seed. */
#ifndef WORKLOADS_H
#define WORKLOADS_H

#include <stddef.h>
#include <stdint.h>

#include "import.h"

typedef struct {
    uint32_t *words;
    size_t commands, room;
} Stream;

/* What is timed: the blocks of the timed stream, or prepare, beside the one by hand or beside memset alone. */
typedef enum { BLOCKS, PREPARE, PREPARE_MEMSET } Timed;

typedef struct {
    const char *name;
    Timed what;
    uint32_t threads, variables, depth, pages, entries;
    Stream before, timed;
    size_t block;           /* commands in a block of the timed stream */
} Workload;

typedef enum { BACKWARDS, FORWARDS } Links;

/* What holds the rows that survive in end_among: a register whose entries are the last of the table, or the first, or variables and nothing
 * else. */
typedef enum { BY_LAST_ENTRIES, BY_FIRST_ENTRIES, BY_VARIABLES } Holders;
enum { SHEETS_ENDED = 48 };

void free_workload(Workload *w);

/* The import of so many sheets a thread, and what it ends with. */
Workload import_commands(const char *name, size_t block, uint32_t sheets, Imported *imported);

/* Makes a list of objects in one epoch; timed. */
Workload make_list(const char *name, uint32_t objects, Links links);
/* Ends an epoch with a list of which so many survive, in a heap of so many pages; only the end is timed. */
Workload end_list(const char *name, uint32_t pages, uint32_t objects, uint32_t survivors, Links links);
/* Ends fifteen epochs of 480 objects, of which few or many survive; only the ends are timed. */
Workload end_fifteen(const char *name, int many);
/* Starts and ends 500 epochs with nothing in them. */
Workload end_empty(const char *name, uint32_t pages);
/* Collects a list in the control space that is kept whole, in a heap of so many pages; only the collection is timed, here and below. */
Workload collect_list(const char *name, uint32_t pages, uint32_t objects, Links links);
/* Collects a register of which every second object was dropped; each object may have a slot that crosses into an epoch. */
Workload collect_half(const char *name, uint32_t pages, uint32_t objects, int crossing);
/* Ends sixteen epochs of one page, of each of which one object survives, in a heap of so many pages, the others free or nearly all in use. */
Workload end_pages(const char *name, uint32_t pages, int filled);

/* Ends SHEETS_ENDED sheets of one page, of each of which one or two rows survive, while so many slots of a region that stays open cross. */
Workload end_among(const char *name, uint32_t entries, Holders holders);

/* Stores that cross or do not, with so many entries already in the remember table. */
Workload stores(const char *name, int crossing, uint32_t entries);
Workload new_objects(const char *name, uint32_t pages);
/* Loads, reads and comparisons along random links between so many objects. */
Workload loads(const char *name, uint32_t pages, uint32_t objects, size_t block);
/* An empty block, so nothing but the check, on so many objects and so many entries. */
Workload check(const char *name, uint32_t objects, uint32_t entries);
/* Prepares a heap of 16,000 objects anew. */
Workload prepare(const char *name, Timed what);

#endif
