/* What the tests share: checks that are counted, arrays fenced by unreadable pages, lent heaps and blocks of commands. */
#ifndef CHECK_H
#define CHECK_H

#include <stddef.h>
#include <stdint.h>

#include "../../bench/agree.h"
#include "taldreku.h"

/* Stops the program if it does not hold. */
#define CHECK(condition) check((condition), #condition, __FILE__, __LINE__)
void check(int holds, const char *what, const char *file, int line);

/* Begins a group of checks; its name and count are printed at its end. */
void begin(const char *group);
void end(void);
unsigned long all_checks(void);

/* Every number that a call or a command gave, as a bit; each passes through here. */
extern uint32_t numbers_given;
uint32_t given(uint32_t number);

uint32_t draw(void);        /* the next of a fixed row of pseudo-random words */
void noise(uint32_t *words, size_t count);

/* An array with an unreadable page at its end or its start. What is left of its own pages on the other side is watched: when it is released, it
 * must not have changed. */
typedef enum { AT_END, AT_START } Edge;
uint32_t *fenced(size_t words, Edge edge);
void read_only(const uint32_t *array);
void release_last(void);    /* the one made last */
void release(void);         /* all */

typedef struct {
    uint32_t threads, variables, depth, pages, entries;
} Sizes;

extern const Sizes LARGEST;

/* Four fenced arrays of the lengths asked for and so many words more, filled with noise. */
Lent lend(Sizes s, size_t extra, Edge edge);
Lent prepared(Sizes s, size_t extra, Edge edge);
uint32_t prepare(Sizes s, const Lent *l);
uint32_t run(const Lent *l, const uint32_t *block, size_t block_words, uint32_t *answers, size_t answers_words);
struct taldreku_reported report(const Lent *l, struct taldreku_row *rows, size_t count);

/* A copy of all words, to compare with later. */
Lent copy_of(const Lent *l);
int same_words(const Lent *l, const Lent *m);
void drop(Lent *copy);

/* A block of commands and its answers. */
typedef struct {
    uint32_t *words, *answers;
    size_t commands, room;
} Block;

void add(Block *b, uint32_t code, uint32_t thread, uint32_t a, uint32_t x, uint32_t y);
void empty(Block *b);       /* leaves no command, and keeps the room */
void discard(Block *b);
void obey(const Lent *l, Block *b);         /* runs it, and sees that no command is refused */
void obey_all(const Lent *l, Block *b);     /* and leaves no command */
void obey_next(const Lent *l, Block *b, uint32_t code, uint32_t thread, uint32_t a, uint32_t x, uint32_t y);      /* with this one more */
uint32_t answer(const Lent *l, uint32_t code, uint32_t thread, uint32_t a, uint32_t b, uint32_t c, uint32_t *value);

uint32_t owner_of(const Lent *l, uint32_t page);
uint32_t used_on(const Lent *l, uint32_t page);        /* cells in use */
uint32_t *made_word(const Lent *l);                     /* objects made and objects freed, the last two words of the tables */
uint32_t *freed_word(const Lent *l);
/* Whether the remember table has the crossing slots as the cells show them, from the first word to the last, and zeros after them. */
int entries_rise(const Lent *l);
/* Whether the chains are those that the remember table calls for: for each region the first entry that has it, for each entry the next with the
 * same one, and zeros else. */
int chains_right(const Lent *l);
uint32_t check_by_hand(const Lent *l);                  /* the check of the benchmark's heap by hand */
/* The report, as the words themselves say it: by the depths, the owners and uses of the pages, every slot of every cell in use, and the last two
 * words of the tables. */
struct taldreku_reported count_words(const Lent *l, struct taldreku_row *rows);
int no_figures(struct taldreku_reported r);             /* all words of the result but its number are 0 */
/* The report is that into enough rows, spare ones among them, and is refused into fewer. Rows that it does not write stay, and so do the words. */
void check_report(const Lent *l);

/* Bytes of stack that the work takes. */
size_t stack_of(void (*work)(void));

void test_calls(void);
void test_chains(void);
void test_commands(void);
void test_cleared(void);
void test_collect(void);
void test_counters(void);
void test_order(void);
void test_reports(void);
void test_largest(void);
void test_streams(void);

#endif
