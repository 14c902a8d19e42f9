/* Taldreku: an epoch heap in four lent arrays of 32-bit words, for x86-64 Linux.
 *
 * Terms
 *
 * object          Up to 14 fields: references, each null or an object, and numbers of 32 bits. An object has no address: a program reaches
 *                 it from a variable.
 * thread          A row of variables, each null or an object, and a stack of epochs. It is no thread of the operating system: nothing runs
 *                 on it, and a program may use all threads of a heap from wherever it likes.
 * epoch, region   A thread starts and ends epochs, one inside the other; the outermost is its level 1. The objects made in an epoch lie in
 *                 its region, which ends with it.
 * control space   The region of no epoch. What a thread makes while it has no epoch open lies here. It never ends; a collection frees what
 *                 no variable and no open region leads to.
 * page, cell      A page has 16 cells, each room for one object, and is free or one region's. A new object takes the first unused cell of the
 *                 page that its region has partly filled, else of the highest-numbered free page, so that a region of n objects uses n / 16
 *                 pages, rounded up. A cell without an object holds zero words.
 * slot            A reference field of an object.
 * crossing slot   A slot of an object in one region that points into another region, be it further in, further out or of another thread,
 *                 unless that is the control space.
 * remember entry  The heap keeps an entry for each crossing slot, by rising position of the slots; there are as many as it was prepared with.
 * chain           The entries whose slots point into one region, in their order. The fourth array has them, so that an end looks for the slots
 *                 that lead into its region among these alone: a word for each region, the control space first, then thread by thread and level
 *                 by level, with the first entry of its chain, then a word for each entry with the next one. An entry is named by 1 + its place
 *                 from 0, none by 0. No slot crosses into the control space, whose word is always 0.
 * made, freed     The heap counts the objects that were made and those that were freed since it was prepared, each modulo 4,294,967,296. A new
 *                 object that is refused was not made, and an object that moves is neither made nor freed.
 *
 * The end of an epoch frees the objects of its region, except those that a variable or a slot of another region leads to, directly or by way
 * of objects of the ending region. These move, and variables and slots go on leading to the same objects. What leads to one calls for a region:
 *
 *     a variable of the same thread                     the region around the ending one, for level 1 the control space
 *     a slot of a region of the same thread             that region
 *     a slot of the control space, or a variable or
 *     a slot of a region of another thread              the control space
 *
 * and it moves to the outermost region that is called for. The objects that move are copied region by region, from the control space in, and
 * for each by the number of the cell they lie in, to the cell that a new object there would take; then the old pages become free.
 *
 * A collection frees the objects of the control space, except those that a variable of any thread or a slot of an object in an open region
 * leads to, directly or by way of objects of the control space. A slot of an open region counts while the region is open, whether or not
 * anything leads to its object. What is kept slides together: by the numbers of their cells the objects fill the lowest-numbered of the control
 * space's own pages, and its other pages become free. Variables and slots go on leading to the same objects. It needs no page and no entry, and
 * may be asked for at any time, in the middle of epochs too.
 *
 * Calls
 *
 * The caller asks for the four lengths, lends four arrays, has them prepared, and then runs blocks of commands on them and has reports
 * of them. Every function takes any numbers and any contents of the arrays, always returns, and either does its work or gives one of the
 * refusal numbers below and changes nothing.
 *
 * An array is passed as a pointer and its length in words, a list of rows in rows. The pointer may be NULL if the length is 0. Longer arrays
 * than asked for are accepted, and their extra words and rows never change. The arrays of one call must not overlap, and nobody else may
 * write them during the call.
 *
 * The heap is what stands in the four arrays: no function keeps a pointer or anything else between calls, none allocates, and none calls
 * back. So calls on one heap are made one at a time, from any thread of the operating system, and different heaps are independent: calls on
 * them may be made at the same time. A heap may be copied, or written to a file, word for word. Every word that a call leaves follows from
 * what it was given: two heaps of the same sizes that ran the same blocks since they were prepared hold the same words within the lengths
 * asked for, so that dumps can be compared. A dump shows nothing of what an ended epoch or a collection freed: zeros are written where the
 * objects lay. What nothing leads to any more stays until its region ends, in the control space until a collection; words past the lengths are
 * not cleared. A call takes less than TALDREKU_STACK_BYTES of stack.
 *
 * How many pages and remember entries
 *
 * They stay as prepared. A page takes 1 KiB of the cells, an entry two words of the remember table and one of the chains. Prepare writes all of
 * these, a run and a report read them, used or not.
 *
 * Pages: as many as all regions use together at any time. The control space shrinks by a collection alone, and counts with all that it comes to
 * hold between two; at an end the survivors count where they lie and where they go, since they move before their old pages are free. For an
 * import that has two sheets of 1,000 objects open at a time and ends with 3,000 objects in the control space: 188 + 2 * 63 = 314.
 *
 * Entries: the slots that cross at one time, those of objects that nothing leads to any more too, until their region ends or they are collected.
 * Slots into the control space and inside one region take none. With 0 no slot may cross.
 */
#ifndef TALDREKU_H
#define TALDREKU_H

#include <stddef.h>
#include <stdint.h>

#ifdef __cplusplus
extern "C" {
#endif

#define TALDREKU_VERSION "3.0.0"
#define TALDREKU_VERSION_MAJOR 3
#define TALDREKU_VERSION_MINOR 0
#define TALDREKU_VERSION_PATCH 0

/* The largest sizes. All but the entries are at least 1. */
#define TALDREKU_MAX_THREADS 16
#define TALDREKU_MAX_VARIABLES 32      /* of each thread */
#define TALDREKU_MAX_DEPTH 8           /* epochs of one thread that are open at a time */
#define TALDREKU_MAX_PAGES 1024
#define TALDREKU_MAX_ENTRIES 4096      /* remember entries */

#define TALDREKU_MAX_FIELDS 14         /* of an object, references and numbers together */
#define TALDREKU_MAX_ROWS 129          /* of a report: 1 + threads * depth */
#define TALDREKU_COMMAND_WORDS 5
#define TALDREKU_ANSWER_WORDS 2
#define TALDREKU_STACK_BYTES 81920     /* enough for any call */

/* What a call or a command was refused for. Where there are several reasons, the smallest number is given, but that 16 comes right after 3. */
enum taldreku_number {
    TALDREKU_DONE = 0,
    /* prepare: nothing was written */
    TALDREKU_SIZES = 1,          /* a size is out of range */
    TALDREKU_SHORT = 2,          /* one of the four arrays is too short */
    /* run: heap and answers are as before; report: no row was written, and all other words of the result are 0 */
    TALDREKU_NOT_WHOLE = 3,      /* cells, remember and tables do not hold a heap. A word that is not zero in a cell without an object is
                                    enough. So are remember entries that do not stand by rising slot position, as versions before 2.1 may
                                    have left them, and counts of objects made and freed that do not differ, modulo 4,294,967,296, by the
                                    objects there are: they are two words that version 1 did not have, so that tables it left are too short,
                                    or are refused unless the words behind them happen to agree */
    TALDREKU_BLOCK = 4,          /* the block is no multiple of five words */
    TALDREKU_ANSWERS = 5,        /* the answer array has fewer than two words for each command */
    /* one command: the heap is as before it, its value is 0, and the block goes on */
    TALDREKU_CODE = 6,           /* the code is not known */
    TALDREKU_THREAD = 7,         /* there is no such thread */
    TALDREKU_OPERAND = 8,        /* a variable or thread that is not there, an unused operand that is not 0, more than 14 fields */
    TALDREKU_NULL = 9,           /* the variable whose object is used is null */
    TALDREKU_FIELD = 10,         /* the object has no such field */
    TALDREKU_DEPTH = 11,         /* start: the thread's epochs are nested to the full depth */
    TALDREKU_NO_EPOCH = 12,      /* end: the thread has no open epoch */
    TALDREKU_PAGES = 13,         /* a new object or an end needs more pages than are free */
    TALDREKU_ENTRIES = 14,       /* a store or an end would leave more crossing slots than there are remember entries */
    /* report: as for 3 */
    TALDREKU_ROWS = 15,          /* there is not a row for the control space and each open region */
    /* run and report, as for 3 and asked after it, before 4, 5 and 15 */
    TALDREKU_CHAINS = 16         /* the chains are too short, or a word of them is not the one that the remember entries call for */
};

/* A command is five words: code, thread, a, b, c. Operands that a code does not use are 0. Threads, variables and fields count from 0. */
enum taldreku_code {
    TALDREKU_START = 1,          /* start an epoch of the thread */
    TALDREKU_END = 2,            /* end the thread's innermost epoch */
    TALDREKU_NEW = 3,            /* new object in variable a, with b references (null) and c numbers (0); b + c at most 14 */
    TALDREKU_COPY = 4,           /* variable a becomes variable b of thread c, which may be another */
    TALDREKU_CLEAR = 5,          /* variable a becomes null */
    TALDREKU_LOAD = 6,           /* variable a becomes reference c of the object in b; value 1 for an object, 0 for null */
    TALDREKU_STORE = 7,          /* reference b of the object in a becomes variable c */
    TALDREKU_READ = 8,           /* value is number b of the object in a */
    TALDREKU_WRITE = 9,          /* number b of the object in a becomes c */
    TALDREKU_SAME = 10,          /* value 1 if variables a and b hold the same object or are both null, else 0 */
    TALDREKU_COLLECT = 11        /* collect the control space; any thread will do. Versions before 2.1.1 do not know it */
};

/* How many words each array needs; 0 if a size is out of range. The tables need two words more than in version 1; versions before 3 had no
 * chains. */
uint32_t taldreku_cells_length(uint32_t pages);
uint32_t taldreku_remember_length(uint32_t entries);
uint32_t taldreku_tables_length(uint32_t threads, uint32_t variables, uint32_t depth, uint32_t pages);
uint32_t taldreku_chains_length(uint32_t threads, uint32_t depth, uint32_t entries);

/* Writes a heap without objects of these sizes, over whatever the arrays hold: every word of the four lengths, so that none of what stood there
 * is left. Gives 0, 1 or 2. */
uint32_t taldreku_prepare(uint32_t threads, uint32_t variables, uint32_t depth, uint32_t pages, uint32_t entries,
                          uint32_t *cells, size_t cells_words, uint32_t *remember, size_t remember_words,
                          uint32_t *tables, size_t tables_words, uint32_t *chains, size_t chains_words);

/* Obeys the commands of a block in order and writes two words for each, number and value, into answers. Gives 0, 3, 16, 4 or 5. An empty
 * block is accepted.
 *
 * The block goes on after a refused command: let one that may be refused for room, with 13 or 14, be the last of its block, and it can be
 * tried again alone. Room comes back when an epoch ends or the control space is collected, and the more so if variables that are no longer
 * needed are cleared first; an entry comes back also when null is stored in its slot. The whole heap is checked once for each call, so a few
 * large blocks cost less than many small ones. */
uint32_t taldreku_run(uint32_t *cells, size_t cells_words, uint32_t *remember, size_t remember_words,
                      uint32_t *tables, size_t tables_words, uint32_t *chains, size_t chains_words,
                      const uint32_t *block, size_t block_words, uint32_t *answers, size_t answers_words);

/* The row of a region: its thread and level, both 0 for the control space, its objects and its pages. */
struct taldreku_row {
    uint32_t thread, level, objects, pages;
};

/* The result of a report: 0, 3, 16 or 15; how many rows were written; pages that are free, and slots that are crossing; objects made and objects
 * freed since the heap was prepared, each modulo 4,294,967,296; and the total of the objects there are, which is the sum of the rows' objects
 * and made less freed, modulo the same number. Version 1 did not have the last three. */
struct taldreku_reported {
    uint32_t number, rows, free_pages, crossing_slots, made, freed, total;
};

/* Writes a row for the control space and one for each open region: the control space, then thread by thread from the outermost region in.
 * Changes nothing but these rows. */
struct taldreku_reported taldreku_report(const uint32_t *cells, size_t cells_words, const uint32_t *remember, size_t remember_words,
                                         const uint32_t *tables, size_t tables_words, const uint32_t *chains, size_t chains_words,
                                         struct taldreku_row *rows, size_t rows_count);

#ifdef __cplusplus
}
#endif

#endif
