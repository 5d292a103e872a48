/* programs.h: what the threads do. Each has a table of lists; it makes lists anew, writes to them, changes two of them
   with one another, and looks at them, in a random order, so that it touches all pages. All exchange lists in a shared
   table too. Beside the heap each has a plain model of what its lists hold, in memory of its own, and compares both.

   The text of the programs is programs.c, compiled twice: with loads and stores that look whether a page is home, and
   with plain ones, for pages that trap. */
#ifndef PROGRAMS_H
#define PROGRAMS_H

#include "heap.h"

typedef struct programs {
    /* Makes the shared table, before threads run. end: after they have ended, so many of them; the sum of its numbers
       and of `rest`, which the threads had, has to be what it was. */
    void (*begin)(mutator *m);
    void (*end)(uint32_t threads, uint64_t rest);
    /* Runs the program of a thread. Answers a number that depends on nothing but the thread's number, its words and the
       rounds; *rest: what it has of the shared numbers. What is not as in the model ends the process, by heap_fail. */
    uint64_t (*run)(mutator *m, uint64_t words, uint64_t rounds, uint64_t *rest);
} programs;

extern const programs programs_noticed, programs_plain;

#endif
