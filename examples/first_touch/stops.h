/* stops.h: what heap.c and collect.c share. All of it is read and written under the heap's lock, or while all threads
   stand still. */
#ifndef STOPS_H
#define STOPS_H

#include "heap.h"

/* Nanoseconds */
typedef struct times {
    uint64_t count, sum, longest;
} times;

/* Stops, by the clock and by the processor; those that begin a marking and those that collect; and what is done in
   them. */
enum { PAUSE, BUSY, START, END, FINISH, DRAIN, SURVEY, BEGIN, PARTS };

typedef struct inner {
    options chosen;
    mutator mutators[MOST_THREADS];
    uint64_t words;               /* no more are used when a collection begins */
    uint64_t stops;
    /* marks beside threads */
    work kept;                    /* of the stops */
    int is_marking;
    uint64_t used_at_start;       /* words, when it began */
    uint64_t meanwhile;           /* words that were taken while the last one went on */
    uint64_t share;               /* words that are looked at by a thread that takes words */
    /* statistics */
    times parts[PARTS];
    uint64_t collections, by_bits, at_once, most_live;
    uint64_t missing, late;       /* pages: not home when threads went on, and not when the next stop came */
    uint64_t late_marks, refused; /* markings: not ended when the heap was full; bits that the survey refused */
    uint64_t handed;              /* objects that threads kept, or looked not at, and handed on */
} inner;

extern inner heap;

uint64_t heap_thread_time(void); /* of the processor */
void times_add(int part, uint64_t took);

/* collect.c. open: makes both memories. close: when all threads have ended, and all that builds or marks. */
const char *collect_open(size_t room);
void collect_close(void);
/* The calling thread builds pages by this number. step: some, 0 if none is left. */
void collect_enter(uint32_t number);
uint64_t collect_step(uint64_t most);
uint64_t collect_page_words(void);
/* While all threads stand still, and nobody builds: finishes the slide; begins a marking; collects, and answers how
   many pages are missing. */
void collect_finish(void);
void collect_mark(void);
uint64_t collect(void);
/* Beside the threads, when all is marked: what shortens the next stop. */
void collect_ready(void);

#endif
