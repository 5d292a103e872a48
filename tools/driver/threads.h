/* What the files of the threads share. */
#ifndef DRIVER_THREADS_H
#define DRIVER_THREADS_H

#include "driver.h"

#include <pthread.h>

enum { THREADS = 4, MOST_MADE = 120 };

/* A thread. */
typedef struct worker {
    pthread_t thread;
    uint64_t chance;
    int refuses;
    uint32_t number, member; /* which thread, and which mutator */
    cycle *c;
    compressor_mutator *mutator;
    compressor_plan plan; /* shares of its own */
    compressor_survey survey;
    compressor_job job;
    compressor_marking marking;
    compressor_pages pages;
    /* a cycle: it has each fourth of the slid objects, and those that it made, which are numbered from `first` on */
    size_t slid, first, made;
    uint64_t actions, entries, stamp, made_words, builds, found;
    /* the rest: words, and where they go */
    const uint64_t *words;
    uint64_t count, live, *to;
    uint64_t page_words, pages_count;
    const bytes *dump;
} worker;

void begin_thread(worker *w);
void run_threads(worker *workers, void *(*work)(void *));
void audit_by_threads(cycle *c, const bytes *dump);
void rest_by_threads(graph *g, uint64_t *words, uint64_t count);

#endif
