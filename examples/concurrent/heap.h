/* heap.h: a heap at rest of edition four that threads share. Each has a stack of roots: what a variable of C holds is
   good until the thread's next safepoint, heap_poll, where a collection may move all objects; what a slot of the stack
   holds leads to the same object for ever. */
#ifndef HEAP_H
#define HEAP_H

#include "looking.h"
#include "marking.h"

#include <stdio.h>

enum {
    EDITION = 4,
    MOST_THREADS = 8,
    STACK_SLOTS = 4096,        /* of each thread */
    SHARED_ROOTS = 1,          /* of all threads */
    STEP_WORDS = 32768         /* the most that a thread allocates from one safepoint to the next */
};

typedef uint64_t ref;

typedef struct options {
    int is_concurrent;
    int is_by_marks;           /* the survey is by marks, and not by bits */
    int is_by_looks;           /* the library's markers look at objects, and stores note what they write to */
    int has_no_barrier;        /* stores keep nothing: a fault that the survey or the slide finds */
    int is_told;               /* statistics are printed */
    int turns;                 /* each collection gives all objects new addresses, to find values that were kept */
    uint32_t threads, markers;
    uint64_t words;            /* of the heap: no more are used when a collection begins */
    uint64_t steps, depth;     /* of the program */
} options;

/* A thread of the program. */
typedef struct mutator {
    work kept;
    compressor_barrier *barrier; /* of its stores: that of `kept`, or one that keeps nothing */
    compressor_barrier none;
    unsigned char *cards;        /* null: stores note nothing there */
    compressor_buffer buffer;
    ref *stack, *top;
    uint32_t number;
    int is_running;
    compressor_survey share;     /* from the survey to its part's end */
    uint64_t part;
    compressor_answer slid;      /* of the part */
} mutator;

extern compressor_space heap_space;
extern int heap_stopping;
extern ref heap_shared[SHARED_ROOTS]; /* read and written by threads as they agree; null at first */

/* Null, or the name of an error. end: after all threads have left. */
const char *heap_start(const options *chosen);
void heap_end(void);
mutator *heap_mutator(uint32_t number);
/* The thread ends, and has no roots any more. */
void heap_leave(mutator *m);
void heap_statistics(FILE *to);
/* Ends the process, status 1. */
void heap_fail(const char *error) __attribute__((noreturn));

void heap_stop(mutator *m);
static inline void heap_poll(mutator *m) {
    if (__builtin_expect(__atomic_load_n(&heap_stopping, __ATOMIC_RELAXED) || compressor_space_due(&heap_space), 0))
        heap_stop(m);
}

static inline ref *heap_push(mutator *m, ref value) {
    if (m->top == m->stack + STACK_SLOTS) heap_fail("StackFull");
    *m->top = value;
    return m->top++;
}

static inline ref heap_new(mutator *m, uint64_t header) {
    const uint64_t words = compressor_shape_words(compressor_shape_of(EDITION, header));
    const ref object = compressor_new(&heap_space, &m->buffer, header, words);
    if (__builtin_expect(object == 0, 0)) heap_fail("StepTooLarge");
    work_new(&heap_space, &m->kept, object, words);
    return object;
}
/* Any field; a reference field; any field of an object that was made since the last safepoint. */
static inline uint64_t heap_load(ref object, uint64_t k) { return compressor_load(&heap_space, object, k); }
static inline void heap_store(mutator *m, ref object, uint64_t k, ref value) {
    if (m->cards != NULL) compressor_store_head_card(&heap_space, m->cards, object, k, value);
    else compressor_store_barrier(&heap_space, m->barrier, object, k, value);
}
static inline void heap_set(ref object, uint64_t k, uint64_t value) { compressor_store(&heap_space, object, k, value); }
/* A weak word. */
static inline ref heap_load_weak(mutator *m, ref object, uint64_t k) {
    const ref value = heap_load(object, k);
    compressor_keep_in(&heap_space, m->barrier, value);
    return value;
}
static inline void heap_store_weak(mutator *m, ref object, uint64_t k, ref value) {
    if (m->cards != NULL) compressor_store_head_card(&heap_space, m->cards, object, k, value);
    else compressor_store_release(&heap_space, object, k, value); /* markers that look read it */
}

#endif
