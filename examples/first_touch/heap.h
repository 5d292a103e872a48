/* heap.h: a heap at rest of edition four that threads share, and that slides while they go on. Each has a stack of
   roots: what a variable of C holds is good until the thread's next safepoint, heap_poll, where a collection may give
   all objects other addresses; what a slot of the stack holds leads to the same object for ever. */
#ifndef HEAP_H
#define HEAP_H

#include "../concurrent/marking.h"

#include <stdio.h>

enum {
    EDITION = 4,
    MOST_THREADS = 8,
    MOST_WORKERS = 4,
    STACK_SLOTS = 64,   /* of each thread */
    SHARED_ROOTS = 1,   /* of all threads */
    STEP_WORDS = 4096   /* the most that a thread allocates from one safepoint to the next */
};

typedef uint64_t ref;

typedef enum slide_way { ONCE, INLINE, MPROTECT, USERFAULTFD } slide_way; /* once: all slides in the pause */
typedef enum fault { NOTHING, HEADER, REFERENCE } fault; /* what a faulty runtime writes into from-space */

typedef struct options {
    slide_way way;
    fault change;
    int has_once;          /* the programs run once more, and slide at once */
    int marks_beside;      /* the threads, and not in a pause */
    int has_no_barrier;    /* stores keep nothing: a fault that a page finds */
    uint32_t threads, workers, markers;
    uint64_t live, rounds; /* words of all threads, nearly; how often each list is made anew */
    uint64_t page_words;
} options;

/* A thread of the program. */
typedef struct mutator {
    work kept;
    compressor_barrier *barrier; /* of its stores: that of `kept`, or one that keeps nothing */
    compressor_barrier none;
    compressor_buffer buffer;
    ref *top;
    ref stack[STACK_SLOTS];
    uint32_t number;
    int is_running;
    int is_asked;                /* to hand on what it has kept */
} mutator;

extern compressor_space heap_space;
extern compressor_touch heap_touch;
extern int heap_stopping;
extern ref heap_shared[SHARED_ROOTS]; /* read and written by threads as they agree; null at first */

/* Null, or the name of an error. end: after all threads have left. */
const char *heap_start(const options *chosen);
void heap_end(void);
/* The calling thread has this mutator. */
mutator *heap_enter(uint32_t number);
/* The thread ends, and has no roots any more. */
void heap_leave(mutator *m);
/* What it is in fact: userfaultfd may be mprotect, and units larger. */
slide_way heap_way(void);
void heap_statistics(const char *name, FILE *to);
/* Ends the process, status 1. */
void heap_fail(const char *error) __attribute__((noreturn));

void heap_stop(mutator *m);
static inline void heap_poll(mutator *m) {
    if (__builtin_expect(__atomic_load_n(&heap_stopping, __ATOMIC_RELAXED) || compressor_space_due(&heap_space) ||
                             __atomic_load_n(&m->is_asked, __ATOMIC_RELAXED), 0))
        heap_stop(m);
}

static inline ref *heap_push(mutator *m, ref value) {
    if (m->top == m->stack + STACK_SLOTS) heap_fail("StackFull");
    *m->top = value;
    return m->top++;
}

ref heap_new_slowly(mutator *m, uint64_t header, uint64_t words);
static inline ref heap_new(mutator *m, uint64_t header) {
    const uint64_t words = compressor_shape_words(compressor_shape_of(EDITION, header));
    ref object = m->buffer.at;
    if (__builtin_expect(m->buffer.end - object < words, 0)) object = heap_new_slowly(m, header, words);
    else {
        m->buffer.at = object + words;
        *compressor_at(&heap_space, object) = header;
    }
    work_new(&heap_space, &m->kept, object, words);
    return object;
}

/* A reference field of an object that may be older than the last safepoint. noticed: its page may be missing. */
static inline void heap_store(mutator *m, ref object, uint64_t k, ref value) {
    compressor_store_barrier(&heap_space, m->barrier, object, k, value);
}
static inline void heap_store_noticed(mutator *m, ref object, uint64_t k, ref value) {
    compressor_touch_word(&heap_touch, object + 1 + k);
    heap_store(m, object, k, value);
}

#endif
