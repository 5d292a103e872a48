/* heap.h: the heap as the benchmarks see it. BACK_END is the file that has it: -DBACK_END='"rest.h"'.

   An object has some references, then some data words, all null and zero at first. The program knows how many, as a
   compiler does. Each thread has a mutator, with a stack of roots. What makes or writes an object may collect, and then
   all objects may move: its operands lie on the stack of roots, and a ref in a variable of C holds until then. */
#ifndef HEAP_H
#define HEAP_H

#include "compressor_rest.h"
#include "measure.h"

#include <pthread.h>

typedef uint64_t ref; /* an object, or null, which is 0 */

enum { MOST_THREADS = 8, MOST_ROOTS = 1 << 16 }; /* roots of a thread */

/* What a thread has. A back end uses what it needs of it. */
typedef struct mutator {
    ref *roots, *top;         /* its stack: the roots lie below top */
    compressor_buffer buffer; /* a heap at rest: where it allocates */
    compressor_mutator hand;  /* a flipped heap: what reads and writes there */
} mutator;

static mutator mutators[MOST_THREADS];
static int mutator_count;

static inline ref *push(mutator *m, ref r) {
    *m->top = r;
    return m->top++;
}

#define EACH_ROOT(root)                        \
    for (int k_ = 0; k_ < mutator_count; k_++) \
        for (ref *root = mutators[k_].roots; root < mutators[k_].top; root++)

/* BY A BACK END, and BY_HAND: 1 if it collects nothing, so that the program frees what is dead, else 0. */

/* Begins with an empty heap of so many words, all halves and reserves counted, for the mutators. */
static inline void heap_start(size_t budget_words);
/* The thread of the mutator has ended. */
static inline void heap_leave(mutator *m);
static inline ref heap_new(mutator *m, size_t refs, size_t data);
static inline ref heap_ref(mutator *m, ref object, size_t k);
static inline void heap_set_ref(mutator *m, const ref *object, size_t k, const ref *value);
/* Data word k of an object that has so many references. */
static inline uint64_t heap_word(mutator *m, ref object, size_t refs, size_t k);
static inline void heap_set_word(mutator *m, const ref *object, size_t refs, size_t k, uint64_t word);
static inline void heap_free(mutator *m, ref object);

/* Arrays of n references, or of n data words. */
static inline ref refs_new(mutator *m, size_t n);
static inline ref words_new(mutator *m, size_t n);
static inline ref refs_at(mutator *m, ref array, size_t n, size_t k);
static inline uint64_t words_at(mutator *m, ref array, size_t n, size_t k);
static inline void refs_put(mutator *m, const ref *array, size_t n, size_t k, const ref *value);
static inline void words_put(mutator *m, const ref *array, size_t n, size_t k, uint64_t word);

#include BACK_END

static inline void mutators_start(int count, size_t budget_words) {
    mutator_count = count;
    for (int k = 0; k < count; k++) mutators[k].roots = mutators[k].top = zeroed_words(MOST_ROOTS);
    heap_start(budget_words);
}

#endif
