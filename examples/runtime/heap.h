/* heap.h: the heap as a runtime uses it, whichever collector it has.

   Nobody outside the heap's files holds an address. A value is named by a slot: a place on the evaluator's own stack
   of roots. A collection forwards what the slots hold, so a slot names the same value before and after any call.

   A value is null, a small value, which is a number of one of 8 kinds, or an object: reference fields, which hold
   values, then data words. A new object has at most heap_most_words() words, one of them its header, which says its
   kind; its fields are null and zero. Each read or write is one word, whole, and who reads a word sees all that its
   writer saw and wrote before. */
#ifndef HEAP_H
#define HEAP_H

#include "compressor_rest.h"

#include <setjmp.h>
#include <stdio.h>

#ifdef __cplusplus
extern "C" {
#endif

enum {
    MOST_WORDS = 64,       /* of a new object that each heap can make */
    MOST_EVALUATORS = 4,
    MOST_PAGES = 512,      /* of 64 words, which an evaluator has for new objects in a cycle */
    STACK_SLOTS = 200000   /* of each evaluator; all of them together are fewer than the roots of edition four */
};

typedef uint32_t slot;
typedef struct collector collector;

/* A thread that runs the program, with its roots, and what its collector keeps for it. */
typedef struct evaluator {
    uint64_t *stack;       /* the roots: the slots below top */
    slot top;
    uint32_t number;
    uint32_t depth;        /* of the runtime's own recursion */
    jmp_buf base;          /* where an evaluator goes on after heap_fail, in itself or in another one */
    uint64_t longest_pause, all_pauses, pauses;
    uint64_t slowest_call;    /* flipped and by first touch */
    /* at rest and by first touch */
    compressor_buffer buffer; /* of new objects */
    /* flipped */
    compressor_mutator mutator;
    uint64_t allocated;    /* words of the objects made since the flip */
    uint32_t refused;      /* calls in a row that found no memory */
    uint64_t began;        /* when the present call began, in nanoseconds; 0 if nothing is measured */
    uint64_t busy, pages_out, journals_full; /* answers of calls */
} evaluator;

struct heap_options {
    const collector *by;   /* heap_collector answers it */
    uint32_t evaluators;   /* 1 to MOST_EVALUATORS */
    uint32_t pages;        /* for new objects of each evaluator in a cycle, 1 to MOST_PAGES */
    uint64_t limit;        /* out of memory, if more words than these are live after a cycle */
    int measured;          /* calls and pauses are timed */
    int keeps_pauses;      /* for heap_tell_pauses */
};

/* The collector of this name, "rest", "touch" or "flip", or null. */
const collector *heap_collector(const char *name);

/* The header of an object without weak words, for the words of the first heap. A kind is a number up to 16,383. */
uint64_t heap_header(uint64_t refs, uint64_t data_words, uint64_t kind);
/* The from-space address of word i of the first heap. */
uint64_t heap_first_address(uint64_t i);
/* A small value, for its fields and roots. */
uint64_t heap_first_small(uint32_t kind, int64_t number);

/* Begins with a first heap. Each evaluator's stack has the roots in its lowest slots. Null, or the name of an error. */
const char *heap_start(const struct heap_options *options, const uint64_t *words, size_t word_count,
                       const uint64_t *roots, size_t root_count);
evaluator *heap_evaluator(uint32_t number);
uint32_t heap_evaluators(void);
uint64_t heap_cycles(void);
/* Ends the heap, after all threads of evaluators were joined. Null, or what failed. */
const char *heap_end(void);
/* After the end. pauses: a line for each of an evaluator, as they ended: when it began, in microseconds since the heap
   started, how many it took, and the evaluator's number. */
void heap_statistics(FILE *to);
void heap_tell_pauses(FILE *to);

/* The stack. A new slot holds null. */
slot heap_push(evaluator *e);
void heap_pop(evaluator *e, slot top);
void heap_clear(evaluator *e, slot at);
void heap_copy(evaluator *e, slot to, slot from);
int heap_is_null(const evaluator *e, slot at);
int heap_same(const evaluator *e, slot a, slot b);

/* Small values. heap_set_small answers 0, and does nothing, if the number is too large for one. */
int heap_is_small(const evaluator *e, slot at);
int64_t heap_small(const evaluator *e, slot at);
int heap_set_small(evaluator *e, slot to, uint32_t kind, int64_t number);

/* The kind of a small value or an object. */
uint32_t heap_kind(evaluator *e, slot value);

/* Objects. heap_new and the two that write may collect. */
uint64_t heap_most_words(void);
void heap_new(evaluator *e, slot to, uint32_t refs, uint32_t data_words, uint32_t kind);
void heap_ref(evaluator *e, slot to, slot object, uint32_t field);
void heap_set_ref(evaluator *e, slot object, uint32_t field, slot value);
uint64_t heap_word(evaluator *e, slot object, uint32_t field);
void heap_set_word(evaluator *e, slot object, uint32_t field, uint64_t value);

/* Ephemerons and guardians, of a heap at rest alone: with another one each of these that makes something, and
   heap_wants_weak, which does nothing else, ends the program (NoEphemerons).

   An ephemeron has one reference field, which is the runtime's, a key and a value. The key is not null. The value lives
   as long as the ephemeron and the key do; both are null after the collection in which the key died, and stay so.
   heap_ephemeron reads them, heap_set_value changes the value while the key lives. heap_new_ephemeron may collect; `to`
   is none of the others.

   A guardian is an object of GUARDIAN_FIELDS reference fields, which are the heap's. An object that it guards comes to
   its list after the first collection before which nothing else held the object, with all that it reaches. heap_next
   takes the object that came first out: 1, or 0 if there is none. If the guardian dies, its objects die as others do.
   What is no object is never lost. heap_guard may collect; it makes an object of its own, of the kind `guard`. */
enum { GUARDIAN_FIRST, GUARDIAN_LAST, GUARDIAN_FIELDS };
void heap_wants_weak(evaluator *e);
void heap_new_ephemeron(evaluator *e, slot to, slot key, slot value, uint32_t kind);
void heap_ephemeron(evaluator *e, slot ephemeron, slot key, slot value);
void heap_set_value(evaluator *e, slot ephemeron, slot value);
void heap_guard(evaluator *e, slot guardian, slot object, uint32_t guard);
int heap_next(evaluator *e, slot to, slot guardian);

/* The safepoint: called often by each evaluator, it stops here while a collection is wanted. */
void heap_poll(evaluator *e);
/* Wants a collection, and waits for it. */
void heap_collect(evaluator *e);
/* Waits until is_so(with), and takes part in collections meanwhile. is_so is called under the heap's lock. */
void heap_wait(evaluator *e, int (*is_so)(void *with), void *with);
/* Calls change(with) under the heap's lock, and wakes those who wait. */
void heap_tell(void (*change)(void *with), void *with);

/* Ends the program. The first error that is told is the program's; later ones are dropped. */
void heap_fail(evaluator *e, const char *name, const char *about) __attribute__((noreturn));
/* Ends the program, with an error or null: evaluators go to their base as soon as they wait or poll. */
void heap_stop(const char *error);

#ifdef __cplusplus
}
#endif

#endif
