/* collector.h: what heap.c and a collector, as rest_heap.c, offer to one another. */
#ifndef COLLECTOR_H
#define COLLECTOR_H

#include "heap.h"

#include <pthread.h>

#ifdef __cplusplus
extern "C" {
#endif

enum { EDITION = 4 };

/* A collector. What answers a text answers null, or the name of an error. start, arrive and turn are called under the
   lock. */
struct collector {
    const char *name;
    uint64_t most_words; /* of a new object */
    /* The heap begins with these words. The roots are in heap.roots, and are put back there. */
    const char *(*start)(const uint64_t *words, size_t word_count);
    /* The evaluator has stopped. */
    const char *(*arrive)(evaluator *e);
    /* All have: collects, or does what it does in a stop within a cycle (heap.is_within). The roots are in heap.roots,
       and are put back there. It may leave the lock for a while. */
    const char *(*turn)(void);
    /* An evaluator has stopped while others have not, or while the turn is made: does a part of the turn, if one waits.
       Answers whether it did. It is called under the lock, which it leaves for a while. */
    int (*help)(void);
    /* Wakes threads of the collector's own, without the lock too. */
    void (*wake)(void);
    /* All threads of evaluators were joined. It is called after a start that failed, or was not, too. */
    const char *(*end)(void);
    void (*tell)(FILE *to);
    /* heap.h says what these do */
    void (*make)(evaluator *e, slot to, compressor_shape shape);
    uint32_t (*kind)(evaluator *e, slot object);
    void (*ref)(evaluator *e, slot to, slot object, uint32_t field);
    void (*set_ref)(evaluator *e, slot object, uint32_t field, slot value);
    uint64_t (*word)(evaluator *e, slot object, uint32_t field);
    void (*set_word)(evaluator *e, slot object, uint32_t field, uint64_t value);
    /* weak words; null if there are no ephemerons */
    void (*weak)(evaluator *e, slot to, slot object, uint32_t field);
    void (*set_weak)(evaluator *e, slot object, uint32_t field, slot value);
};

extern const collector collector_at_rest, collector_by_touch, collector_flipped;

/* What evaluators and the collector share, by one lock. */
struct heap {
    struct heap_options options;
    pthread_mutex_t lock;
    pthread_cond_t changed; /* evaluators wait for it */
    evaluator evaluators[MOST_EVALUATORS];
    uint64_t *roots;       /* of all stacks, gathered while all are stopped */
    size_t root_count;
    uint64_t live;         /* words, after the last collection */
    uint64_t began;        /* when it started, in nanoseconds */
    uint64_t cycles;
    uint64_t turns;
    int is_within;         /* a cycle goes on after this turn */
    uint32_t stopped;      /* evaluators at the safepoint */
    int stopping;          /* evaluators are to stop; read without the lock too */
    int ending;            /* the program ends */
    char error[256];
};
extern struct heap heap;

/* The header word of a shape, and a new object of it. */
uint64_t heap_shape_header(compressor_shape shape);
void heap_make(evaluator *e, slot to, compressor_shape shape);

/* Wants a stop, and waits until its turn was made. */
void heap_meet(evaluator *e);
/* Wants a stop, for another thread than an evaluator's, which does not wait. The lock is held. */
void heap_want_stop(void);

/* weak_heap.c: ephemerons and guards, for a heap at rest. Called under the lock. */
/* Are there any? */
int heap_has_weak(void);
/* Surveys the words by the roots and what they hold. */
compressor_answer heap_survey_weak(const uint64_t *words, uint64_t used, compressor_survey *survey);
/* These are the words after the slide. Guardians get what was lost. */
void heap_settle_weak(compressor_survey *survey, uint64_t *words);
void heap_drop_weak(void);
/* The words that ephemerons and guards hold, before the slide and after it. Answers how many there are; without a
   survey, how many there may be. */
size_t heap_weak_roots(compressor_survey *survey, uint64_t *before, uint64_t *after);

/* judge.c: a collection of these words, and what it left, are judged. Null, or what is wrong. `weak` is the survey by
   ephemerons and guards, or null. */
#ifdef JUDGED
const char *heap_judge_before(const uint64_t *words, uint64_t used, compressor_survey *weak);
const char *heap_judge_after(const uint64_t *words, uint64_t live);
#else
#define heap_judge_before(words, used, weak) NULL
#define heap_judge_after(words, live) NULL
#endif

/* A call of the library was refused by a fault of the caller's. */
void heap_broken(const char *call, compressor_answer a) __attribute__((noreturn));
/* So many words are live after a collection. Null, or OutOfMemory if they are more than the limit. */
const char *heap_keeps(uint64_t live);
/* The end of the program, with an error or null. The lock is held. */
void heap_end_with(const char *name, const char *about);

/* Times, in nanoseconds, 0 if nothing is measured. */
typedef struct part {
    const char *name;
    uint64_t all, longest;
} part;

uint64_t heap_now(void);
/* pauses.c: keeps a pause for heap_tell_pauses. The lock is held. 0 if there is no memory. */
int heap_keep_pause(const evaluator *e, uint64_t since, uint64_t length);
static inline void heap_raise(uint64_t *most, uint64_t value) {
    if (value > *most) *most = value;
}
/* A part of a cycle has taken the time since then. Answers the time. */
uint64_t heap_time(part *p, uint64_t since);
void heap_tell_parts(FILE *to, const part *parts, size_t count);
static inline double heap_micro(uint64_t nanoseconds) {
    return (double)nanoseconds / 1000;
}

#ifdef __cplusplus
}
#endif

#endif
