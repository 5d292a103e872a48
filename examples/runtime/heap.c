/* heap.c: what is the same for each collector: the stacks of roots, and the stops of all evaluators.

   Of a cycle:
   1. An evaluator that finds no room wants a stop. Each evaluator arrives at its safepoint.
   2. The last one to arrive gathers the roots of all stacks, has the collector make its turn, and puts the roots back.
   3. The evaluators go on.

   One lock guards the counts and the turn. */
#define _POSIX_C_SOURCE 200809L
#include "collector.h"

#include <stdlib.h>
#include <string.h>
#include <time.h>

struct heap heap;

/* With -DSTRESSED there is a collection before each new object, and at each poll. */
#ifdef STRESSED
enum { IS_STRESSED = 1 };
#else
enum { IS_STRESSED = 0 };
#endif

const collector *heap_collector(const char *name) {
    static const collector *const all[] = {&collector_at_rest, &collector_by_touch, &collector_flipped};
    size_t k;
    for (k = 0; k < sizeof all / sizeof *all; k++)
        if (strcmp(name, all[k]->name) == 0) return all[k];
    return NULL;
}

void heap_broken(const char *call, compressor_answer a) {
    fprintf(stderr, "heap: %s answered %s, %llu\n", call, compressor_status_text(a.status),
            (unsigned long long)a.value);
    abort();
}

const char *heap_keeps(uint64_t live) {
    heap.live = live;
    return live > heap.options.limit ? "OutOfMemory" : NULL;
}

void heap_end_with(const char *name, const char *about) {
    if (!heap.ending && name) snprintf(heap.error, sizeof heap.error, *about ? "%s(%s)" : "%s", name, about);
    heap.ending = 1;
    __atomic_store_n(&heap.stopping, 1, __ATOMIC_SEQ_CST);
    pthread_cond_broadcast(&heap.changed);
    heap.options.by->wake();
}

void heap_fail(evaluator *e, const char *name, const char *about) {
    pthread_mutex_lock(&heap.lock);
    heap_end_with(name, about);
    pthread_mutex_unlock(&heap.lock);
    longjmp(e->base, 1);
}

void heap_stop(const char *error) {
    pthread_mutex_lock(&heap.lock);
    heap_end_with(error, "");
    pthread_mutex_unlock(&heap.lock);
}

/* The roots. */

static void gather(void) {
    uint32_t k;
    heap.root_count = 0;
    for (k = 0; k < heap.options.evaluators; k++) {
        const evaluator *e = &heap.evaluators[k];
        if (e->top > 0) memcpy(heap.roots + heap.root_count, e->stack, e->top * sizeof *e->stack);
        heap.root_count += e->top;
    }
}

static void put_back(void) {
    const uint64_t *from = heap.roots;
    uint32_t k;
    for (k = 0; k < heap.options.evaluators; k++) {
        evaluator *e = &heap.evaluators[k];
        if (e->top > 0) memcpy(e->stack, from, e->top * sizeof *e->stack);
        from += e->top;
    }
}

/* The safepoint. */

static const char *turn(void) {
    const char *fault;
    gather();
    fault = heap.options.by->turn();
    if (fault) return fault;
    put_back();
    heap.turns++;
    heap.cycles += !heap.is_within;
    return NULL;
}

/* The evaluator stops until there was a turn, or the program ends. The lock is held. */
static void stop_here(evaluator *e, uint64_t since) {
    uint64_t turns = heap.turns, pause;
    const char *fault;
    if (heap.ending) return;
    fault = heap.options.by->arrive(e);
    if (!fault && ++heap.stopped < heap.options.evaluators) {
        while (heap.turns == turns && !heap.ending)
            if (!heap.options.by->help()) pthread_cond_wait(&heap.changed, &heap.lock);
    } else {
        if (!fault) fault = turn();
        heap.stopped = 0;
        if (fault) heap_end_with(fault, "");
        else __atomic_store_n(&heap.stopping, 0, __ATOMIC_SEQ_CST);
        pthread_cond_broadcast(&heap.changed);
    }
    pause = heap_now() - since;
    e->pauses++;
    e->all_pauses += pause;
    heap_raise(&e->longest_pause, pause);
    if (heap.options.keeps_pauses && !heap_keep_pause(e, since, pause)) heap_end_with("OutOfMemory", "");
}

/* Leaves the lock, and wakes the collector's threads, who may find a turn: an evaluator that wanted a stop leaves it
   here. If the program ends, the evaluator does not go on. */
static void go_on(evaluator *e) {
    int ending = heap.ending;
    pthread_mutex_unlock(&heap.lock);
    heap.options.by->wake();
    if (ending) longjmp(e->base, 1);
}

void heap_want_stop(void) {
    __atomic_store_n(&heap.stopping, 1, __ATOMIC_SEQ_CST);
    pthread_cond_broadcast(&heap.changed); /* those who wait are to stop too */
}

void heap_meet(evaluator *e) {
    uint64_t since = heap_now();
    pthread_mutex_lock(&heap.lock);
    heap_want_stop();
    stop_here(e, since);
    go_on(e);
}

void heap_collect(evaluator *e) {
    const uint64_t cycles = heap.cycles; /* changed only while this evaluator has stopped */
    do heap_meet(e);
    while (heap.cycles == cycles);
}

void heap_poll(evaluator *e) {
    /* a stop does not end before this evaluator has stopped, so it is still wanted under the lock */
    if (IS_STRESSED) heap_collect(e);
    else if (__atomic_load_n(&heap.stopping, __ATOMIC_SEQ_CST)) heap_meet(e);
}

void heap_wait(evaluator *e, int (*is_so)(void *with), void *with) {
    pthread_mutex_lock(&heap.lock);
    while (!heap.ending && !is_so(with)) {
        if (heap.stopping) stop_here(e, heap_now());
        else pthread_cond_wait(&heap.changed, &heap.lock);
    }
    go_on(e);
}

void heap_tell(void (*change)(void *with), void *with) {
    pthread_mutex_lock(&heap.lock);
    change(with);
    pthread_cond_broadcast(&heap.changed);
    pthread_mutex_unlock(&heap.lock);
}

/* The stack. */

slot heap_push(evaluator *e) {
    if (e->top == STACK_SLOTS) heap_fail(e, "TooDeep", "");
    e->stack[e->top] = 0;
    return e->top++;
}

void heap_pop(evaluator *e, slot top) {
    e->top = top;
}

void heap_clear(evaluator *e, slot at) {
    e->stack[at] = 0;
}

void heap_copy(evaluator *e, slot to, slot from) {
    e->stack[to] = e->stack[from];
}

int heap_is_null(const evaluator *e, slot at) {
    return e->stack[at] == 0;
}

int heap_same(const evaluator *e, slot a, slot b) {
    return e->stack[a] == e->stack[b];
}

int heap_is_small(const evaluator *e, slot at) {
    return compressor_is_immediate(e->stack[at]);
}

int64_t heap_small(const evaluator *e, slot at) {
    return compressor_small_value(e->stack[at]);
}

int heap_set_small(evaluator *e, slot to, uint32_t kind, int64_t number) {
    if (!compressor_small_fits(number)) return 0;
    e->stack[to] = compressor_small(kind, number);
    return 1;
}

uint32_t heap_kind(evaluator *e, slot value) {
    return heap_is_small(e, value) ? compressor_small_kind(e->stack[value]) : heap.options.by->kind(e, value);
}

/* Objects. */

uint64_t heap_most_words(void) {
    return heap.options.by->most_words;
}

void heap_make(evaluator *e, slot to, compressor_shape shape) {
    if (IS_STRESSED) heap_collect(e);
    heap.options.by->make(e, to, shape);
}

void heap_new(evaluator *e, slot to, uint32_t refs, uint32_t data_words, uint32_t kind) {
    const compressor_shape shape = {refs, 0, data_words, kind};
    heap_make(e, to, shape);
}

void heap_ref(evaluator *e, slot to, slot object, uint32_t field) {
    heap.options.by->ref(e, to, object, field);
}

void heap_set_ref(evaluator *e, slot object, uint32_t field, slot value) {
    heap.options.by->set_ref(e, object, field, value);
}

uint64_t heap_word(evaluator *e, slot object, uint32_t field) {
    return heap.options.by->word(e, object, field);
}

void heap_set_word(evaluator *e, slot object, uint32_t field, uint64_t value) {
    heap.options.by->set_word(e, object, field, value);
}

/* Start and end. */

uint64_t heap_shape_header(compressor_shape shape) {
    uint64_t header = 0;
    if (!compressor_shape_header(EDITION, shape, &header)) abort();
    return header;
}

uint64_t heap_header(uint64_t refs, uint64_t data_words, uint64_t kind) {
    const compressor_shape shape = {(uint32_t)refs, 0, (uint32_t)data_words, (uint32_t)kind};
    return heap_shape_header(shape);
}

uint64_t heap_first_address(uint64_t i) {
    return COMPRESSOR_FROM_SPACE + i;
}

uint64_t heap_first_small(uint32_t kind, int64_t number) {
    return compressor_small(kind, number);
}

evaluator *heap_evaluator(uint32_t number) {
    return &heap.evaluators[number];
}

uint32_t heap_evaluators(void) {
    return heap.options.evaluators;
}

uint64_t heap_cycles(void) {
    uint64_t cycles;
    pthread_mutex_lock(&heap.lock);
    cycles = heap.cycles;
    pthread_mutex_unlock(&heap.lock);
    return cycles;
}

/* Makes the stacks and the first heap. The lock is held. */
static const char *start(const uint64_t *words, size_t word_count, const uint64_t *roots, size_t root_count) {
    const char *fault;
    uint32_t k;
    heap.roots = (uint64_t *)calloc((size_t)MOST_EVALUATORS * STACK_SLOTS, sizeof *heap.roots);
    if (!heap.roots) return "OutOfMemory";
    for (k = 0; k < heap.options.evaluators; k++) {
        evaluator *e = &heap.evaluators[k];
        e->number = k;
        e->stack = (uint64_t *)calloc(STACK_SLOTS, sizeof *e->stack);
        if (!e->stack) return "OutOfMemory";
        e->top = (slot)root_count;
        memcpy(e->stack, roots, root_count * sizeof *roots);
    }
    gather();
    fault = heap.options.by->start(words, word_count);
    if (!fault) put_back();
    return fault;
}

const char *heap_start(const struct heap_options *options, const uint64_t *words, size_t word_count,
                       const uint64_t *roots, size_t root_count) {
    const char *fault;
    heap.options = *options;
    heap.began = heap_now();
    pthread_mutex_init(&heap.lock, NULL);
    pthread_cond_init(&heap.changed, NULL);
    pthread_mutex_lock(&heap.lock);
    fault = start(words, word_count, roots, root_count);
    if (fault) heap_end_with(fault, "");
    pthread_mutex_unlock(&heap.lock);
    return fault;
}

const char *heap_end(void) {
    const char *fault;
    uint32_t k;
    heap_stop(NULL);
    fault = heap.options.by->end();
    if (fault && !*heap.error) snprintf(heap.error, sizeof heap.error, "%s", fault);
    for (k = 0; k < heap.options.evaluators; k++) free(heap.evaluators[k].stack);
    free(heap.roots);
    pthread_cond_destroy(&heap.changed);
    pthread_mutex_destroy(&heap.lock);
    return *heap.error ? heap.error : NULL;
}

/* Statistics. */

uint64_t heap_now(void) {
    struct timespec t;
    if (!heap.options.measured && !heap.options.keeps_pauses) return 0;
    clock_gettime(CLOCK_MONOTONIC, &t);
    return (uint64_t)t.tv_sec * 1000000000u + (uint64_t)t.tv_nsec;
}

uint64_t heap_time(part *p, uint64_t since) {
    uint64_t t = heap_now();
    p->all += t - since;
    heap_raise(&p->longest, t - since);
    return t;
}

void heap_tell_parts(FILE *to, const part *parts, size_t count) {
    size_t k;
    for (k = 0; k < count; k++)
        fprintf(to, "  %s: longest %.1f us, mean %.1f us\n", parts[k].name, heap_micro(parts[k].longest),
                heap.cycles ? heap_micro(parts[k].all) / (double)heap.cycles : 0.0);
}

void heap_statistics(FILE *to) {
    uint64_t longest = 0, all = 0, pauses = 0;
    uint32_t k;
    for (k = 0; k < heap.options.evaluators; k++) {
        const evaluator *e = &heap.evaluators[k];
        heap_raise(&longest, e->longest_pause);
        all += e->all_pauses;
        pauses += e->pauses;
    }
    fprintf(to, "cycles %llu\n", (unsigned long long)heap.cycles);
    fprintf(to, "live words after the last cycle %llu\n", (unsigned long long)heap.live);
    fprintf(to, "pauses of evaluators: longest %.1f us, mean %.1f us\n", heap_micro(longest),
            pauses ? heap_micro(all) / (double)pauses : 0.0);
    heap.options.by->tell(to);
}
