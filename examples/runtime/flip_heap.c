/* flip_heap.c: a flipped heap. The evaluators go on while it is compacted, and read, write and allocate by calls.

   Of a cycle:
   1. An evaluator whose call finds no room (COMPRESSOR_OUT_OF_PAGES, COMPRESSOR_JOURNAL_FULL) wants a stop (heap.c).
      Each evaluator that stops hands its mutator back.
   2. The last one to arrive waits until the sweepers have swept, finishes the heap, makes the next one of what the
      roots reach, plans it, flips it, and hands out new mutators.
   3. The evaluators go on. The sweepers sweep at the same time, and hand their mutators back.

   The heap's lock guards the crew and the counts. A mutator is used by its thread alone, without the lock. */
#define _POSIX_C_SOURCE 200809L
#include "collector.h"

#include <sched.h>

enum { SWEEPERS = 2, TRIES = 4 };
enum { WAIT, FINISH, MARK, PLAN, FLIP, ROOTS, PARTS };

typedef struct sweeper {
    compressor_mutator mutator;
    uint32_t number;
    pthread_t thread;
    uint64_t swept; /* the cycle that it swept last */
} sweeper;

/* Sweepers wait for it; to wake them at each stop would lengthen the pause. */
static pthread_cond_t flipped = PTHREAD_COND_INITIALIZER;

static struct {
    compressor_crew crew;  /* between flips; while a cycle turns one of these three keeps the heap */
    compressor_end end;
    compressor_heap next;
    compressor_plan plan;
    sweeper sweepers[SWEEPERS];
    uint32_t threads;      /* of sweepers */
    uint32_t sweeping;     /* sweepers whose mutators are not handed back */
    uint64_t flips;
    uint64_t all_compacted, swept_pages;
} flip;

static part parts[PARTS] = {{"wait for the sweep", 0, 0}, {"finish", 0, 0}, {"mark", 0, 0}, {"plan", 0, 0},
                            {"flip", 0, 0}, {"roots", 0, 0}};

static int no_memory(compressor_answer a) {
    return a.status == COMPRESSOR_OUT_OF_MEMORY;
}

/* Makes a call that does not wait, up to TRIES times while there is no memory. */
#define TRY(answer, call)                            \
    do {                                             \
        int tries_ = 0;                              \
        do (answer) = (call);                        \
        while (no_memory(answer) && ++tries_ < TRIES); \
    } while (0)

/* Null if the call is done, or the name of an error. */
static const char *fault_of(const char *call, compressor_answer a) {
    if (a.status == COMPRESSOR_DONE) return NULL;
    if (no_memory(a) || a.status == COMPRESSOR_TOO_LARGE || a.status == COMPRESSOR_TOO_MANY_PAGES) return "OutOfMemory";
    heap_broken(call, a);
}

#define STEP(call)                                   \
    do {                                             \
        compressor_answer answer_;                   \
        const char *fault_;                          \
        TRY(answer_, call);                          \
        fault_ = fault_of(#call, answer_);           \
        if (fault_) return fault_;                   \
    } while (0)

/* The sweepers. */

/* Builds each second page, from the sweeper's number on. Null, or the name of an error. */
static const char *sweep(sweeper *c, uint64_t *built) {
    compressor_mutator_facts facts;
    compressor_answer a = compressor_mutator_facts_of(&c->mutator, &facts);
    uint64_t p;
    if (a.status != COMPRESSOR_DONE) heap_broken("compressor_mutator_facts_of", a);
    for (p = c->number; p < facts.compacted_pages; p += SWEEPERS) {
        for (;;) {
            TRY(a, compressor_mutator_touch(&c->mutator, p));
            if (a.status != COMPRESSOR_BUSY) break;
            sched_yield();
        }
        if (a.status != COMPRESSOR_DONE) return fault_of("compressor_mutator_touch", a);
        *built += a.value;
    }
    return NULL;
}

static void *sweep_on(void *given) {
    sweeper *c = (sweeper *)given;
    const char *fault = NULL;
    pthread_mutex_lock(&heap.lock);
    for (;;) {
        uint64_t built = 0;
        compressor_answer a;
        while (c->swept == flip.flips && !heap.ending) pthread_cond_wait(&flipped, &heap.lock);
        if (c->swept == flip.flips) break;
        pthread_mutex_unlock(&heap.lock);
        fault = sweep(c, &built);
        pthread_mutex_lock(&heap.lock);
        TRY(a, compressor_crew_give(&flip.crew, &c->mutator));
        if (!fault) fault = fault_of("compressor_crew_give", a);
        if (fault) heap_end_with(fault, "");
        c->swept++;
        flip.swept_pages += built;
        if (--flip.sweeping == 0) pthread_cond_broadcast(&heap.changed);
    }
    pthread_mutex_unlock(&heap.lock);
    return NULL;
}

static int help(void) {
    return 0;
}

static void wake(void) {
    pthread_cond_broadcast(&flipped);
}

/* The turn of a cycle. */

/* Gives each thread a mutator, and takes the forwarded roots. */
static const char *hand_out(void) {
    uint32_t k;
    for (k = 0; k < heap.options.evaluators; k++) {
        STEP(compressor_crew_take(&flip.crew, &heap.evaluators[k].mutator));
        heap.evaluators[k].allocated = 0;
    }
    for (k = 0; k < SWEEPERS; k++) STEP(compressor_crew_take(&flip.crew, &flip.sweepers[k].mutator));
    STEP(compressor_mutator_roots(&heap.evaluators[0].mutator, heap.roots, heap.root_count));
    return NULL;
}

/* From a marked heap to a flipped one. */
static const char *begin_cycle(void) {
    const uint32_t mutators = heap.options.evaluators + SWEEPERS;
    const char *fault;
    compressor_plan_facts facts;
    uint64_t t = heap_now();
    STEP(compressor_heap_plan(&flip.next, &flip.plan));
    STEP(compressor_plan_facts_of(&flip.plan, &facts));
    fault = heap_keeps(facts.live_words);
    if (fault) return fault;
    t = heap_time(&parts[PLAN], t);
    STEP(compressor_plan_flip(&flip.plan, mutators, mutators * heap.options.pages, &flip.crew));
    compressor_plan_drop(&flip.plan);
    t = heap_time(&parts[FLIP], t);
    fault = hand_out();
    if (fault) return fault;
    heap_time(&parts[ROOTS], t);
    flip.all_compacted += facts.pages;
    flip.sweeping = SWEEPERS;
    flip.flips++;
    return NULL;
}

/* Finishes the crew, all of which was handed back. It tells the words that slid and those of new objects, added. */
static const char *finish_cycle(void) {
    compressor_answer a;
    uint32_t k;
    const char *fault;
    TRY(a, compressor_crew_finish(&flip.crew, &flip.end));
    fault = fault_of("compressor_crew_finish", a);
    if (fault) return fault;
    for (k = 0; k < heap.options.evaluators; k++) a.value -= heap.evaluators[k].allocated;
    if (a.value != heap.live) heap_broken("compressor_crew_finish", a);
    return NULL;
}

static const char *arrive(evaluator *e) {
    compressor_answer a;
    TRY(a, compressor_crew_give(&flip.crew, &e->mutator));
    return fault_of("compressor_crew_give", a);
}

static const char *turn(void) {
    const char *fault;
    uint64_t t = heap_now();
    while (flip.sweeping > 0) pthread_cond_wait(&heap.changed, &heap.lock);
    if (heap.ending) return "Ending";
    t = heap_time(&parts[WAIT], t);
    fault = finish_cycle();
    if (fault) return fault;
    t = heap_time(&parts[FINISH], t);
    STEP(compressor_end_next_by_roots(&flip.end, heap.roots, heap.root_count, &flip.next));
    heap_time(&parts[MARK], t);
    return begin_cycle();
}

/* Start and end. */

static const char *start(const uint64_t *words, size_t word_count) {
    const char *fault;
    STEP(compressor_heap_by_roots(EDITION, words, word_count, heap.roots, heap.root_count, &flip.next));
    fault = begin_cycle();
    while (!fault && flip.threads < SWEEPERS) {
        sweeper *c = &flip.sweepers[flip.threads];
        c->number = flip.threads;
        if (pthread_create(&c->thread, NULL, sweep_on, c) != 0) fault = "NoThread";
        else flip.threads++;
    }
    return fault;
}

/* The last finish, which counts the words that are live. */
static const char *last_cycle(void) {
    uint32_t k;
    for (k = 0; k < heap.options.evaluators; k++) STEP(compressor_crew_give(&flip.crew, &heap.evaluators[k].mutator));
    return finish_cycle();
}

static const char *end(void) {
    const char *fault = NULL;
    uint32_t k;
    for (k = 0; k < flip.threads; k++) pthread_join(flip.sweepers[k].thread, NULL);
    if (!*heap.error) fault = last_cycle();
    for (k = 0; k < heap.options.evaluators; k++) compressor_mutator_drop(&heap.evaluators[k].mutator);
    for (k = 0; k < SWEEPERS; k++) compressor_mutator_drop(&flip.sweepers[k].mutator);
    compressor_crew_drop(&flip.crew);
    compressor_end_drop(&flip.end);
    compressor_heap_drop(&flip.next);
    compressor_plan_drop(&flip.plan);
    return fault;
}

static void tell(FILE *to) {
    uint64_t slowest = 0, busy = 0, out = 0, full = 0;
    uint32_t k;
    for (k = 0; k < heap.options.evaluators; k++) {
        const evaluator *e = &heap.evaluators[k];
        heap_raise(&slowest, e->slowest_call);
        busy += e->busy;
        out += e->pages_out;
        full += e->journals_full;
    }
    heap_tell_parts(to, parts, PARTS);
    fprintf(to, "compacted pages built by evaluators %llu, by sweepers %llu\n",
            (unsigned long long)(flip.all_compacted - flip.swept_pages), (unsigned long long)flip.swept_pages);
    fprintf(to, "calls that found no page %llu, a full journal %llu, a busy page %llu\n", (unsigned long long)out,
            (unsigned long long)full, (unsigned long long)busy);
    fprintf(to, "slowest call of an evaluator %.1f us\n", heap_micro(slowest));
}

/* The calls of a mutator. Each is made again until it is settled. It takes its addresses from the slots each time: a
   collection may have come in between. */

static uint64_t call_began(void) {
    return heap.options.measured ? heap_now() : 0;
}

static int settled(evaluator *e, compressor_answer a, const char *call) {
    if (e->began) heap_raise(&e->slowest_call, heap_now() - e->began);
    switch (a.status) {
    case COMPRESSOR_DONE:
        e->refused = 0;
        return 1;
    case COMPRESSOR_BUSY:
        e->busy++;
        sched_yield();
        return 0;
    case COMPRESSOR_OUT_OF_PAGES:
        e->pages_out++;
        heap_collect(e);
        return 0;
    case COMPRESSOR_JOURNAL_FULL:
        e->journals_full++;
        heap_collect(e);
        return 0;
    case COMPRESSOR_OUT_OF_MEMORY:
        if (++e->refused >= TRIES) heap_fail(e, "OutOfMemory", "");
        sched_yield();
        return 0;
    default:
        heap_broken(call, a);
    }
}

static void make(evaluator *e, slot to, compressor_shape shape) {
    const uint64_t header = heap_shape_header(shape);
    compressor_answer a;
    do {
        e->began = call_began();
        a = compressor_mutator_alloc(&e->mutator, header);
    } while (!settled(e, a, "compressor_mutator_alloc"));
    e->stack[to] = a.value;
    e->allocated += compressor_shape_words(shape);
}

static uint32_t kind_of(evaluator *e, slot object) {
    compressor_answer a;
    do {
        e->began = call_began();
        a = compressor_mutator_header(&e->mutator, e->stack[object]);
    } while (!settled(e, a, "compressor_mutator_header"));
    return COMPRESSOR_TAG_OF(a.value);
}

static void ref(evaluator *e, slot to, slot object, uint32_t field) {
    compressor_answer a;
    do {
        e->began = call_began();
        a = compressor_mutator_read_ref(&e->mutator, e->stack[object], field);
    } while (!settled(e, a, "compressor_mutator_read_ref"));
    e->stack[to] = a.value;
}

static void set_ref(evaluator *e, slot object, uint32_t field, slot value) {
    compressor_answer a;
    do {
        e->began = call_began();
        a = compressor_mutator_write_ref(&e->mutator, e->stack[object], field, e->stack[value]);
    } while (!settled(e, a, "compressor_mutator_write_ref"));
}

static uint64_t word(evaluator *e, slot object, uint32_t field) {
    compressor_answer a;
    do {
        e->began = call_began();
        a = compressor_mutator_read_data(&e->mutator, e->stack[object], field);
    } while (!settled(e, a, "compressor_mutator_read_data"));
    return a.value;
}

static void set_word(evaluator *e, slot object, uint32_t field, uint64_t value) {
    compressor_answer a;
    do {
        e->began = call_began();
        a = compressor_mutator_write_data(&e->mutator, e->stack[object], field, value);
    } while (!settled(e, a, "compressor_mutator_write_data"));
}

const collector collector_flipped = {"flip", MOST_WORDS, start, arrive, turn, help, wake, end, tell, make, kind_of,
                                     ref, set_ref, word, set_word, NULL, NULL};
