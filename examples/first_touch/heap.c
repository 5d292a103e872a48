/* heap.c: threads, their stops, workers, and statistics. A thread that wants a stop says so; each comes at its next
   safepoint, and the last one works for all. */
#ifndef _GNU_SOURCE
#define _GNU_SOURCE
#endif
#include "stops.h"

#include <pthread.h>
#include <stdlib.h>
#include <time.h>

enum { ROUNDS = 1 }; /* in which threads hand on what they kept, before the stop that ends a marking */

compressor_space heap_space;
compressor_touch heap_touch;
int heap_stopping;
ref heap_shared[SHARED_ROOTS];
inner heap;

static pthread_mutex_t lock = PTHREAD_MUTEX_INITIALIZER;
static pthread_cond_t changed = PTHREAD_COND_INITIALIZER;
/* under the lock */
static uint32_t running, arrived;
static uint64_t meetings;
static uint64_t since; /* when the stop was wanted */

static uint64_t read_clock(clockid_t clock) {
    struct timespec t;
    clock_gettime(clock, &t);
    return (uint64_t)t.tv_sec * 1000000000u + (uint64_t)t.tv_nsec;
}
static uint64_t now(void) { return read_clock(CLOCK_MONOTONIC); }
uint64_t heap_thread_time(void) { return read_clock(CLOCK_THREAD_CPUTIME_ID); }

void times_add(int part, uint64_t took) {
    times *const to = &heap.parts[part];
    to->count++;
    to->sum += took;
    if (took > to->longest) to->longest = took;
}

void heap_fail(const char *error) {
    fprintf(stderr, "first_touch: %s\n", error);
    _Exit(1);
}

/* Workers sleep until a slide begins. */

static struct {
    pthread_t threads[MOST_WORKERS];
    uint32_t count, busy;
    uint64_t slide;
    int is_ending;
} crew;

static void *work_on(void *number) {
    uint64_t slide = 0;
    collect_enter(heap.chosen.threads + (uint32_t)(uintptr_t)number);
    pthread_mutex_lock(&lock);
    for (;;) {
        while (crew.slide == slide && !crew.is_ending) pthread_cond_wait(&changed, &lock);
        if (crew.is_ending) break;
        slide = crew.slide;
        pthread_mutex_unlock(&lock);
        while (collect_step(1) != 0) {}
        pthread_mutex_lock(&lock);
        if (--crew.busy == 0) pthread_cond_broadcast(&changed);
    }
    pthread_mutex_unlock(&lock);
    return NULL;
}
/* As many as there is memory for. */
static void workers_start(uint32_t wanted) {
    crew.busy = 0;
    crew.slide = 0;
    crew.is_ending = 0;
    while (crew.count < wanted) {
        void *const number = (void *)(uintptr_t)crew.count;
        if (pthread_create(&crew.threads[crew.count], NULL, work_on, number) != 0) break;
        crew.count++;
    }
}
static void workers_end(void) {
    pthread_mutex_lock(&lock);
    crew.is_ending = 1;
    pthread_cond_broadcast(&changed);
    pthread_mutex_unlock(&lock);
    for (uint32_t k = 0; k < crew.count; k++) pthread_join(crew.threads[k], NULL);
    crew.count = 0;
}
/* The lock is held. */
static void workers_wake(void) {
    crew.busy = crew.count;
    crew.slide++;
    pthread_cond_broadcast(&changed);
}
static void workers_wait(void) {
    while (crew.busy != 0) pthread_cond_wait(&changed, &lock);
}

/* Stops. The lock is held by those who call these. */

static void want_stop(void) {
    if (heap_stopping) return;
    since = now();
    __atomic_store_n(&heap_stopping, 1, __ATOMIC_RELAXED);
}

/* Before a marking ends each thread hands on what it has kept, at its next safepoint and without a stop: so little is
   left to be looked at in the stop. */
static struct {
    uint32_t round, left; /* threads that have not handed on */
    int is_readying;      /* a marker is in collect_ready */
} asked;

static void ask_threads(void) {
    asked.round++;
    asked.left = running;
    for (uint32_t k = 0; k < heap.chosen.threads; k++)
        __atomic_store_n(&heap.mutators[k].is_asked, heap.mutators[k].is_running, __ATOMIC_RELAXED);
}
static void hand_on(mutator *m) {
    if (!m->is_asked) return;
    __atomic_store_n(&m->is_asked, 0, __ATOMIC_RELAXED);
    work_hand_on(&m->kept);
    if (--asked.left == 0) marking_again(heap.stops);
}

/* Called by whoever marks, without the lock: nothing waits any more in this marking, which may have ended. It does not
   end while it is readied: a stop waits for that. */
static void marking_is_done(uint64_t number) {
    pthread_mutex_lock(&lock);
    if (heap.is_marking && number == heap.stops && running != 0) {
        asked.is_readying = 1;
        pthread_mutex_unlock(&lock);
        collect_ready();
        pthread_mutex_lock(&lock);
        asked.is_readying = 0;
        pthread_cond_broadcast(&changed);
        if (asked.round >= ROUNDS) want_stop();
        else if (running != 0) ask_threads();
    }
    pthread_mutex_unlock(&lock);
}

/* The work of the last thread that comes. */
static void end_meeting(void) {
    const uint64_t began = heap_thread_time();
    const int is_start = heap.chosen.marks_beside && !heap.is_marking && heap_space.used < heap.words;
    workers_wait();
    while (asked.is_readying) pthread_cond_wait(&changed, &lock);
    asked.round = 0;
    for (uint32_t k = 0; k < heap.chosen.threads; k++) heap.mutators[k].is_asked = 0;
    if (is_start) collect_mark();
    else if (collect() != 0) workers_wake();
    times_add(is_start ? START : END, heap_thread_time() - began);
    times_add(BUSY, heap_thread_time() - began);
    times_add(PAUSE, now() - since);
    heap.stops++;
    __atomic_store_n(&heap_stopping, 0, __ATOMIC_RELAXED);
    arrived = 0;
    meetings++;
    pthread_cond_broadcast(&changed);
}

void heap_stop(mutator *m) {
    pthread_mutex_lock(&lock);
    if (compressor_space_due(&heap_space)) want_stop();
    if (heap_stopping) {
        const uint64_t meeting = meetings;
        if (++arrived == running) end_meeting();
        else
            while (meetings == meeting) pthread_cond_wait(&changed, &lock);
    } else hand_on(m);
    pthread_mutex_unlock(&lock);
}

void heap_leave(mutator *m) {
    pthread_mutex_lock(&lock);
    m->top = m->stack;
    m->is_running = 0;
    running--;
    hand_on(m);
    if (heap.is_marking) work_hand_on(&m->kept);
    work_marks(&m->kept, 0);
    if (running != 0 && arrived == running) end_meeting();
    pthread_mutex_unlock(&lock);
}

/* Start and end */

static const char *mutator_start(mutator *m, uint32_t number) {
    m->number = number;
    m->top = m->stack;
    m->is_running = 1;
    m->barrier = heap.chosen.marks_beside && !heap.chosen.has_no_barrier ? &m->kept.barrier : &m->none;
    return !heap.chosen.marks_beside || work_begin(&m->kept) ? NULL : "OutOfMemory";
}

const char *heap_start(const options *chosen) {
    const char *error;
    memset(&heap, 0, sizeof heap);
    memset(&heap_space, 0, sizeof heap_space);
    memset(heap_shared, 0, sizeof heap_shared);
    memset(&asked, 0, sizeof asked);
    heap.chosen = *chosen;
    heap.words = 3 * chosen->live + 32768;
    running = chosen->threads;
    arrived = 0;
    const uint64_t room = heap.words + chosen->threads * (STEP_WORDS + COMPRESSOR_CHUNK);
    error = collect_open(room);
    for (uint32_t k = 0; k < chosen->threads && error == NULL; k++) error = mutator_start(&heap.mutators[k], k);
    if (error == NULL && chosen->marks_beside && !work_begin(&heap.kept)) error = "OutOfMemory";
    if (error == NULL && chosen->marks_beside)
        error = marking_start(&heap_space, room, 1, chosen->markers, marking_is_done);
    if (error == NULL) workers_start(chosen->workers);
    return error;
}

void heap_end(void) {
    if (heap.chosen.marks_beside) {
        for (uint32_t k = 0; k < heap.chosen.threads; k++) {
            heap.handed += heap.mutators[k].kept.handed;
            work_end(&heap.mutators[k].kept);
        }
        work_end(&heap.kept);
        marking_end();
    }
    pthread_mutex_lock(&lock);
    workers_wait();
    collect_finish();
    pthread_mutex_unlock(&lock);
    workers_end();
    collect_close();
}

mutator *heap_enter(uint32_t number) {
    collect_enter(number);
    return &heap.mutators[number];
}

static void tell_count(FILE *to, const char *name, const char *what, uint64_t count) {
    fprintf(to, "%s %s %llu\n", name, what, (unsigned long long)count);
}

void heap_statistics(const char *name, FILE *to) {
    static const char *const parts[PARTS] = {"pauses", "busy", "start", "end", "finish", "drain", "survey", "begin"};
    tell_count(to, name, "collections", heap.collections);
    tell_count(to, name, "by-bits", heap.by_bits);
    tell_count(to, name, "at-once", heap.at_once);
    tell_count(to, name, "live", heap.most_live);
    tell_count(to, name, "page-words", collect_page_words());
    tell_count(to, name, "missing", heap.missing);
    tell_count(to, name, "late", heap.late);
    tell_count(to, name, "late-marks", heap.late_marks);
    tell_count(to, name, "refused", heap.refused);
    tell_count(to, name, "handed-on", heap.handed);
    for (int k = 0; k < PARTS; k++) {
        const times *const t = &heap.parts[k];
        fprintf(to, "%s %s longest %.3f mean %.3f ms\n", name, parts[k], (double)t->longest / 1e6,
                (double)t->sum / 1e6 / (t->count != 0 ? (double)t->count : 1));
    }
}
