/* marking.c: packets of grey objects, and the threads that look at them. */
#include "marking.h"

#include <pthread.h>
#include <stdlib.h>

enum { SHARED_FROM = 64 }; /* objects of a packet of which one half may go to a thread that waits */

static struct {
    const compressor_space *space;
    uint64_t *marks, *live; /* live: null if nobody asks for it */
    uint32_t markers;
    pthread_t threads[MOST_MARKERS];
    work works[MOST_MARKERS];
    void (*is_done)(uint64_t);
    /* under the lock */
    packet *full, *empty; /* full: read without it too */
    uint32_t busy;        /* threads that look at objects of others, or clear bits */
    uint64_t used;        /* blocks of the bitmaps, until a marker clears them */
    uint32_t idle;        /* threads that wait; read without it too */
    uint64_t open;        /* the number of the marking whose end was not told; 0 if there is none */
    int gave_up;
    int ending;
} marking;
static pthread_mutex_t lock = PTHREAD_MUTEX_INITIALIZER;
static pthread_cond_t changed = PTHREAD_COND_INITIALIZER;

/* Packets. The lock is held by those who call these. */

/* An empty one; null if there is no memory. */
static packet *packet_take(void) {
    packet *p = marking.empty;
    if (p != NULL) {
        marking.empty = p->next;
        return p;
    }
    p = (packet *)malloc(sizeof *p);
    return p != NULL ? p : (packet *)malloc(sizeof *p);
}

static void packet_give(packet *p) {
    p->next = marking.empty;
    marking.empty = p;
}

/* This one waits now. */
static void packet_wait(packet *p, uint64_t count) {
    p->count = count;
    p->next = marking.full;
    __atomic_store_n(&marking.full, p, __ATOMIC_RELAXED);
    if (marking.idle != 0) pthread_cond_signal(&changed);
}

/* The thread's own packet is this one, and has so many objects. */
static void own_is(work *w, packet *p, uint64_t count) {
    w->own = p;
    w->barrier.next = p->objects + count;
    w->barrier.end = p->objects + PACKET_OBJECTS;
}

/* The thread, whose packet is empty, gets one that waits: 0 if there is none. */
static int own_taken(work *w) {
    packet *const p = marking.full;
    if (p == NULL) return 0;
    __atomic_store_n(&marking.full, p->next, __ATOMIC_RELAXED);
    packet_give(w->own);
    own_is(w, p, p->count);
    return 1;
}

/* Waits for a change; a thread that has much then hands some on. */
static void wait_for_change(void) {
    __atomic_store_n(&marking.idle, marking.idle + 1, __ATOMIC_RELAXED);
    pthread_cond_wait(&changed, &lock);
    __atomic_store_n(&marking.idle, marking.idle - 1, __ATOMIC_RELAXED);
}

/* Without the lock. */

static uint64_t own_count(const work *w) { return (uint64_t)(w->barrier.next - w->own->objects); }

void work_hand_on(work *w) {
    const uint64_t count = own_count(w);
    packet *p;
    if (count == 0) return;
    w->handed += count;
    pthread_mutex_lock(&lock);
    p = packet_take();
    if (p != NULL) packet_wait(w->own, count);
    else marking.gave_up = 1;
    own_is(w, p != NULL ? p : w->own, 0);
    pthread_mutex_unlock(&lock);
}

void work_drop(work *w) { own_is(w, w->own, 0); }

static void own_full(compressor_barrier *barrier) { work_hand_on((work *)barrier); }

/* The older half goes to others, if there is memory. */
static void share_own(work *w) {
    const uint64_t count = own_count(w), half = count / 2;
    packet *p;
    pthread_mutex_lock(&lock);
    p = packet_take();
    if (p != NULL) {
        memcpy(p->objects, w->own->objects, half * sizeof *p->objects);
        memmove(w->own->objects, w->own->objects + half, (count - half) * sizeof *p->objects);
        own_is(w, w->own, count - half);
        packet_wait(p, half);
    }
    pthread_mutex_unlock(&lock);
}

static int is_shared(const work *w) {
    return __atomic_load_n(&marking.idle, __ATOMIC_RELAXED) != 0 &&
           __atomic_load_n(&marking.full, __ATOMIC_RELAXED) == NULL && own_count(w) >= SHARED_FROM;
}

/* Answers how many words it has. */
static uint64_t look_at(work *w, uint64_t object) {
    const compressor_shape shape = compressor_shape_at(marking.space, object);
    const uint64_t address = object - marking.space->base + COMPRESSOR_FROM_SPACE;
    const uint64_t words = compressor_shape_words(shape);
    if (marking.live != NULL) compressor_mark_live(marking.live, address, words);
    for (uint64_t k = 0; k < shape.refs; k++)
        compressor_keep_in(marking.space, &w->barrier, compressor_load_acquire(marking.space, object, k));
    return words;
}

static void look_at_own(work *w) {
    while (w->barrier.next != w->own->objects) {
        if (is_shared(w)) share_own(w);
        look_at(w, *--w->barrier.next);
    }
}

/* Says that nothing waits any more, if so, and if it was not said. The lock is held before and after. */
static void tell_end(void) {
    const uint64_t number = marking.open;
    if (number == 0 || marking.full != NULL || marking.busy != 0) return;
    marking.open = 0;
    pthread_mutex_unlock(&lock);
    marking.is_done(number);
    pthread_mutex_lock(&lock);
}

void work_step(work *w, uint64_t words) {
    uint64_t looked = 0;
    pthread_mutex_lock(&lock);
    marking.busy++;
    do {
        pthread_mutex_unlock(&lock);
        while (own_count(w) != 0 && looked < words) looked += look_at(w, *--w->barrier.next);
        work_hand_on(w);
        pthread_mutex_lock(&lock);
    } while (looked < words && own_taken(w));
    if (--marking.busy == 0) pthread_cond_broadcast(&changed);
    tell_end();
    pthread_mutex_unlock(&lock);
}

/* Looks at packets until none waits. The lock is held before and after. */
static void look_at_all(work *w) {
    marking.busy++;
    do {
        pthread_mutex_unlock(&lock);
        look_at_own(w);
        pthread_mutex_lock(&lock);
    } while (own_taken(w));
    if (--marking.busy == 0) pthread_cond_broadcast(&changed);
}

/* The lock is held before and after. */
static void clear_bits(void) {
    const uint64_t blocks = marking.used;
    marking.used = 0;
    marking.busy++;
    pthread_mutex_unlock(&lock);
    memset(marking.marks, 0, blocks * sizeof *marking.marks);
    if (marking.live != NULL) memset(marking.live, 0, blocks * sizeof *marking.live);
    pthread_mutex_lock(&lock);
    if (--marking.busy == 0) pthread_cond_broadcast(&changed);
}

static int is_work(void) {
    return marking.ending || marking.used != 0 || marking.full != NULL || (marking.open != 0 && marking.busy == 0);
}

static void *mark(void *it) {
    work *const w = (work *)it;
    pthread_mutex_lock(&lock);
    for (;;) {
        while (!is_work()) wait_for_change();
        if (marking.ending) break;
        if (marking.used != 0) clear_bits();
        else look_at_all(w);
        tell_end();
    }
    pthread_mutex_unlock(&lock);
    return NULL;
}

void marking_begin(work *w, const uint64_t *roots, size_t count, uint64_t number) {
    pthread_mutex_lock(&lock);
    if (marking.used != 0) clear_bits(); /* no marker came to it: one may wait for a lock of the caller's, in is_done */
    while (marking.busy != 0) pthread_cond_wait(&changed, &lock);
    pthread_mutex_unlock(&lock);
    work_marks(w, 1);
    for (size_t k = 0; k < count; k++) compressor_keep_in(marking.space, &w->barrier, roots[k]);
    work_hand_on(w);
    marking_again(number);
}

void marking_again(uint64_t number) {
    pthread_mutex_lock(&lock);
    marking.open = number;
    pthread_cond_broadcast(&changed);
    pthread_mutex_unlock(&lock);
}

int marking_finish(work *w) {
    int is_good;
    pthread_mutex_lock(&lock);
    marking.open = 0;
    do {
        look_at_all(w);
        while (marking.full == NULL && marking.busy != 0) wait_for_change();
    } while (marking.full != NULL);
    is_good = !marking.gave_up;
    marking.gave_up = 0;
    pthread_mutex_unlock(&lock);
    return is_good;
}

void marking_clear(uint64_t words) {
    pthread_mutex_lock(&lock);
    marking.used = (words + 63) / 64;
    pthread_cond_broadcast(&changed);
    pthread_mutex_unlock(&lock);
}

uint64_t *marking_marks(void) { return marking.marks; }
uint64_t *marking_live(void) { return marking.live; }

void work_marks(work *w, int is_marking) {
    w->barrier.marks = is_marking ? marking.marks : NULL;
    w->live = is_marking ? marking.live : NULL;
}

int work_begin(work *w) {
    packet *p;
    pthread_mutex_lock(&lock);
    p = packet_take();
    if (p != NULL) own_is(w, p, 0);
    pthread_mutex_unlock(&lock);
    work_marks(w, 0);
    w->barrier.full = own_full;
    return p != NULL;
}

void work_end(work *w) {
    if (w->own == NULL) return;
    pthread_mutex_lock(&lock);
    packet_give(w->own);
    w->own = NULL;
    pthread_mutex_unlock(&lock);
}

static uint64_t *no_bits(size_t words) {
    const size_t blocks = (words + 63) / 64;
    uint64_t *const bits = (uint64_t *)calloc(blocks, sizeof *bits);
    return bits != NULL ? bits : (uint64_t *)calloc(blocks, sizeof *bits);
}

const char *marking_start(const compressor_space *space, size_t words, int has_live, uint32_t markers,
                          void (*is_done)(uint64_t)) {
    marking.space = space;
    marking.is_done = is_done;
    marking.marks = no_bits(words);
    if (has_live) marking.live = no_bits(words);
    if (marking.marks == NULL || (has_live && marking.live == NULL)) return "OutOfMemory";
    for (; marking.markers < markers; marking.markers++) {
        work *const w = &marking.works[marking.markers];
        pthread_t *const thread = &marking.threads[marking.markers];
        if (!work_begin(w)) return "OutOfMemory";
        work_marks(w, 1);
        if (pthread_create(thread, NULL, mark, w) != 0 && pthread_create(thread, NULL, mark, w) != 0) {
            work_end(w);
            return "NoThread";
        }
    }
    return NULL;
}

void marking_end(void) {
    pthread_mutex_lock(&lock);
    marking.ending = 1;
    pthread_cond_broadcast(&changed);
    pthread_mutex_unlock(&lock);
    while (marking.markers > 0) {
        pthread_join(marking.threads[--marking.markers], NULL);
        work_end(&marking.works[marking.markers]);
    }
    while (marking.empty != NULL) {
        packet *const p = marking.empty;
        marking.empty = p->next;
        free(p);
    }
    free(marking.marks);
    free(marking.live);
}
