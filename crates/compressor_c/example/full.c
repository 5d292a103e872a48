/* Heaps at rest that are filled, by the limit that compressor_space_limit sets. Objects are made, and all of them or
   every second one are kept, until it says that no words are left. Before that compressor_new finds room for each: in
   rooms from 64 words on, with one buffer, with four by turns, and with those of four threads. Also what limits a space
   has, and what it does with fewer words than it uses. Prints how many heaps were filled, or what is wrong. */
#include "compressor_rest.h"

#include <pthread.h>
#include <stdio.h>
#include <stdlib.h>

enum { EDITION = 4, THREADS = 4 };

static void is(int so, int line) {
    if (so) return;
    printf("not so: line %d\n", line);
    exit(1);
}

#define IS(what) is(what, __LINE__)

/* What is filled, and how. */
typedef struct way {
    uint64_t room;
    uint64_t step;      /* words that a thread makes from one safepoint to the next */
    uint64_t factor;    /* of the limit */
    uint64_t kept_each; /* 1: all objects; 2: every second one */
    uint64_t buffers;
    int by_threads;     /* a buffer each; else one thread takes turns */
} way;

/* What a thread has: the list of what it keeps is its root. */
typedef struct mutator {
    compressor_buffer buffer;
    uint64_t list, kept, made;
    uint64_t chance;
    pthread_t thread;
} mutator;

static way chosen;
static compressor_space space;
static uint64_t *memory[2];
static mutator mutators[THREADS];
static int is_full;
static uint64_t collections, filled;
static uint64_t sixteenths; /* of the room: more were live after a collection that made room */

/* Threads that stop */
static pthread_mutex_t lock = PTHREAD_MUTEX_INITIALIZER;
static pthread_cond_t changed = PTHREAD_COND_INITIALIZER;
static int stopping;
static uint64_t stopped, turn;

/* What all make from one safepoint to the next. */
static uint64_t need(void) { return chosen.buffers * chosen.step; }

/* The limit for so many live words; above it there has to be room for what all make. */
static void set_limit(uint64_t live) {
    const uint64_t left = compressor_space_limit(&space, live, chosen.factor);
    if (space.limit > chosen.room - need()) space.limit = chosen.room - need();
    is_full = left == 0 || live >= space.limit;
}

/* All threads stand still: what their lists have slides, within the memory or into the other one. */
static void collect(void) {
    uint64_t *const to = collections % 2 == 0 ? space.words : memory[space.words == memory[0]];
    uint64_t *variables[THREADS], roots[THREADS];
    const size_t count = chosen.buffers;
    compressor_answer a;
    for (size_t k = 0; k < count; k++) variables[k] = &mutators[k].list;
    compressor_gather(variables, count, roots);
    if (to == space.words) a = compressor_collect_in_place(EDITION, to, space.used, roots, count);
    else a = compressor_collect(EDITION, space.words, space.used, roots, count, to, space.room);
    IS(a.status == COMPRESSOR_DONE);
    compressor_scatter(variables, count, roots);
    compressor_space_in(&space, EDITION, to, space.room, a.value);
    for (size_t k = 0; k < count; k++) compressor_buffer_empty(&mutators[k].buffer);
    set_limit(a.value);
    while (!is_full && a.value * 16 > chosen.room * (sixteenths + 1)) sixteenths++;
    collections++;
}

static void make(mutator *m, uint64_t words) {
    const uint64_t object = compressor_new(&space, &m->buffer, COMPRESSOR_HEADER(1, 0, words - 2, 1), words);
    IS(object != 0);
    if (m->made++ % chosen.kept_each != 0) return;
    compressor_store(&space, object, 0, m->list);
    compressor_store(&space, object, words - 2, m->kept++);
    m->list = object;
}

/* Objects of 3 to some 2,000 words, and of all the words of a step together. */
static void step(mutator *m) {
    uint64_t left = chosen.step;
    while (left != 0) {
        const uint64_t most = left < 2000 ? left : 2000;
        m->chance = m->chance * UINT64_C(6364136223846793005) + 1442695040888963407u;
        uint64_t words = 3 + (m->chance >> 33) % (most - 2);
        if (left - words < 3) words = left;
        make(m, words);
        left -= words;
    }
}

/* The safepoint of a thread. The last one that comes collects. */
static void poll(void) {
    if (!__atomic_load_n(&stopping, __ATOMIC_RELAXED) && !compressor_space_due(&space)) return;
    pthread_mutex_lock(&lock);
    if (stopping || compressor_space_due(&space)) {
        const uint64_t now = turn;
        __atomic_store_n(&stopping, 1, __ATOMIC_RELAXED);
        if (++stopped == THREADS) {
            collect();
            stopped = 0;
            turn++;
            __atomic_store_n(&stopping, 0, __ATOMIC_RELAXED);
            pthread_cond_broadcast(&changed);
        }
        while (turn == now) pthread_cond_wait(&changed, &lock);
    }
    pthread_mutex_unlock(&lock);
}

static void *run(void *it) {
    while (!is_full) {
        step((mutator *)it);
        poll();
    }
    return NULL;
}

/* The worst that threads can do: each makes a whole step after the last one has looked whether it is due. */
static void run_by_turns(void) {
    while (!is_full) {
        for (uint64_t k = 0; k < chosen.buffers; k++) step(&mutators[k]);
        if (compressor_space_due(&space)) collect();
    }
}

static void run_by_threads(void) {
    for (int k = 0; k < THREADS; k++) IS(pthread_create(&mutators[k].thread, NULL, run, &mutators[k]) == 0);
    for (int k = 0; k < THREADS; k++) IS(pthread_join(mutators[k].thread, NULL) == 0);
}

/* Nothing of a list was lost. */
static void check_list(const mutator *m) {
    uint64_t kept = m->kept, at = m->list;
    for (; at != 0; at = compressor_load(&space, at, 0)) {
        const uint64_t words = compressor_shape_words(compressor_shape_at(&space, at));
        IS(kept-- > 0 && compressor_load(&space, at, words - 2) == kept);
    }
    IS(kept == 0);
}

/* So much was live after a collection that made room; but where one collection may go over it, to a full heap: there
   lives an eighth of the room more then, and what all make. Of threads that keep half that says less. */
static void check_sixteenths(void) {
    const uint64_t room = chosen.room, above = room / 16 + 1 > need() ? room / 16 + 1 : need();
    const uint64_t least[3] = {7, 8, 12};
    const int count = chosen.by_threads && chosen.kept_each > 1 ? 2 : 3;
    for (int k = 0; k < count; k++)
        if (room * least[k] / 16 + room / 8 + 2 + need() + above <= room) IS(sixteenths >= least[k]);
}

static void fill(way it) {
    const mutator none = {{0, 0, 0}, 0, 0, 0, 0, 0};
    const compressor_space empty = {0, NULL, 0, 0, 0, 0, 0, 0, NULL, 0, 0, 0, NULL};
    const uint64_t before = collections;
    chosen = it;
    sixteenths = 0;
    space = empty;
    for (int k = 0; k < 2; k++) IS((memory[k] = (uint64_t *)calloc(it.room, sizeof **memory)) != NULL);
    for (uint64_t k = 0; k < THREADS; k++) {
        mutators[k] = none;
        mutators[k].chance = k;
    }
    compressor_space_in(&space, EDITION, memory[0], it.room, 0);
    set_limit(0);
    if (it.by_threads) run_by_threads();
    else run_by_turns();
    for (uint64_t k = 0; k < it.buffers; k++) check_list(&mutators[k]);
    for (int k = 0; k < 2; k++) free(memory[k]);
    IS(collections - before <= 24); /* there are more where buffers take what is left, and do not use it */
    check_sixteenths();
    filled++;
}

static void fill_all(void) {
    static const uint64_t rooms[][2] = {{64, 3},    {64, 4},    {100, 3},      {256, 3},
                                        {1000, 15}, {4096, 64}, {65536, 1000}, {1 << 20, 16000}};
    static const uint64_t buffers[3] = {1, THREADS, THREADS};
    for (size_t r = 0; r < sizeof rooms / sizeof *rooms; r++)
        for (uint64_t all = 1; all <= 2; all++)
            for (int k = 0; k < 3; k++) {
                const way it = {rooms[r][0], rooms[r][1], all, all, buffers[k], k == 2};
                fill(it);
            }
}

/* What a limit is, for any numbers: an eighth of the room, or what the factor says, and never the last sixteenth. */
static void check_limit(uint64_t room, uint64_t live, uint64_t factor) {
    uint64_t more;
    space.room = room;
    more = compressor_space_limit(&space, live, factor);
    const uint64_t most = room - (room + 15) / 16, eighth = (room + 7) / 8, times = factor > 1 ? factor - 1 : 0;
    IS(space.limit <= most && (more == 0) == (live >= most));
    if (more == 0) return;
    IS(space.limit == live + more);
    if (space.limit == most) return;
    IS(more >= eighth && (live == 0 || more / live >= times));
    IS(more == eighth || (more / live == times && more % live == 0));
}

static void check_limits(void) {
    static const uint64_t rooms[] = {0, 1, 2, 7, 8, 15, 16, 17, 64, 1000, 4095, UINT64_C(1) << 20, UINT64_C(1) << 31};
    static const uint64_t factors[] = {0, 1, 2, 3, 7, UINT64_C(1) << 32, (UINT64_C(1) << 63) + 1, UINT64_MAX};
    for (size_t r = 0; r < sizeof rooms / sizeof *rooms; r++)
        for (size_t f = 0; f < sizeof factors / sizeof *factors; f++) {
            const uint64_t room = rooms[r];
            for (uint64_t k = 0; k <= 64; k++) check_limit(room, room / 64 * k + room % 64 * k / 64, factors[f]);
            for (uint64_t k = 0; k <= 2; k++) {
                check_limit(room, k, factors[f]);
                check_limit(room, room + k, factors[f]);
                check_limit(room, UINT64_MAX - k, factors[f]);
            }
        }
}

/* What compressor_space_in leaves of a limit, and of words for which there is no room. */
static void check_places(void) {
    static uint64_t words[100];
    const compressor_space empty = {0, NULL, 0, 0, 0, 0, 0, 0, NULL, 0, 0, 0, NULL};
    compressor_buffer buffer = {0, 0, 0};
    compressor_answer a;
    uint64_t roots[2];
    space = empty;
    compressor_space_in(&space, EDITION, words, 80, 0);
    IS(space.limit == 80 && !compressor_space_due(&space));
    compressor_space_in(&space, EDITION, words, 100, 0);
    IS(space.limit == 100);
    space.limit = 0;
    compressor_space_in(&space, EDITION, words, 100, 0);
    IS(space.limit == 100);
    space.limit = 70;
    compressor_space_in(&space, EDITION, words, 90, 0);
    IS(space.limit == 70);
    compressor_space_in(&space, EDITION, words, 60, 0);
    IS(space.limit == 60);
    compressor_space_in(&space, EDITION, words, UINT64_MAX, 0);
    IS(space.limit == compressor_max_words(EDITION) && space.room == space.limit);

    compressor_space_in(&space, EDITION, words, 100, 0);
    for (int k = 0; k < 2; k++) roots[k] = compressor_new(&space, &buffer, COMPRESSOR_HEADER(1, 0, 8, 1), 10);
    IS(roots[1] == COMPRESSOR_FROM_SPACE + 10);
    compressor_space_in(&space, EDITION, words, 15, 20);
    compressor_buffer_empty(&buffer);
    IS(space.used == 15 && compressor_new(&space, &buffer, 0, 1) == 0);
    a = compressor_collect_in_place(EDITION, words, space.used, roots, 2);
    IS(a.status == COMPRESSOR_OBJECT_PAST_END && a.value == 10);
    compressor_space_in(&space, EDITION, words, 10, 20);
    a = compressor_collect_in_place(EDITION, words, space.used, roots, 2);
    IS(a.status == COMPRESSOR_BAD_ROOT && a.value == 1);
    compressor_store(&space, roots[0], 0, roots[1]);
    a = compressor_collect_in_place(EDITION, words, space.used, roots, 1);
    IS(a.status == COMPRESSOR_BAD_REFERENCE && a.value == 1);
}

int main(void) {
    check_limits();
    check_places();
    fill_all();
    printf("heaps that were filled: %llu, by %llu collections\n", (unsigned long long)filled,
           (unsigned long long)collections);
    return 0;
}
