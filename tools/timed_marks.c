/* What a marker costs: one of the runtime's own in C, as examples/concurrent has it, and those of the library, which
   are proved. All mark the same heap, which nobody changes meanwhile; each round takes them in turns.

   timed_marks OBJECTS FIELDS SCATTERED THREADS ROUNDS : a tree of so many objects, each with so many references and one
   data word, in the order of their addresses or scattered; one thread, and so many, mark it in so many rounds. Prints a
   row for each marker: its name, the threads, and the least processor time and time by the clock of a round, in ms. */
#define _POSIX_C_SOURCE 200809L
#include "compressor_rest.h"

#include <inttypes.h>
#include <pthread.h>
#include <sched.h>
#include <stdio.h>
#include <stdlib.h>
#include <string.h>
#include <time.h>

enum { EDITION = 4, BATCH = 64, ROW_ROOM = 4096, MOST_THREADS = 8, GIVEN = 1024 };

static uint64_t objects, fields, words_used, root;
static uint64_t *words;
static compressor_space space;
static uint32_t threads;

static void fail(const char *what, compressor_answer a) {
    fprintf(stderr, "timed_marks: %s: %s, %llu\n", what, compressor_status_text(a.status), (unsigned long long)a.value);
    exit(1);
}

static uint64_t done(const char *what, compressor_answer a) {
    if (a.status != COMPRESSOR_DONE) fail(what, a);
    return a.value;
}

static void *zeros(size_t count, size_t size) {
    void *const all = calloc(count, size);
    if (all == NULL) {
        fputs("timed_marks: out of memory\n", stderr);
        exit(1);
    }
    return all;
}

static double seconds(clockid_t clock) {
    struct timespec t;
    clock_gettime(clock, &t);
    return (double)t.tv_sec + (double)t.tv_nsec / 1e9;
}

/* The tree: object number k leads to those with the numbers k * fields + 1 and on. */
static void make_heap(int scattered) {
    const uint64_t size = 2 + fields;
    uint64_t *const places = zeros(objects, sizeof *places), seed = 88172645463325252u;
    words_used = objects * size;
    words = zeros(words_used, sizeof *words);
    for (uint64_t k = 0; k < objects; k++) places[k] = k;
    for (uint64_t k = objects - 1; scattered && k > 0; k--) {
        seed ^= seed << 13, seed ^= seed >> 7, seed ^= seed << 17;
        const uint64_t other = seed % (k + 1), place = places[k];
        places[k] = places[other];
        places[other] = place;
    }
    for (uint64_t k = 0; k < objects; k++) {
        uint64_t *const at = words + places[k] * size;
        at[0] = COMPRESSOR_HEADER(fields, 0, 1, 1);
        for (uint64_t f = 0; f < fields; f++) {
            const uint64_t child = k * fields + 1 + f;
            at[1 + f] = child < objects ? COMPRESSOR_FROM_SPACE + places[child] * size : 0;
        }
    }
    root = COMPRESSOR_FROM_SPACE + places[0] * size;
    compressor_space_in(&space, EDITION, words, words_used, words_used);
    free(places);
}

/* In C: a stack of objects, and bits for first words and for all words. */

static struct {
    compressor_barrier barrier;
    uint64_t *marks, *live, *stack;
} own;

static void too_full(compressor_barrier *it) {
    (void)it;
    abort(); /* the stack has room for all objects */
}

static void mark_in_c(void) {
    const uint64_t blocks = (words_used + 63) / 64;
    compressor_survey survey = COMPRESSOR_EMPTY;
    own.marks = zeros(blocks, 8);
    own.live = zeros(blocks, 8);
    own.stack = malloc(objects * 8);
    own.barrier = (compressor_barrier){own.marks, own.stack, own.stack + objects, too_full};
    compressor_keep_in(&space, &own.barrier, root);
    while (own.barrier.next != own.stack) {
        const uint64_t object = *--own.barrier.next;
        const compressor_shape shape = compressor_shape_at(&space, object);
        compressor_mark_live(own.live, object, compressor_shape_words(shape));
        for (uint64_t k = 0; k < shape.refs; k++)
            compressor_keep_in(&space, &own.barrier, compressor_load_acquire(&space, object, k));
    }
    done("by bits", compressor_survey_by_bits(EDITION, words_used, &root, 1, own.marks, blocks, own.live, blocks,
                                              &survey));
    compressor_survey_drop(&survey);
    free(own.stack);
    free(own.live);
    free(own.marks);
}

/* By looks, one marker. */

static uint64_t rows_of(const uint64_t *indices, uint64_t count, uint64_t *rows) {
    uint64_t many = 0;
    for (uint64_t k = 0; k < count; k++)
        many += compressor_copy_row(&space, COMPRESSOR_FROM_SPACE + indices[k], rows + many, ROW_ROOM - many);
    return many;
}

static void mark_by_looks(void) {
    uint64_t indices[BATCH], rows[ROW_ROOM];
    compressor_looks looks = COMPRESSOR_EMPTY;
    compressor_survey survey = COMPRESSOR_EMPTY;
    uint64_t count;
    done("looks begin", compressor_looks_begin(EDITION, words_used, &root, 1, &looks));
    while ((count = done("waiting", compressor_looks_waiting(&looks, indices, BATCH))) != 0)
        done("look", compressor_looks_look(&looks, rows, rows_of(indices, count, rows)));
    done("looks finish", compressor_looks_finish(&looks, &root, 1, &survey));
    compressor_survey_drop(&survey);
}

static void mark_by_roots(void) {
    compressor_survey survey = COMPRESSOR_EMPTY;
    done("by roots", compressor_survey_by_roots(EDITION, words, words_used, &root, 1, &survey));
    compressor_survey_drop(&survey);
}

static void on_threads(void *(*work)(void *)) {
    pthread_t all[MOST_THREADS];
    for (uint32_t k = 1; k < threads; k++)
        if (pthread_create(&all[k], NULL, work, (void *)(uintptr_t)k) != 0) abort();
    work(NULL);
    for (uint32_t k = 1; k < threads; k++) pthread_join(all[k], NULL);
}

/* By a marking that many threads share; the words are lent at each call. */

static compressor_marking markings[MOST_THREADS];

static void *help_marking(void *it) {
    const uint64_t who = (uintptr_t)it;
    for (;;) {
        const uint64_t did = done("help", compressor_marking_help(&markings[who], words, words_used, who * 8));
        if (did == COMPRESSOR_HELP_DONE) return NULL;
        if (did == COMPRESSOR_HELP_IDLE) sched_yield();
    }
}

static void mark_by_marking(void) {
    compressor_survey survey = COMPRESSOR_EMPTY;
    done("marking begin", compressor_marking_begin(EDITION, words_used, &root, 1, &markings[0]));
    for (uint32_t k = 1; k < threads; k++) done("share", compressor_marking_share(&markings[0], &markings[k]));
    on_threads(help_marking);
    for (uint32_t k = 1; k < threads; k++) compressor_marking_drop(&markings[k]);
    done("marking finish", compressor_marking_finish(&markings[0], &root, 1, &survey));
    compressor_survey_drop(&survey);
}

/* By lanes, each of one thread; who has much gives some to a pool where others wait. */

static compressor_lane lanes[MOST_THREADS];
static pthread_mutex_t lock = PTHREAD_MUTEX_INITIALIZER;
static struct {
    uint64_t *given, count, room;
    uint32_t idle; /* read without the lock too */
} pool;

/* Gives half of a batch's worth of objects that wait, where another thread has none. */
static void give_some(compressor_lane *lane) {
    uint64_t some[GIVEN];
    const uint64_t count = done("give", compressor_lane_give(lane, some, GIVEN));
    pthread_mutex_lock(&lock);
    if (pool.count + count > pool.room) {
        pool.room = 2 * (pool.count + count);
        pool.given = realloc(pool.given, pool.room * 8);
        if (pool.given == NULL) abort();
    }
    memcpy(pool.given + pool.count, some, count * 8);
    __atomic_store_n(&pool.count, pool.count + count, __ATOMIC_RELAXED);
    pthread_mutex_unlock(&lock);
}

/* Takes what waits in the pool: 0 if all threads are idle, so that nothing comes any more. */
static int take_some(compressor_lane *lane) {
    uint64_t some[GIVEN], count = 0;
    pthread_mutex_lock(&lock);
    __atomic_store_n(&pool.idle, pool.idle + 1, __ATOMIC_RELAXED);
    while (pool.count == 0 && pool.idle < threads) {
        pthread_mutex_unlock(&lock);
        sched_yield();
        pthread_mutex_lock(&lock);
    }
    if (pool.count != 0) {
        count = pool.count < GIVEN ? pool.count : GIVEN;
        memcpy(some, pool.given + pool.count - count, count * 8);
        __atomic_store_n(&pool.count, pool.count - count, __ATOMIC_RELAXED);
        __atomic_store_n(&pool.idle, pool.idle - 1, __ATOMIC_RELAXED);
    }
    pthread_mutex_unlock(&lock);
    if (count != 0) done("take", compressor_lane_take(lane, some, count));
    return count != 0;
}

static void *mark_lane(void *it) {
    compressor_lane *const lane = &lanes[(uintptr_t)it];
    uint64_t indices[BATCH], rows[ROW_ROOM], count;
    do {
        while ((count = done("waiting", compressor_lane_waiting(lane, indices, BATCH))) != 0) {
            done("look", compressor_lane_look(lane, rows, rows_of(indices, count, rows)));
            if (count == BATCH && __atomic_load_n(&pool.idle, __ATOMIC_RELAXED) != 0 &&
                __atomic_load_n(&pool.count, __ATOMIC_RELAXED) == 0)
                give_some(lane);
        }
    } while (take_some(lane));
    return NULL;
}

static void mark_by_lanes(void) {
    compressor_looks looks = COMPRESSOR_EMPTY;
    compressor_survey survey = COMPRESSOR_EMPTY;
    pool.idle = 0;
    done("lane begin", compressor_lane_begin(EDITION, words_used, &lanes[0]));
    done("meet", compressor_lane_meet(&lanes[0], &root, 1));
    for (uint32_t k = 1; k < threads; k++) done("share", compressor_lane_share(&lanes[0], &lanes[k]));
    on_threads(mark_lane);
    for (uint32_t k = 1; k < threads; k++) done("join", compressor_lane_join(&lanes[0], &lanes[k]));
    done("whole", compressor_lane_whole(&lanes[0], &looks));
    done("looks finish", compressor_looks_finish(&looks, &root, 1, &survey));
    compressor_survey_drop(&survey);
}

static const struct marker {
    const char *name;
    void (*mark)(void);
    int shared; /* by threads too */
} markers[] = {
    {"in C", mark_in_c, 0},
    {"survey by roots", mark_by_roots, 0},
    {"looks", mark_by_looks, 0},
    {"marking", mark_by_marking, 1},
    {"lanes", mark_by_lanes, 1},
};
enum { MARKERS = sizeof markers / sizeof *markers };

int main(int count, char **given) {
    double busy[2 * MARKERS], wall[2 * MARKERS];
    if (count != 6) return 2;
    objects = strtoull(given[1], NULL, 10);
    fields = strtoull(given[2], NULL, 10);
    const uint32_t many = (uint32_t)atoi(given[4]);
    const int rounds = atoi(given[5]);
    if (objects == 0 || fields == 0 || many < 1 || many > MOST_THREADS || rounds < 1) return 2;
    make_heap(atoi(given[3]));
    printf("%-16s threads  processor      clock  over C: %" PRIu64 " objects%s\n", "marker", objects,
           atoi(given[3]) ? ", scattered" : "");
    for (int k = 0; k < 2 * MARKERS; k++) busy[k] = wall[k] = 1e9;
    for (int round = 0; round < rounds; round++)
        for (int k = 0; k < MARKERS; k++)
            for (int by_many = 0; by_many <= (markers[k].shared && many > 1); by_many++) {
                threads = by_many ? many : 1;
                const double b = seconds(CLOCK_PROCESS_CPUTIME_ID), w = seconds(CLOCK_MONOTONIC);
                markers[k].mark();
                const double now_b = seconds(CLOCK_PROCESS_CPUTIME_ID) - b, now_w = seconds(CLOCK_MONOTONIC) - w;
                if (now_b < busy[2 * k + by_many]) busy[2 * k + by_many] = now_b;
                if (now_w < wall[2 * k + by_many]) wall[2 * k + by_many] = now_w;
            }
    for (int k = 0; k < MARKERS; k++)
        for (int by_many = 0; by_many <= (markers[k].shared && many > 1); by_many++)
            printf("%-16s %7u %10.2f %10.2f  %.2f\n", markers[k].name, by_many ? many : 1, 1e3 * busy[2 * k + by_many],
                   1e3 * wall[2 * k + by_many], busy[2 * k + by_many] / busy[0]);
    free(words);
    return 0;
}
