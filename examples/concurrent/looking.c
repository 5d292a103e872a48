/* looking.c: the lanes of the markers, what they hand to each other, and cards. */
#include "looking.h"

#include <pthread.h>
#include <stdlib.h>

enum {
    BATCH = 64,        /* objects of a look */
    ROW_WORDS = 4096,  /* room for their rows: one has to fit */
    GIVEN = 1024,      /* objects that go from lane to lane at once */
    ROUNDS = 4,        /* of a marker over the cards */
    FEW_CARDS = 64     /* with objects: they are left to the stop */
};

/* The rows of some objects. */
typedef struct batch {
    uint64_t indices[BATCH], rows[ROW_WORDS], count, words;
} batch;

static struct {
    const compressor_space *space;
    uint64_t *starts; /* bits of the objects that were looked at; a card has one block of them */
    unsigned char *cards;
    uint64_t blocks;
    uint32_t markers;
    pthread_t threads[MOST_LOOKERS];
    compressor_lane lanes[MOST_LOOKERS];
    batch batches[MOST_LOOKERS + 1];
    void (*is_done)(uint64_t);
    /* under the lock */
    compressor_looks looks; /* once nothing waits in a lane */
    uint64_t given[GIVEN], given_count;
    uint64_t open;          /* the number of the marking that goes on; 0 if there is none, or its end was told */
    uint32_t busy, idle;    /* markers that look; of these, those that wait for objects. idle: read without it too */
    int has_lanes, gave_up, is_stopped, ending; /* is_stopped: read without it too */
} looking;
static pthread_mutex_t lock = PTHREAD_MUTEX_INITIALIZER;
static pthread_cond_t changed = PTHREAD_COND_INITIALIZER;

static int is_stopped(void) { return __atomic_load_n(&looking.is_stopped, __ATOMIC_RELAXED); }

/* Whether a call is done. If there was no memory for it, the marking gives up. */
static int is_so(compressor_answer a) {
    if (a.status == COMPRESSOR_DONE) return 1;
    pthread_mutex_lock(&lock);
    looking.gave_up = 1;
    __atomic_store_n(&looking.is_stopped, 1, __ATOMIC_RELAXED);
    pthread_mutex_unlock(&lock);
    return 0;
}

/* Copies the rows of these objects, up to the first one that has no room, and notes that they were looked at. */
static void copy_rows(batch *b, uint64_t many) {
    b->words = 0;
    for (b->count = 0; b->count < many; b->count++) {
        const uint64_t object = looking.space->base + b->indices[b->count], room = ROW_WORDS - b->words;
        const uint64_t words = compressor_copy_row(looking.space, object, b->rows + b->words, room);
        if (words > room) return;
        compressor_mark_in(looking.space, looking.starts, object);
        b->words += words;
    }
}

/* Gives some objects that wait in the lane to a marker that has none. */
static void give(compressor_lane *lane) {
    pthread_mutex_lock(&lock);
    if (looking.idle != 0 && looking.given_count == 0) {
        const compressor_answer a = compressor_lane_give(lane, looking.given, GIVEN);
        looking.given_count = a.status == COMPRESSOR_DONE ? a.value : 0;
        pthread_cond_broadcast(&changed);
    }
    pthread_mutex_unlock(&lock);
}

/* Takes what another marker gave: 0 if nothing comes any more. The lock is held before and after. */
static int take(compressor_lane *lane) {
    compressor_answer a;
    __atomic_store_n(&looking.idle, looking.idle + 1, __ATOMIC_RELAXED);
    if (looking.idle == looking.markers) pthread_cond_broadcast(&changed);
    while (looking.given_count == 0 && looking.idle != looking.markers && !looking.is_stopped)
        pthread_cond_wait(&changed, &lock);
    if (looking.given_count == 0 || looking.is_stopped) return 0;
    __atomic_store_n(&looking.idle, looking.idle - 1, __ATOMIC_RELAXED);
    a = compressor_lane_take(lane, looking.given, looking.given_count);
    looking.given_count = 0;
    looking.gave_up |= a.status != COMPRESSOR_DONE;
    return a.status == COMPRESSOR_DONE;
}

/* Looks at what waits in a lane, until nothing does or all stop. */
static void look_in(compressor_lane *lane, batch *b) {
    while (!is_stopped()) {
        const compressor_answer a = compressor_lane_waiting(lane, b->indices, BATCH);
        if (!is_so(a) || a.value == 0) return;
        copy_rows(b, a.value);
        if (!is_so(compressor_lane_look(lane, b->rows, b->words))) return;
        if (a.value == BATCH && __atomic_load_n(&looking.idle, __ATOMIC_RELAXED) != 0) give(lane);
    }
}

/* The same of the whole marking: to the end. 0 if there is no memory. */
static int look_on(batch *b) {
    for (;;) {
        const compressor_answer a = compressor_looks_waiting(&looking.looks, b->indices, BATCH);
        if (a.status != COMPRESSOR_DONE || a.value == 0) return a.status == COMPRESSOR_DONE;
        copy_rows(b, a.value);
        if (compressor_looks_look(&looking.looks, b->rows, b->words).status != COMPRESSOR_DONE) return 0;
    }
}

/* Looks again at the objects of a card that were looked at. 0 if there is no memory. */
static int look_at_card(batch *b, uint64_t card) {
    uint64_t bits = looking.starts[card];
    for (; bits != 0; bits &= bits - 1) {
        const uint64_t i = 64 * card + (uint64_t)__builtin_ctzll(bits);
        const uint64_t words = compressor_copy_row(looking.space, looking.space->base + i, b->rows, ROW_WORDS);
        if (compressor_looks_again(&looking.looks, i, b->rows, words).status != COMPRESSOR_DONE) return 0;
    }
    return 1;
}

/* Once over all cards; *found: how many had such objects. */
static int look_at_cards(batch *b, uint64_t *found) {
    const uint64_t used = __atomic_load_n(&looking.space->used, __ATOMIC_RELAXED);
    *found = 0;
    for (uint64_t card = 0; card < (used + 63) / 64; card++) {
        if (__atomic_load_n(&looking.cards[card], __ATOMIC_RELAXED) == 0) continue;
        __atomic_exchange_n(&looking.cards[card], 0, __ATOMIC_ACQ_REL);
        if (looking.starts[card] == 0) continue;
        ++*found;
        if (!look_at_card(b, card)) return 0;
    }
    return 1;
}

/* All lanes become one marking. 0 if there is no memory. The lock is held. */
static int join_lanes(void) {
    compressor_lane *const all = looking.lanes;
    looking.has_lanes = 0;
    if (looking.given_count != 0) {
        if (compressor_lane_take(&all[0], looking.given, looking.given_count).status != COMPRESSOR_DONE) return 0;
        looking.given_count = 0;
    }
    for (uint32_t k = 1; k < looking.markers; k++)
        if (compressor_lane_join(&all[0], &all[k]).status != COMPRESSOR_DONE) return 0;
    return compressor_lane_whole(&all[0], &looking.looks).status == COMPRESSOR_DONE;
}

static void drop_all(void) {
    for (uint32_t k = 0; k < looking.markers; k++) compressor_lane_drop(&looking.lanes[k]);
    compressor_looks_drop(&looking.looks);
    looking.has_lanes = 0;
    looking.given_count = 0;
}

/* What was written to meanwhile, until little is left. The lock is not held, but no other marker looks. */
static void look_again(batch *b) {
    uint64_t found = FEW_CARDS;
    for (int round = 0; round < ROUNDS && found >= FEW_CARDS && !is_stopped(); round++)
        if (!look_at_cards(b, &found) || !look_on(b)) {
            looking.gave_up = 1;
            return;
        }
}

/* A marker's part of a marking: whether it is to tell the end. The lock is held before and after. */
static int mark_with(uint32_t k) {
    batch *const b = &looking.batches[k];
    int is_last = 0;
    looking.busy++;
    do {
        pthread_mutex_unlock(&lock);
        look_in(&looking.lanes[k], b);
        pthread_mutex_lock(&lock);
    } while (!looking.gave_up && take(&looking.lanes[k]));
    if (looking.has_lanes && !looking.is_stopped) {
        /* the first one that finds that nothing waits: the others are on their way out, and touch no lane */
        looking.gave_up |= !join_lanes();
        pthread_mutex_unlock(&lock);
        if (!looking.gave_up) look_again(b);
        pthread_mutex_lock(&lock);
        is_last = !looking.is_stopped;
    }
    looking.busy--;
    pthread_cond_broadcast(&changed);
    return is_last;
}

static void *mark(void *it) {
    const uint32_t k = (uint32_t)(uintptr_t)it;
    uint64_t last = 0;
    pthread_mutex_lock(&lock);
    while (!looking.ending) {
        if (looking.open == 0 || looking.open == last) {
            pthread_cond_wait(&changed, &lock);
            continue;
        }
        last = looking.open;
        if (mark_with(k)) {
            pthread_mutex_unlock(&lock);
            looking.is_done(last);
            pthread_mutex_lock(&lock);
        }
    }
    pthread_mutex_unlock(&lock);
    return NULL;
}

/* Waits until no marker looks. The lock is held before and after. */
static void wait_for_markers(void) {
    __atomic_store_n(&looking.is_stopped, 1, __ATOMIC_RELAXED);
    pthread_cond_broadcast(&changed);
    while (looking.busy != 0) pthread_cond_wait(&changed, &lock);
}

static int begin_lanes(const uint64_t *roots, size_t count) {
    const compressor_space *const space = looking.space;
    compressor_lane *const all = looking.lanes;
    if (compressor_lane_begin(space->edition, space->room, &all[0]).status != COMPRESSOR_DONE) return 0;
    if (compressor_lane_meet(&all[0], roots, count).status != COMPRESSOR_DONE) return 0;
    for (uint32_t k = 1; k < looking.markers; k++)
        if (compressor_lane_share(&all[0], &all[k]).status != COMPRESSOR_DONE) return 0;
    return 1;
}

int looking_begin(const uint64_t *roots, size_t count, uint64_t number) {
    int is_begun;
    pthread_mutex_lock(&lock);
    wait_for_markers();
    memset(looking.starts, 0, looking.blocks * sizeof *looking.starts);
    memset(looking.cards, 0, looking.blocks);
    is_begun = begin_lanes(roots, count);
    if (is_begun) {
        looking.has_lanes = 1;
        looking.gave_up = 0;
        looking.idle = 0;
        looking.is_stopped = 0;
        looking.open = number;
        pthread_cond_broadcast(&changed);
    } else
        drop_all();
    pthread_mutex_unlock(&lock);
    return is_begun;
}

/* What the roots lead to, and what was written to, is looked at: 0 if there is no memory. */
static int look_at_rest(batch *b, const uint64_t *roots, size_t count) {
    uint64_t found;
    return !looking.gave_up && (!looking.has_lanes || join_lanes()) &&
           compressor_looks_meet(&looking.looks, roots, count).status == COMPRESSOR_DONE && look_at_cards(b, &found) &&
           look_on(b);
}

compressor_answer looking_finish(const uint64_t *roots, size_t count, compressor_survey *survey) {
    compressor_answer a = {COMPRESSOR_OUT_OF_MEMORY, 0, 0};
    pthread_mutex_lock(&lock);
    wait_for_markers();
    looking.open = 0;
    if (look_at_rest(&looking.batches[MOST_LOOKERS], roots, count))
        a = compressor_looks_finish(&looking.looks, roots, count, survey);
    drop_all();
    pthread_mutex_unlock(&lock);
    return a;
}

unsigned char *looking_cards(void) { return looking.cards; }

static void *zeros(size_t count, size_t size) {
    void *const all = calloc(count, size);
    return all != NULL ? all : calloc(count, size);
}

const char *looking_start(const compressor_space *space, size_t words, uint32_t markers, void (*is_done)(uint64_t)) {
    looking.space = space;
    looking.is_done = is_done;
    looking.blocks = (words + 63) / 64;
    looking.starts = (uint64_t *)zeros(looking.blocks, sizeof *looking.starts);
    looking.cards = (unsigned char *)zeros(looking.blocks, 1);
    if (looking.starts == NULL || looking.cards == NULL) return "OutOfMemory";
    for (; looking.markers < markers; looking.markers++) {
        pthread_t *const thread = &looking.threads[looking.markers];
        void *const number = (void *)(uintptr_t)looking.markers;
        if (pthread_create(thread, NULL, mark, number) != 0 && pthread_create(thread, NULL, mark, number) != 0)
            return "NoThread";
    }
    return NULL;
}

void looking_end(void) {
    pthread_mutex_lock(&lock);
    looking.ending = 1;
    looking.open = 0;
    wait_for_markers();
    pthread_mutex_unlock(&lock);
    for (uint32_t k = 0; k < looking.markers; k++) pthread_join(looking.threads[k], NULL);
    drop_all();
    free(looking.starts);
    free(looking.cards);
}
