/* programs.c: lists, their model, and a shared table, with loads and stores that look whether a page is home. plain.c
   includes it with plain ones. Between two safepoints a ref may be in a variable; over one it is in a slot. STORE is of
   data, and of an object that was made since the last safepoint. */
#include "programs.h"

#include <pthread.h>
#include <stdlib.h>

#ifndef PROGRAMS
#define PROGRAMS programs_noticed
#define LOAD(object, k) compressor_load_touched(&heap_space, &heap_touch, object, k)
#define STORE(object, k, value) compressor_store_touched(&heap_space, &heap_touch, object, k, value)
#define STORE_REF(m, object, k, value) heap_store_noticed(m, object, k, value)
#endif

enum { NEXT, KEY, SEED };                     /* of a node */
enum { LENGTH = 4 };                          /* nodes of a list */
enum { LEAF = 64, LIST_WORDS = 4 * LENGTH + 1 }; /* lists in a leaf of the table; words of a list, and its reference */
enum { LARGE = 3000 };                        /* data words of an object over some pages */
enum { SLOTS = 64 };                          /* of the shared table */

static const uint64_t node_header = COMPRESSOR_HEADER(1, 0, 2, 1);
static const uint64_t leaf_header = COMPRESSOR_HEADER(LEAF, 0, 0, 2);
static const uint64_t large_header = COMPRESSOR_HEADER(0, 0, LARGE, 3);
static const uint64_t slots_header = COMPRESSOR_HEADER(SLOTS, 0, 0, 4);

static pthread_mutex_t shared_lock = PTHREAD_MUTEX_INITIALIZER;

/* What a list holds: node k has the key mixed(seed, k), the first one so much more. */
typedef struct model {
    uint64_t seed, more;
} model;

typedef struct run {
    mutator *m;
    uint64_t state;               /* of the random numbers */
    uint64_t lists;
    model *models;
    ref *table, *large, *shared;  /* slots; `shared` has a list of the shared table */
} run;

static uint64_t mixed(uint64_t a, uint64_t b) {
    a = (a ^ (a >> 31) ^ b) * UINT64_C(0x9e3779b97f4a7c15);
    return a ^ a >> 29;
}
static uint64_t next_random(uint64_t *state) {
    *state ^= *state << 13;
    *state ^= *state >> 7;
    return *state ^= *state << 17;
}

static ref list_new(mutator *m, uint64_t seed) {
    ref list = 0;
    for (uint64_t k = LENGTH; k-- > 0;) {
        const ref node = heap_new(m, node_header);
        STORE(node, NEXT, list);
        STORE(node, KEY, mixed(seed, k));
        STORE(node, SEED, seed);
        list = node;
    }
    return list;
}

/* The sum of the keys; the list has to hold what the model says. */
static uint64_t list_sum(ref list, const model *of) {
    uint64_t k = 0, sum = 0;
    for (; list != 0; list = LOAD(list, NEXT), k++) {
        const uint64_t key = LOAD(list, KEY);
        if (key != mixed(of->seed, k) + (k == 0 ? of->more : 0) || LOAD(list, SEED) != of->seed) heap_fail("WrongList");
        sum += key;
    }
    if (k != LENGTH) heap_fail("WrongLength");
    return sum;
}

static ref leaf_of(const run *r, uint64_t list) { return LOAD(*r->table, list / LEAF); }

static void list_make(run *r, uint64_t at) {
    const model made = {next_random(&r->state), 0};
    const ref list = list_new(r->m, made.seed);
    STORE_REF(r->m, leaf_of(r, at), at % LEAF, list);
    r->models[at] = made;
}

static void list_write(run *r, uint64_t at, uint64_t more) {
    const ref list = LOAD(leaf_of(r, at), at % LEAF);
    STORE(list, KEY, LOAD(list, KEY) + more);
    r->models[at].more += more;
}

static void lists_exchange(run *r, uint64_t a, uint64_t b) {
    const ref first = LOAD(leaf_of(r, a), a % LEAF), second = LOAD(leaf_of(r, b), b % LEAF);
    const model was = r->models[a];
    STORE_REF(r->m, leaf_of(r, a), a % LEAF, second);
    STORE_REF(r->m, leaf_of(r, b), b % LEAF, first);
    r->models[a] = r->models[b];
    r->models[b] = was;
}

static uint64_t list_look(const run *r, uint64_t at) {
    return list_sum(LOAD(leaf_of(r, at), at % LEAF), &r->models[at]);
}

static void large_look(run *r) {
    const uint64_t k = next_random(&r->state) % LARGE;
    if (LOAD(*r->large, k) != mixed(r->m->number, k)) heap_fail("WrongLargeObject");
}

/* The shared table: its lists have one number in each key, and nobody writes there. */

static ref shared_new(mutator *m, uint64_t number) {
    const ref list = list_new(m, number);
    for (ref node = list; node != 0; node = LOAD(node, NEXT)) STORE(node, KEY, number);
    return list;
}
static uint64_t shared_number(ref list) {
    const uint64_t number = LOAD(list, SEED);
    for (ref node = list; node != 0; node = LOAD(node, NEXT))
        if (LOAD(node, KEY) != number) heap_fail("WrongSharedList");
    return number;
}
static void shared_exchange(run *r) {
    const uint64_t slot = next_random(&r->state) % SLOTS;
    const ref mine = shared_new(r->m, shared_number(*r->shared));
    pthread_mutex_lock(&shared_lock);
    *r->shared = LOAD(heap_shared[0], slot);
    STORE_REF(r->m, heap_shared[0], slot, mine);
    pthread_mutex_unlock(&shared_lock);
}

static void begin(mutator *m) {
    heap_shared[0] = heap_new(m, slots_header);
    for (uint64_t k = 0; k < SLOTS; k++) STORE(heap_shared[0], k, shared_new(m, k));
}
static void end(uint32_t threads, uint64_t rest) {
    uint64_t wanted = 0;
    for (uint64_t k = 0; k < SLOTS; k++) {
        rest += shared_number(LOAD(heap_shared[0], k));
        wanted += k;
    }
    for (uint32_t k = 0; k < threads; k++) wanted += 1000 + k;
    if (rest != wanted) heap_fail("WrongShares");
}

/* The program of a thread */

static void tables_make(run *r) {
    const uint64_t leaves = r->lists / LEAF;
    const compressor_shape shape = {(uint32_t)leaves, 0, 0, 0};
    uint64_t header = 0;
    if (!compressor_shape_header(EDITION, shape, &header)) heap_fail("TableTooLarge");
    r->table = heap_push(r->m, heap_new(r->m, header));
    r->shared = heap_push(r->m, shared_new(r->m, 1000 + r->m->number));
    r->large = heap_push(r->m, heap_new(r->m, large_header));
    for (uint64_t k = 0; k < LARGE; k++) STORE(*r->large, k, mixed(r->m->number, k));
    for (uint64_t k = 0; k < leaves; k++) {
        heap_poll(r->m);
        const ref leaf = heap_new(r->m, leaf_header);
        STORE_REF(r->m, *r->table, k, leaf);
    }
    for (uint64_t k = 0; k < r->lists; k++) {
        heap_poll(r->m);
        list_make(r, k);
    }
}

static void step(run *r) {
    uint64_t at[5];
    for (int k = 0; k < 5; k++) at[k] = next_random(&r->state) % r->lists;
    list_make(r, at[0]);
    list_write(r, at[1], next_random(&r->state));
    lists_exchange(r, at[2], at[3]);
    list_look(r, at[4]);
    large_look(r);
    if (at[0] % 16 == 0) shared_exchange(r);
}

static model *models_new(uint64_t count) {
    model *const made = (model *)calloc(count, sizeof *made);
    return made != NULL ? made : (model *)calloc(count, sizeof *made);
}

static uint64_t run_thread(mutator *m, uint64_t words, uint64_t rounds, uint64_t *rest) {
    const uint64_t leaves = words / (LIST_WORDS * LEAF + 2) + 1;
    run r = {m, mixed(m->number, 88172645463325252u), leaves * LEAF, models_new(leaves * LEAF), NULL, NULL, NULL};
    uint64_t sum = 0;
    if (r.models == NULL) heap_fail("OutOfMemory");
    tables_make(&r);
    for (uint64_t k = 0; k < rounds * r.lists; k++) {
        heap_poll(m);
        step(&r);
    }
    for (uint64_t k = 0; k < r.lists; k++) sum = mixed(sum, list_look(&r, k));
    *rest = shared_number(*r.shared);
    free(r.models);
    return sum;
}

extern const programs PROGRAMS;
const programs PROGRAMS = {begin, end, run_thread};
