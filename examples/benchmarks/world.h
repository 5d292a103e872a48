/* world.h: all mutators stop, and one of them collects. A mutator that finds no room calls world_stop. The others come
   soon, for each allocates, and there is no room for them either. The last one collects for all. */
#ifndef WORLD_H
#define WORLD_H

#include <stdatomic.h>

static struct {
    pthread_mutex_t lock;
    pthread_cond_t gone_on;
    int running;
    atomic_int stopped; /* changed under the lock */
    uint64_t turn;
    uint64_t live;      /* words, after the last collection */
    uint64_t since; /* when the first one stopped */
} world = {.lock = PTHREAD_MUTEX_INITIALIZER, .gone_on = PTHREAD_COND_INITIALIZER};

/* By the back end: collects, and answers the live words. No mutator runs. */
static inline uint64_t collect(void);

static inline void world_collect(void) {
    const uint64_t began = processor_time();
    world.live = collect();
    tell_collection(processor_time() - began, wall_time() - world.since, world.live);
    world.stopped = 0;
    world.turn++;
    pthread_cond_broadcast(&world.gone_on);
}

/* A thread has stopped: an allocation may as well stop too. */
static inline int world_stops(void) { return atomic_load_explicit(&world.stopped, memory_order_relaxed) != 0; }

/* Answers after a collection: how many words it left. */
static inline uint64_t world_stop(void) {
    pthread_mutex_lock(&world.lock);
    const uint64_t turn = world.turn;
    if (world.stopped == 0) world.since = wall_time();
    if (++world.stopped == world.running) world_collect();
    else
        while (world.turn == turn) pthread_cond_wait(&world.gone_on, &world.lock);
    const uint64_t live = world.live;
    pthread_mutex_unlock(&world.lock);
    return live;
}

static inline void world_start(int threads) { world.running = threads; }

/* A thread has ended: the others do not wait for it. */
static inline void world_leave(mutator *m) {
    pthread_mutex_lock(&world.lock);
    m->top = m->roots;
    if (--world.running > 0 && world.stopped == world.running) world_collect();
    pthread_mutex_unlock(&world.lock);
}

#endif
