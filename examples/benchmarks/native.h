/* native.h: a heap that the program keeps itself, with the inline functions of compressor_rest.h. It reads, writes and
   allocates with no call. A back end adds how such a heap is collected: collector_start and collect. */
#ifndef NATIVE_H
#define NATIVE_H

#include "world.h"

enum { BY_HAND = 0, EDITION = 4 };

static compressor_space space;

/* A back end may have its own, defined before: of a word, of a data word, and of what a mutator does before it takes
   more room. */
#ifndef LOAD
#define LOAD(object, k) compressor_load(&space, object, k)
#define STORE(object, k, value) compressor_store(&space, object, k, value)
#define BEFORE_CHUNK(m) ((void)0)
#endif
#ifndef STORE_DATA
#define STORE_DATA STORE
#endif

/* Whether the last collection was one of all; of what is young a further one follows where it left too little room. */
static int collected_all = 1;

/* By the back end: makes the space, of this budget. */
static inline void collector_start(size_t budget_words);

static inline void heap_start(size_t budget_words) {
    collector_start(budget_words);
    world_start(mutator_count);
}
static inline void heap_leave(mutator *m) { world_leave(m); }

/* The heap lies there from now on. */
static inline void space_moved(uint64_t *words, uint64_t used) {
    compressor_space_in(&space, EDITION, words, space.room, used);
    for (int k = 0; k < mutator_count; k++) compressor_buffer_empty(&mutators[k].buffer);
}

/* Other threads may take all room that a collection made before this one goes on: then it asks for another one. */
static __attribute__((noinline)) ref new_after_collection(mutator *m, uint64_t header, uint64_t words) {
    ref made;
    do {
        const uint64_t left = world_stop();
        if (collected_all && space.room - left < words) die("the heap is full");
        made = compressor_new(&space, &m->buffer, header, words);
    } while (made == 0);
    return made;
}

static inline ref heap_new(mutator *m, size_t refs, size_t data) {
    const compressor_shape shape = {(uint32_t)refs, 0, (uint32_t)data, 0};
    const uint64_t words = compressor_shape_words(shape);
    uint64_t header = 0;
    if (!compressor_shape_header(EDITION, shape, &header)) die("an object too large");
    if (__builtin_expect(m->buffer.last - m->buffer.at < words, 0)) BEFORE_CHUNK(m);
    const ref made = compressor_new(&space, &m->buffer, header, words);
    return __builtin_expect(made != 0, 1) ? made : new_after_collection(m, header, words);
}

static inline ref heap_ref(mutator *m, ref object, size_t k) {
    (void)m;
    return LOAD(object, k);
}
static inline void heap_set_ref(mutator *m, const ref *object, size_t k, const ref *value) {
    (void)m;
    STORE(*object, k, *value);
}
static inline uint64_t heap_word(mutator *m, ref object, size_t refs, size_t k) {
    (void)m;
    return LOAD(object, refs + k);
}
static inline void heap_set_word(mutator *m, const ref *object, size_t refs, size_t k, uint64_t word) {
    (void)m;
    STORE_DATA(*object, refs + k, word);
}
static inline void heap_free(mutator *m, ref object) { (void)m, (void)object; }

#include "arrays.h"

#endif
