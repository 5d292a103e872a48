/* flipped.h: ours flipped: each access is a call of a mutator. What stops the threads is the end of a cycle and the
   flip of the next; pages are compacted while they go on, by whoever touches one first. */
#include "world.h"

#include <sched.h>

enum { BY_HAND = 0, EDITION = 4 };

static compressor_crew crew;
static uint64_t *all_roots;
static uint64_t budget_pages, compacted_pages;

/* The value of an answer; ends the program if the call was refused. */
static inline uint64_t done(compressor_answer answer) {
    if (answer.status != COMPRESSOR_DONE) die(compressor_status_text(answer.status));
    return answer.value;
}

/* Flips a marked heap. What was compacted by the last flip is a guess of what will be by this one. */
static inline void flip(compressor_heap *heap) {
    compressor_plan plan = COMPRESSOR_EMPTY;
    compressor_mutator_facts facts;
    const uint64_t most = compressor_max_roots(EDITION);
    const uint64_t fresh = budget_pages > compacted_pages ? budget_pages - compacted_pages : 0;
    size_t number = 0;
    if (fresh < 16) die("the heap is full");
    done(compressor_heap_plan(heap, &plan));
    done(compressor_plan_flip(&plan, (uint32_t)mutator_count, (uint32_t)(fresh < most ? fresh : most), &crew));
    compressor_plan_drop(&plan);
    for (int k = 0; k < mutator_count; k++) done(compressor_crew_take(&crew, &mutators[k].hand));
    done(compressor_mutator_facts_of(&mutators[0].hand, &facts));
    compacted_pages = facts.compacted_pages;
    EACH_ROOT(root) *root = done(compressor_mutator_root(&mutators[0].hand, number++));
}

static inline uint64_t collect(void) {
    compressor_end end = COMPRESSOR_EMPTY;
    compressor_heap heap = COMPRESSOR_EMPTY;
    size_t count = 0;
    for (int k = 0; k < mutator_count; k++) done(compressor_crew_give(&crew, &mutators[k].hand));
    done(compressor_crew_finish(&crew, &end));
    EACH_ROOT(root) all_roots[count++] = *root;
    done(compressor_end_next_by_roots(&end, all_roots, count, &heap));
    flip(&heap);
    return compacted_pages * COMPRESSOR_PAGE_WORDS;
}

static inline void heap_start(size_t budget_words) {
    compressor_heap heap = COMPRESSOR_EMPTY;
    uint64_t none = 0;
    budget_pages = budget_words / COMPRESSOR_PAGE_WORDS;
    all_roots = zeroed_words(MOST_THREADS * (size_t)MOST_ROOTS);
    world_start(mutator_count);
    done(compressor_heap_by_roots(EDITION, &none, 0, &none, 0, &heap));
    flip(&heap);
}

static inline void heap_leave(mutator *m) { world_leave(m); }

/* After a refused call: it may be made again then, with roots that were read anew. */
static __attribute__((noinline)) void settle(compressor_answer answer) {
    if (answer.status == COMPRESSOR_BUSY) sched_yield();
    else if (answer.status == COMPRESSOR_OUT_OF_PAGES || answer.status == COMPRESSOR_JOURNAL_FULL) world_stop();
    else die(compressor_status_text(answer.status));
}

/* Makes the call until it is done, and answers its value. */
#define UNTIL_DONE(call)                                                        \
    do {                                                                        \
        compressor_answer answer_;                                              \
        while ((answer_ = call).status != COMPRESSOR_DONE) settle(answer_);     \
        return answer_.value;                                                   \
    } while (0)

static inline ref heap_new(mutator *m, size_t refs, size_t data) {
    const compressor_shape shape = {(uint32_t)refs, 0, (uint32_t)data, 0};
    uint64_t header = 0;
    if (!compressor_shape_header(EDITION, shape, &header)) die("an object too large");
    if (world_stops()) world_stop();
    UNTIL_DONE(compressor_mutator_alloc(&m->hand, header));
}
static inline ref heap_ref(mutator *m, ref object, size_t k) {
    UNTIL_DONE(compressor_mutator_read_ref(&m->hand, object, (uint32_t)k));
}
static inline uint64_t heap_word(mutator *m, ref object, size_t refs, size_t k) {
    (void)refs;
    UNTIL_DONE(compressor_mutator_read_data(&m->hand, object, (uint32_t)k));
}
static inline uint64_t write_ref(mutator *m, const ref *object, size_t k, const ref *value) {
    UNTIL_DONE(compressor_mutator_write_ref(&m->hand, *object, (uint32_t)k, *value));
}
static inline uint64_t write_data(mutator *m, const ref *object, size_t k, uint64_t word) {
    UNTIL_DONE(compressor_mutator_write_data(&m->hand, *object, (uint32_t)k, word));
}
static inline void heap_set_ref(mutator *m, const ref *object, size_t k, const ref *value) {
    write_ref(m, object, k, value);
}
static inline void heap_set_word(mutator *m, const ref *object, size_t refs, size_t k, uint64_t word) {
    (void)refs;
    write_data(m, object, k, word);
}
static inline void heap_free(mutator *m, ref object) { (void)m, (void)object; }

#include "chunked_arrays.h"
