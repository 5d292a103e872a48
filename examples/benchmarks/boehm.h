/* boehm.h: Boehm's libgc, as its documents have it: not incremental, and what has no references is atomic. The stacks
   of roots are scanned beside those of C. GC_MARKERS of the environment says how many threads mark. */
#define GC_THREADS
#include <gc/gc.h>
#include <gc/gc_mark.h>

#include "pointers.h"

enum { BY_HAND = 0 };

static GC_push_other_roots_proc other_roots;
static uint64_t began, began_processor;

static void push_roots(void) {
    for (int k = 0; k < mutator_count; k++) GC_push_all_eager(mutators[k].roots, mutators[k].top);
    if (other_roots) other_roots();
}

static void tell(GC_EventType event) {
    if (event == GC_EVENT_START) {
        began = wall_time();
        began_processor = processor_time();
    }
    if (event == GC_EVENT_END)
        tell_collection(processor_time() - began_processor, wall_time() - began,
                        (GC_get_heap_size() - GC_get_free_bytes()) / sizeof(uint64_t));
}

static inline void heap_start(size_t budget_words) {
    const size_t bytes = budget_words * sizeof(uint64_t);
    GC_set_all_interior_pointers(0);
    GC_INIT();
    GC_set_on_collection_event(tell);
    other_roots = GC_get_push_other_roots();
    GC_set_push_other_roots(push_roots);
    if (bytes > GC_get_heap_size()) GC_expand_hp(bytes - GC_get_heap_size());
}
static inline void heap_leave(mutator *m) { m->top = m->roots; }

static inline ref heap_new(mutator *m, size_t refs, size_t data) {
    const size_t bytes = (refs + data) * sizeof(uint64_t);
    void *const made = refs != 0 ? GC_MALLOC(bytes) : GC_MALLOC_ATOMIC(bytes);
    (void)m;
    if (!made) die("libgc has no memory");
    if (refs == 0) memset(made, 0, bytes);
    return (ref)(uintptr_t)made;
}
static inline void heap_free(mutator *m, ref object) { (void)m, (void)object; }
