/* by_hand.h: malloc and free. The program says what is dead; the budget binds nobody. */
#include "pointers.h"

enum { BY_HAND = 1 };

static inline void heap_start(size_t budget_words) { (void)budget_words; }
static inline void heap_leave(mutator *m) { m->top = m->roots; }

static inline ref heap_new(mutator *m, size_t refs, size_t data) {
    void *const made = calloc(refs + data, sizeof(uint64_t));
    (void)m;
    if (!made) die("no memory");
    return (ref)(uintptr_t)made;
}
static inline void heap_free(mutator *m, ref object) {
    (void)m;
    free(pointer_of(object));
}
