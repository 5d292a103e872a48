/* pointers.h: a reference is a pointer to the first reference or data word: an object has no header. */
#ifndef POINTERS_H
#define POINTERS_H

static inline uint64_t *pointer_of(ref object) { return (uint64_t *)(uintptr_t)object; }

static inline ref heap_ref(mutator *m, ref object, size_t k) {
    (void)m;
    return pointer_of(object)[k];
}
static inline void heap_set_ref(mutator *m, const ref *object, size_t k, const ref *value) {
    (void)m;
    pointer_of(*object)[k] = *value;
}
static inline uint64_t heap_word(mutator *m, ref object, size_t refs, size_t k) {
    (void)m;
    return pointer_of(object)[refs + k];
}
static inline void heap_set_word(mutator *m, const ref *object, size_t refs, size_t k, uint64_t word) {
    (void)m;
    pointer_of(*object)[refs + k] = word;
}

#include "arrays.h"

#endif
