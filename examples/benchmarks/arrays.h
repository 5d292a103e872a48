/* arrays.h: an array is one object. */
#ifndef ARRAYS_H
#define ARRAYS_H

static inline ref refs_new(mutator *m, size_t n) { return heap_new(m, n, 0); }
static inline ref words_new(mutator *m, size_t n) { return heap_new(m, 0, n); }
static inline ref refs_at(mutator *m, ref array, size_t n, size_t k) {
    (void)n;
    return heap_ref(m, array, k);
}
static inline uint64_t words_at(mutator *m, ref array, size_t n, size_t k) {
    (void)n;
    return heap_word(m, array, 0, k);
}
static inline void refs_put(mutator *m, const ref *array, size_t n, size_t k, const ref *value) {
    (void)n;
    heap_set_ref(m, array, k, value);
}
static inline void words_put(mutator *m, const ref *array, size_t n, size_t k, uint64_t word) {
    (void)n;
    heap_set_word(m, array, 0, k, word);
}

#endif
