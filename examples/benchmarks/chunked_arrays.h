/* chunked_arrays.h: a mutator makes objects of at most 64 words, so an array is a tree of chunks of 63 elements. */
#ifndef CHUNKED_ARRAYS_H
#define CHUNKED_ARRAYS_H

enum { CHUNK_FIELDS = COMPRESSOR_MAX_NEW_WORDS - 1 };

/* How many elements are below each field of the root of a tree of n: 1 if it has no chunks below it. */
static inline size_t elements_below(size_t n) {
    size_t each = 1;
    while (each * CHUNK_FIELDS < n) each *= CHUNK_FIELDS;
    return each;
}

static ref array_of(mutator *m, size_t n, int of_refs) {
    const size_t each = elements_below(n);
    ref *const array = m->top;
    if (each == 1) return of_refs ? heap_new(m, n, 0) : heap_new(m, 0, n);
    push(m, heap_new(m, (n + each - 1) / each, 0));
    for (size_t k = 0; k * each < n; k++) {
        const size_t left = n - k * each;
        ref *const chunk = push(m, array_of(m, left < each ? left : each, of_refs));
        heap_set_ref(m, array, k, chunk);
        m->top = chunk;
    }
    m->top = array;
    return *array;
}

/* The chunk that has element k, which becomes its field there. */
static inline ref chunk_of(mutator *m, ref array, size_t n, size_t *k) {
    for (size_t each = elements_below(n); each > 1; each /= CHUNK_FIELDS) {
        array = heap_ref(m, array, *k / each);
        *k %= each;
    }
    return array;
}

static inline ref refs_new(mutator *m, size_t n) { return array_of(m, n, 1); }
static inline ref words_new(mutator *m, size_t n) { return array_of(m, n, 0); }
static inline ref refs_at(mutator *m, ref array, size_t n, size_t k) {
    array = chunk_of(m, array, n, &k);
    return heap_ref(m, array, k);
}
static inline uint64_t words_at(mutator *m, ref array, size_t n, size_t k) {
    array = chunk_of(m, array, n, &k);
    return heap_word(m, array, 0, k);
}
static inline void refs_put(mutator *m, const ref *array, size_t n, size_t k, const ref *value) {
    ref *const chunk = push(m, chunk_of(m, *array, n, &k));
    heap_set_ref(m, chunk, k, value);
    m->top = chunk;
}
static inline void words_put(mutator *m, const ref *array, size_t n, size_t k, uint64_t word) {
    ref *const chunk = push(m, chunk_of(m, *array, n, &k));
    heap_set_word(m, chunk, 0, k, word);
    m->top = chunk;
}

#endif
