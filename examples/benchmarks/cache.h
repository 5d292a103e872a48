/* cache.h: a cache of 1 << bits entries, from which the least recently used goes. An entry: before, after, next of its
   chain, payload; key. The ring of entries begins and ends at one that is never found. Live: 32 << bits words. */
#ifndef CACHE_H
#define CACHE_H

#include "map.h"

enum { BEFORE, AFTER, CHAIN, PAYLOAD, CACHE_REFS };

typedef struct cache {
    const ref *index, *ring;
    int bits;
    uint64_t count;
} cache;

static void ring_put_first(mutator *m, const ref *ring, const ref *entry) {
    ref *const first = push(m, heap_ref(m, *ring, AFTER));
    heap_set_ref(m, entry, BEFORE, ring);
    heap_set_ref(m, entry, AFTER, first);
    heap_set_ref(m, first, BEFORE, entry);
    heap_set_ref(m, ring, AFTER, entry);
    m->top = first;
}

static void ring_take_out(mutator *m, const ref *entry) {
    ref *const before = push(m, heap_ref(m, *entry, BEFORE)), *const after = push(m, heap_ref(m, *entry, AFTER));
    heap_set_ref(m, before, AFTER, after);
    heap_set_ref(m, after, BEFORE, before);
    m->top = before;
}

static void cache_drop_last(mutator *m, const cache *c) {
    const size_t chains = (size_t)1 << c->bits;
    ref *const last = push(m, heap_ref(m, *c->ring, BEFORE)), *const before = push(m, 0);
    const size_t chain = hash_of(heap_word(m, *last, CACHE_REFS, 0), c->bits);
    ring_take_out(m, last);
    ref *const at = push(m, refs_at(m, *c->index, chains, chain));
    while (*at != *last) {
        *before = *at;
        *at = heap_ref(m, *at, CHAIN);
    }
    ref *const next = push(m, heap_ref(m, *at, CHAIN));
    if (*before != 0) heap_set_ref(m, before, CHAIN, next);
    else refs_put(m, c->index, chains, chain, next);
    if (BY_HAND) {
        heap_free(m, heap_ref(m, *last, PAYLOAD));
        heap_free(m, *last);
    }
    m->top = last;
}

static void cache_add(mutator *m, const cache *c, uint64_t key, size_t payload) {
    const size_t chains = (size_t)1 << c->bits, chain = hash_of(key, c->bits);
    ref *const entry = push(m, heap_new(m, CACHE_REFS, 1)), *const value = push(m, heap_new(m, 0, payload));
    ref *const next = push(m, refs_at(m, *c->index, chains, chain));
    heap_set_word(m, value, 0, 0, key);
    heap_set_word(m, entry, CACHE_REFS, 0, key);
    heap_set_ref(m, entry, PAYLOAD, value);
    heap_set_ref(m, entry, CHAIN, next);
    refs_put(m, c->index, chains, chain, entry);
    ring_put_first(m, c->ring, entry);
    m->top = entry;
}

/* What is in the entry of the key; 0 if it was not there, and then it is. */
static uint64_t cache_use(mutator *m, cache *c, uint64_t key, size_t payload) {
    ref *const entry = push(m, refs_at(m, *c->index, (size_t)1 << c->bits, hash_of(key, c->bits)));
    uint64_t found = 0;
    while (*entry != 0 && heap_word(m, *entry, CACHE_REFS, 0) != key) *entry = heap_ref(m, *entry, CHAIN);
    if (*entry != 0) {
        found = heap_word(m, heap_ref(m, *entry, PAYLOAD), 0, 0);
        ring_take_out(m, entry);
        ring_put_first(m, c->ring, entry);
    } else {
        if (c->count >> c->bits != 0) cache_drop_last(m, c);
        else c->count++;
        cache_add(m, c, key, payload);
    }
    m->top = entry;
    return found;
}

static uint64_t lru_cache(mutator *m, int bits) {
    ref *const index = push(m, refs_new(m, (size_t)1 << bits)), *const ring = push(m, heap_new(m, CACHE_REFS, 1));
    cache c = {index, ring, bits, 0};
    uint64_t sum = 0, state = 88172645463325252u;
    heap_set_ref(m, ring, BEFORE, ring);
    heap_set_ref(m, ring, AFTER, ring);
    for (long step = 0; step < 30L << bits; step++) {
        const uint64_t r = next_random(&state), key = (r % (UINT64_C(4) << bits)) * (r >> 32 & 1023) >> 10;
        sum += cache_use(m, &c, key, 8 + (r >> 48 & 31)); /* small keys more often */
    }
    m->top = index;
    return sum;
}

#endif
