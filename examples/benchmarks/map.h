/* map.h: a map of chains, 2 << bits of them, with 1 << bits entries: in each step one goes in, the oldest one goes out,
   and two are looked up. An entry: next, value; key. Live: 9 << bits words. */
#ifndef MAP_H
#define MAP_H

static inline size_t hash_of(uint64_t key, int bits) { return (size_t)(key * 0x9e3779b97f4a7c15u >> (64 - bits)); }

/* Numbers that look as if they were drawn. */
static inline uint64_t next_random(uint64_t *state) {
    *state ^= *state << 13;
    *state ^= *state >> 7;
    *state ^= *state << 17;
    return *state;
}

static ref map_find(mutator *m, ref table, int bits, uint64_t key) {
    ref entry = refs_at(m, table, (size_t)1 << bits, hash_of(key, bits));
    while (entry != 0 && heap_word(m, entry, 2, 0) != key) entry = heap_ref(m, entry, 0);
    return entry;
}

static void map_insert(mutator *m, const ref *table, int bits, uint64_t key) {
    const size_t chains = (size_t)1 << bits, chain = hash_of(key, bits);
    ref *const entry = push(m, heap_new(m, 2, 1)), *const value = push(m, heap_new(m, 0, 2));
    ref *const next = push(m, refs_at(m, *table, chains, chain));
    heap_set_word(m, entry, 2, 0, key);
    heap_set_word(m, value, 0, 0, key * 3);
    heap_set_ref(m, entry, 1, value);
    heap_set_ref(m, entry, 0, next);
    refs_put(m, table, chains, chain, entry);
    m->top = entry;
}

/* The key is in the map. */
static void map_remove(mutator *m, const ref *table, int bits, uint64_t key) {
    const size_t chains = (size_t)1 << bits, chain = hash_of(key, bits);
    ref *const before = push(m, 0), *const entry = push(m, refs_at(m, *table, chains, chain));
    while (heap_word(m, *entry, 2, 0) != key) {
        *before = *entry;
        *entry = heap_ref(m, *entry, 0);
    }
    ref *const next = push(m, heap_ref(m, *entry, 0));
    if (*before != 0) heap_set_ref(m, before, 0, next);
    else refs_put(m, table, chains, chain, next);
    if (BY_HAND) {
        heap_free(m, heap_ref(m, *entry, 1));
        heap_free(m, *entry);
    }
    m->top = before;
}

static uint64_t map_churn(mutator *m, int bits) {
    const uint64_t entries = UINT64_C(1) << bits;
    ref *const table = push(m, refs_new(m, (size_t)2 << bits));
    uint64_t sum = 0, state = 88172645463325252u;
    for (uint64_t step = 0; step < 20 * entries; step++) {
        map_insert(m, table, bits + 1, step);
        if (step >= entries) map_remove(m, table, bits + 1, step - entries);
        for (int k = 0; k < 2; k++) {
            const uint64_t back = next_random(&state) % entries;
            const ref found = map_find(m, *table, bits + 1, step > back ? step - back : 0);
            if (found != 0) sum += heap_word(m, heap_ref(m, found, 1), 0, 0);
        }
    }
    m->top = table;
    return sum;
}

#endif
