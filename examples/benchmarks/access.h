/* access.h: reads and writes of what lives long; nothing is collected. */
#ifndef ACCESS_H
#define ACCESS_H

enum { GRID_ROUNDS = 40 };

/* Each word of the row becomes the mean of its four neighbours. */
static void grid_row(mutator *m, const ref *rows, size_t n, size_t y) {
    ref *const up = push(m, refs_at(m, *rows, n, y - 1)), *const row = push(m, refs_at(m, *rows, n, y));
    ref *const down = push(m, refs_at(m, *rows, n, y + 1));
    for (size_t x = 1; x < n - 1; x++) {
        const uint64_t sum = words_at(m, *up, n, x) + words_at(m, *down, n, x) + words_at(m, *row, n, x - 1) +
                             words_at(m, *row, n, x + 1);
        words_put(m, row, n, x, sum / 4);
    }
    m->top = up;
}

/* Four reads a write: a square of so many words a side. Live: its words, and as many again. */
static uint64_t grid(mutator *m, int side) {
    const size_t n = (size_t)side;
    ref *const rows = push(m, refs_new(m, n));
    uint64_t sum = 0;
    for (size_t y = 0; y < n; y++) {
        ref *const row = push(m, words_new(m, n));
        for (size_t x = 0; x < n; x++) words_put(m, row, n, x, x * y);
        refs_put(m, rows, n, y, row);
        m->top = row;
    }
    for (int round = 0; round < GRID_ROUNDS; round++)
        for (size_t y = 1; y < n - 1; y++) grid_row(m, rows, n, y);
    for (size_t y = 0; y < n; y++) {
        const ref row = refs_at(m, *rows, n, y);
        sum += words_at(m, row, n, y);
        if (BY_HAND) heap_free(m, row);
    }
    if (BY_HAND) heap_free(m, *rows);
    m->top = rows;
    return sum;
}

/* A write a read: so many of each, of one word. */
static uint64_t counter(mutator *m, int writes) {
    ref *const object = push(m, heap_new(m, 1, 4));
    for (int k = 0; k < writes; k++) heap_set_word(m, object, 1, 2, heap_word(m, *object, 1, 2) + 3);
    const uint64_t sum = heap_word(m, *object, 1, 2);
    if (BY_HAND) heap_free(m, *object);
    m->top = object;
    return sum;
}

#endif
