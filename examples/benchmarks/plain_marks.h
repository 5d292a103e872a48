/* plain_marks.h: what the plain collectors share that slide: a bitmap of marked objects and one of their words, the
   count of live words before each 64 words, and a stack. */
#ifndef PLAIN_MARKS_H
#define PLAIN_MARKS_H

#include "plain.h"

static uint64_t *starts, *live; /* a bit a word: a marked object begins; it is of a marked object */
static uint64_t *before;        /* live words before each block of 64 */
static uint64_t *stack;
static size_t depth, stack_room = 4096;

/* By the collector: marks what a word leads to, if that may move; and where it leads then. */
static inline void mark(ref object);
static inline ref forward(ref object);

static inline void marks_start(size_t room) {
    const size_t blocks = room / 64 + 2;
    starts = zeroed_words(blocks);
    live = zeroed_words(blocks);
    before = zeroed_words(blocks);
    stack = zeroed_words(stack_room);
}

/* Sets the bits of the words from `first` to `last`. */
static inline void set_live(size_t first, size_t last) {
    const uint64_t from = ~UINT64_C(0) << (first % 64), to = ~UINT64_C(0) >> (63 - last % 64);
    if (first / 64 == last / 64) {
        live[first / 64] |= from & to;
        return;
    }
    live[first / 64] |= from;
    for (size_t k = first / 64 + 1; k < last / 64; k++) live[k] = ~UINT64_C(0);
    live[last / 64] |= to;
}

static inline void stack_push(size_t i) {
    if (depth == stack_room) {
        stack_room *= 2;
        stack = realloc(stack, stack_room * sizeof *stack);
        if (!stack) die("no memory");
    }
    stack[depth++] = i;
}

/* Marks the object at this index, and puts it on the stack if it has references. */
static inline void mark_at(size_t i) {
    const uint64_t bit = UINT64_C(1) << (i % 64);
    if (starts[i / 64] & bit) return;
    starts[i / 64] |= bit;
    set_live(i, i + words_of(space.words[i]) - 1);
    if (refs_of(space.words[i]) != 0) stack_push(i);
}

/* Marks what the objects on the stack reach. */
static inline void mark_stack(void) {
    while (depth != 0) {
        const size_t i = stack[--depth], refs = refs_of(space.words[i]);
        for (size_t k = 1; k <= refs; k++) mark(space.words[i + k]);
    }
}

/* Counts the live words before each block from the first one on, before which all words live. */
static inline void count_blocks(size_t first, size_t blocks) {
    uint64_t sum = 64 * (uint64_t)first;
    for (size_t k = first; k < blocks; k++) {
        before[k] = sum;
        sum += (uint64_t)__builtin_popcountll(live[k]);
    }
}

/* Where the word at this index slides. */
static inline ref slid(size_t i) {
    const uint64_t below = live[i / 64] & ((UINT64_C(1) << (i % 64)) - 1);
    return COMPRESSOR_FROM_SPACE + before[i / 64] + (uint64_t)__builtin_popcountll(below);
}

/* Moves the object at index i to index `to`, which is not above i. Answers its words. */
static inline size_t slide_object(size_t i, size_t to) {
    uint64_t *const words = space.words;
    const uint64_t header = words[i], refs = refs_of(header), size = words_of(header);
    size_t k = 1;
    words[to] = header;
    for (; k <= refs; k++) words[to + k] = forward(words[i + k]);
    for (; k < size; k++) words[to + k] = words[i + k];
    return size;
}

#endif
