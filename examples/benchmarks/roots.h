/* roots.h: what the back ends of ours at rest share: all roots in one array, and answers. */
#ifndef ROOTS_H
#define ROOTS_H

#include "native.h"

static uint64_t *all_roots;

/* The value of an answer; ends the program if the call was refused. */
static inline uint64_t done(compressor_answer answer) {
    if (answer.status != COMPRESSOR_DONE) die(compressor_status_text(answer.status));
    return answer.value;
}

/* The heap lies in these words, all of which are free. */
static inline void roots_in(uint64_t *words, size_t room) {
    all_roots = zeroed_words(MOST_THREADS * (size_t)MOST_ROOTS);
    space.room = room;
    space_moved(words, 0);
}

/* The roots of all mutators go into the array, and back. */
static inline size_t roots_gather(void) {
    size_t count = 0;
    EACH_ROOT(root) all_roots[count++] = *root;
    return count;
}
static inline void roots_scatter(void) {
    size_t count = 0;
    EACH_ROOT(root) *root = all_roots[count++];
}

#endif
