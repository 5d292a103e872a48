/* pinned.h: ours at rest, around pins. The stacks of roots are read as stacks of C are: what their words may mean stays
   where it is, and the others slide. */
#include "roots.h"

enum { MOST_PINS = 1 << 20 };

static uint64_t *pins, *runs;

static inline void collector_start(size_t budget_words) {
    pins = zeroed_words(MOST_PINS);
    runs = zeroed_words(2 * (size_t)MOST_PINS);
    roots_in(zeroed_words(budget_words), budget_words);
    compressor_starts_in(&space, (unsigned char *)zeroed_words(budget_words / 512 + 1));
}

static inline uint64_t collect(void) {
    size_t count = 0;
    for (int k = 0; k < mutator_count; k++) {
        count += compressor_ambiguous(&space, mutators[k].roots, mutators[k].top, pins + count, MOST_PINS - count);
        if (count > MOST_PINS) die("too many pins");
    }
    const uint64_t live =
        done(compressor_space_collect_pinned(&space, NULL, 0, pins, count, runs, 2 * (size_t)MOST_PINS));
    for (int k = 0; k < mutator_count; k++) compressor_buffer_empty(&mutators[k].buffer);
    return live;
}
