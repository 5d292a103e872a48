/* rest.h: ours at rest: one call collects within the words of the heap. */
#include "lent.h"

static inline void collector_start(size_t budget_words) { lent_start(budget_words); }

static inline uint64_t collect(void) {
    const size_t count = roots_gather();
    const uint64_t live = done(
        compressor_collect_in_place_lent(&tables, EDITION, space.words, space.used, all_roots, count));
    roots_scatter();
    space_moved(space.words, live);
    return live;
}
