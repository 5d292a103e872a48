/* rest_copy.h: ours at rest: one call slides what is live into another memory, which is half of the budget. */
#include "lent.h"

static uint64_t *other;

static inline void collector_start(size_t budget_words) {
    lent_start(budget_words / 2);
    other = zeroed_words(budget_words / 2);
}

static inline uint64_t collect(void) {
    uint64_t *const was = space.words;
    const size_t count = roots_gather();
    const uint64_t live = done(compressor_collect_lent(&tables, EDITION, was, space.used, all_roots, count, other,
                                                       space.room));
    roots_scatter();
    space_moved(other, live);
    other = was;
    return live;
}
