/* young.h: ours at rest: what is young is collected, by cards, and all now and then. With BY_AGE an object is old once it
   has survived two collections, and else after one. */
#include "cards.h"
#include "roots.h"

#ifdef BY_AGE
static const enum compressor_ages of_young = COMPRESSOR_AGING;
#else
static const enum compressor_ages of_young = COMPRESSOR_YOUNG;
#endif

static compressor_old old;

static inline void collector_start(size_t budget_words) {
    done(compressor_old_reserve(budget_words, &old));
    roots_in(zeroed_words(budget_words), budget_words);
    cards_start();
}

static inline uint64_t collect(void) {
    const size_t count = roots_gather();
    collected_all = was_not_enough() || compressor_space_wants_all(&space, &old, cards, 0);
    const enum compressor_ages ages = collected_all ? COMPRESSOR_ALL : of_young;
    const uint64_t words = done(compressor_space_collect(&space, &old, ages, cards, all_roots, count));
    roots_scatter();
    nursery_begin(words);
    return words;
}
