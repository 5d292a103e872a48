/* cards.h: what the back ends share that collect what is young. Old are the words below a watermark, which the last
   collection left. Each store of a reference marks the card of its word: a byte for each 64 words. Between two
   collections NURSERY_WORDS are made, if that is defined and there is room for them; else all for which there is. */
#ifndef CARDS_H
#define CARDS_H

#define LOAD(object, k) compressor_load(&space, object, k)
#define STORE(object, k, value) store_carded(object, k, value)
#define STORE_DATA(object, k, word) compressor_store(&space, object, k, word)
#define BEFORE_CHUNK(m) collect_if_due()

static inline void store_carded(uint64_t object, uint64_t k, uint64_t value);
static inline void collect_if_due(void);

#include "native.h"

#ifndef NURSERY_WORDS
#define NURSERY_WORDS UINT64_MAX
#endif

static uint8_t *cards;
static uint64_t left; /* words, by the last collection */

static inline void store_carded(uint64_t object, uint64_t k, uint64_t value) {
    compressor_store_card(&space, cards, object, k, value);
}
static inline void collect_if_due(void) {
    if (compressor_space_due(&space)) world_stop();
}

/* After each collection, which left so many words. */
static inline void nursery_begin(uint64_t words) {
    left = words;
    space_moved(space.words, words);
    space.limit = NURSERY_WORDS < space.room - words ? words + NURSERY_WORDS : space.room;
}
static inline void cards_start(void) {
    cards = (uint8_t *)zeroed_words(compressor_cards_of(space.room) / sizeof(uint64_t) + 1);
    nursery_begin(0);
}

/* Nothing was made since the last collection: what that left was too much. */
static inline int was_not_enough(void) { return space.used == left; }

#endif
