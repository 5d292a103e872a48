/* lent.h: what the back ends of ours at rest share that collect by tables which are kept. */
#ifndef LENT_H
#define LENT_H

#include "roots.h"

static compressor_tables tables;

static inline void lent_in(uint64_t *words, size_t room) {
    done(compressor_tables_reserve(room, &tables));
    roots_in(words, room);
}
static inline void lent_start(size_t room) { lent_in(zeroed_words(room), room); }

#endif
