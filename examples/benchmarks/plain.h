/* plain.h: what the plain collectors read in a header. No object of the programs has weak words. */
#ifndef PLAIN_H
#define PLAIN_H

#include "native.h"

static inline uint64_t refs_of(uint64_t header) {
    const uint64_t form = header >> 62;
    return form == 0 ? header & 0xffff : form == 1 ? header & 0x7fffffff : header >> 31 & 0x1ffff;
}

/* With the header. */
static inline uint64_t words_of(uint64_t header) {
    return 1 + (header >> 62 == 0 ? (header & 0xffff) + (header >> 16 & 0xffff)
                                  : (header & 0x7fffffff) + (header >> 31 & 0x1ffff));
}

#endif
