/* copying.h: a plain copying collector of two half spaces. Half of the budget is its reserve. It checks nothing. */
#include "plain.h"

static uint64_t *other;
static const uint64_t MOVED = UINT64_C(3) << 62; /* no object here has a header of this form: it leads to the copy */

static inline void collector_start(size_t budget_words) {
    space.room = budget_words / 2;
    space_moved(zeroed_words(space.room), 0);
    other = zeroed_words(space.room);
}

static inline ref copy(ref object, size_t *to) {
    if (object == 0) return 0;
    uint64_t *const from = compressor_at(&space, object), header = *from;
    if (header >= MOVED) return header - MOVED;
    const uint64_t size = words_of(header);
    const ref copied = COMPRESSOR_FROM_SPACE + *to;
    memcpy(other + *to, from, size * sizeof *from);
    *to += size;
    *from = MOVED + copied;
    return copied;
}

static inline uint64_t collect(void) {
    uint64_t *const was = space.words;
    size_t to = 0, at = 0;
    EACH_ROOT(root) *root = copy(*root, &to);
    while (at < to) {
        const uint64_t header = other[at], refs = refs_of(header);
        for (uint64_t k = 1; k <= refs; k++) other[at + k] = copy(other[at + k], &to);
        at += words_of(header);
    }
    space_moved(other, to);
    other = was;
    return to;
}
