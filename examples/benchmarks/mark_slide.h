/* mark_slide.h: a plain collector: it marks by a stack, and slides all live objects to the low end in one pass, by a
   bitmap of live words and the count of those before each 64 words, as the Compressor does. It checks nothing. */
#include "plain_marks.h"

static inline void collector_start(size_t budget_words) {
    space.room = budget_words;
    space_moved(zeroed_words(budget_words), 0);
    marks_start(budget_words);
}

static inline void mark(ref object) {
    if (object != 0) mark_at(object - COMPRESSOR_FROM_SPACE);
}

static inline void mark_all(void) {
    EACH_ROOT(root) mark(*root);
    mark_stack();
}

static inline ref forward(ref object) { return object == 0 ? 0 : slid(object - COMPRESSOR_FROM_SPACE); }

static inline uint64_t collect(void) {
    const size_t blocks = (space.used + 63) / 64;
    size_t to = 0;
    mark_all();
    count_blocks(0, blocks);
    EACH_ROOT(root) *root = forward(*root);
    for (size_t k = 0; k < blocks; k++)
        for (uint64_t bits = starts[k]; bits != 0; bits &= bits - 1)
            to += slide_object(64 * k + (size_t)__builtin_ctzll(bits), to);
    memset(starts, 0, blocks * sizeof *starts);
    memset(live, 0, blocks * sizeof *live);
    space_moved(space.words, to);
    return to;
}
