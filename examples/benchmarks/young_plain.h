/* young_plain.h: a plain collector of what is young: all words below the watermark stay, and what lives above slides
   down to it, as in mark_slide.h. Old words that lead above are found by the marked cards. It checks nothing. */
#include "cards.h"
#include "plain_marks.h"

static size_t old;       /* the watermark */
static uint64_t *fields; /* indices of the old words that lead above */
static size_t field_count, field_room = 4096;

static inline void collector_start(size_t budget_words) {
    marks_start(budget_words);
    fields = zeroed_words(field_room);
    space.room = budget_words;
    space_moved(zeroed_words(budget_words), 0);
    cards_start();
}

static inline int is_above(ref object) { return object >= COMPRESSOR_FROM_SPACE + old; } /* null is below */

static inline void remember(size_t j) {
    if (!is_above(space.words[j])) return;
    if (field_count == field_room) {
        field_room *= 2;
        fields = realloc(fields, field_room * sizeof *fields);
        if (!fields) die("no memory");
    }
    fields[field_count++] = j;
}

/* The start of the old object that has word i. */
static inline size_t start_of(size_t i) {
    size_t block = i / 64;
    uint64_t bits = starts[block] & (~UINT64_C(0) >> (63 - i % 64));
    while (bits == 0) bits = starts[--block];
    return 64 * block + 63 - (size_t)__builtin_clzll(bits);
}

static inline void remember_card(size_t first, size_t end) {
    for (size_t i = start_of(first); i < end; i += words_of(space.words[i])) {
        const size_t last = i + 1 + refs_of(space.words[i]), stop = last < end ? last : end;
        for (size_t j = i + 1 > first ? i + 1 : first; j < stop; j++) remember(j);
    }
}

static inline void remember_all(void) {
    field_count = 0;
    for (size_t first = 0; first < old; first += 64)
        if (cards[first / 64]) remember_card(first, first + 64 < old ? first + 64 : old);
}

static inline void mark(ref object) {
    if (is_above(object)) mark_at(object - COMPRESSOR_FROM_SPACE);
}

static inline void mark_all(void) {
    EACH_ROOT(root) mark(*root);
    for (size_t k = 0; k < field_count; k++) mark(space.words[fields[k]]);
    mark_stack();
}

static inline ref forward(ref object) { return is_above(object) ? slid(object - COMPRESSOR_FROM_SPACE) : object; }

/* Slides what is marked above; answers the end of it. */
static inline size_t slide_all(size_t blocks) {
    size_t to = old;
    for (size_t k = old / 64; k < blocks; k++) {
        uint64_t bits = starts[k];
        if (k == old / 64) bits &= ~UINT64_C(0) << (old % 64);
        for (; bits != 0; bits &= bits - 1) to += slide_object(64 * k + (size_t)__builtin_ctzll(bits), to);
    }
    return to;
}

/* From the watermark on the bits of one array are 0 then, of words that were used. */
static inline void clear_above(uint64_t *bits, size_t blocks) {
    const size_t first = old / 64;
    bits[first] &= (UINT64_C(1) << (old % 64)) - 1;
    if (blocks > first + 1) memset(bits + first + 1, 0, (blocks - first - 1) * sizeof *bits);
}

/* As compressor_space_wants_all. */
static inline int wants_all(void) {
    const size_t count = compressor_cards_of(old);
    size_t dirty = 0;
    for (size_t k = 0; k < count; k++) dirty += cards[k] != 0;
    return old > space.room / 2 || dirty > count / 10;
}

static inline uint64_t collect(void) {
    const size_t blocks = (space.used + 63) / 64;
    collected_all = was_not_enough() || wants_all();
    if (collected_all) old = 0;
    clear_above(starts, blocks);
    clear_above(live, blocks);
    live[old / 64] |= (UINT64_C(1) << (old % 64)) - 1;
    remember_all();
    mark_all();
    count_blocks(old / 64, blocks);
    EACH_ROOT(root) *root = forward(*root);
    for (size_t k = 0; k < field_count; k++) space.words[fields[k]] = forward(space.words[fields[k]]);
    const size_t to = slide_all(blocks);
    clear_above(starts, blocks);
    for (size_t i = old; i < to; i += words_of(space.words[i])) starts[i / 64] |= UINT64_C(1) << (i % 64);
    old = to;
    memset(cards, 0, compressor_cards_of(space.used));
    nursery_begin(to);
    return to;
}
