/* What another collector left of a marked heap, judged as it is and with changes. */
#include "driver.h"

#include <stdlib.h>

/* A moved heap: its bytes, and where its fields are in them. */
typedef struct moved {
    const graph *g;
    bytes b;
    size_t objects, roots, words; /* how many, from the first place, root and word on */
    size_t root_at, word_at;
} moved;

enum { PLACES_AT = 24 };

static uint32_t place_of(const moved *m, size_t k) {
    const uint8_t *at = m->b.at + PLACES_AT + 4 * k;
    return at[0] | (uint32_t)at[1] << 8 | (uint32_t)at[2] << 16 | (uint32_t)at[3] << 24;
}
static void put_place(moved *m, size_t k, uint64_t place) {
    for (int i = 0; i < 4; i++) m->b.at[PLACES_AT + 4 * k + i] = (uint8_t)(place >> 8 * i);
}

#define JUDGED(status, number, other)                                                        \
    do {                                                                                     \
        compressor_answer a_;                                                                \
        CALL(a_, heap_judge, heap, m->b.at, m->b.count);                                     \
        answers(a_, status, number, other);                                                  \
    } while (0)

static void changed(moved *m, compressor_heap *heap, const uint32_t *marks) {
    const size_t k = below(m->objects), l = below(m->objects), r = below(m->roots + 1);
    const uint64_t words = object_at(m->g, marks[k])->words, word = below(words);
    const uint32_t was = place_of(m, k);
    uint8_t *byte = m->b.at + m->word_at + 8 * (was + word) + below(8);
    if (r < m->roots) {
        m->b.at[m->root_at + 8 * r] ^= 1;
        JUDGED(COMPRESSOR_MOVED_WRONG_ROOT, r, 0);
        m->b.at[m->root_at + 8 * r] ^= 1;
    }
    *byte ^= 8;
    JUDGED(COMPRESSOR_MOVED_WRONG_WORD, k, (uint32_t)word);
    *byte ^= 8;
    put_place(m, k, m->words - words + 1);
    JUDGED(COMPRESSOR_MOVED_PLACE_OUTSIDE, k, 0);
    if (k != l && place_of(m, l) + words <= m->words) {
        put_place(m, k, place_of(m, l));
        JUDGED(COMPRESSOR_MOVED_OVERLAP, k < l ? k : l, (uint32_t)(k < l ? l : k));
    }
    put_place(m, k, was);
}

void check_judge(const graph *g, compressor_heap *heap) {
    moved all = {g, {NULL, 0, 0}, 0, g->root_count, 0, 0, 0}, *m = &all;
    uint64_t file_words;
    const uint64_t count = moved_of(&m->b, g, &file_words);
    uint32_t *marks = live_marks(g, &m->objects);
    m->words = file_words;
    m->root_at = PLACES_AT + 4 * m->objects;
    m->word_at = m->root_at + 8 * m->roots;
    JUDGED(COMPRESSOR_DONE, count, 0);
    if (m->objects > 0) changed(m, heap, marks);
    JUDGED(COMPRESSOR_DONE, count, 0);
    ANSWERS(COMPRESSOR_FILE_TRUNCATED, 0, heap_judge, heap, m->b.at, below(m->b.count));
    put4(&m->b, 0);
    m->b.count -= below(4);
    JUDGED(COMPRESSOR_FILE_TRAILING, 0, 0);
    m->b.count = m->word_at + 8 * m->words;
    m->b.at[3] ^= 1;
    JUDGED(COMPRESSOR_FILE_BAD_MAGIC, 0, 0);
    m->b.at[3] ^= 1;
    m->b.at[8] = (uint8_t)(1 + g->edition % 4);
    JUDGED(COMPRESSOR_MOVED_WRONG_HEAD, 0, 0);
    free(m->b.at);
    free(marks);
}
