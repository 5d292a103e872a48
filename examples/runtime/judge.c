/* judge.c: with -DJUDGED each collection at rest is judged, as that of any other collector would be.

   Before the slide the words are copied into a heap of the library's, which marks what the roots reach, by another call
   than that of the collection. What ephemerons and guards hold are roots more. After the slide words and roots are
   written down as a moved heap (docs/FORMATS.md), whose objects lie side by side, and the judge compares the two. */
#include "collector.h"

#ifdef JUDGED

#include <stdlib.h>
#include <string.h>

static struct {
    compressor_heap heap;
    uint64_t *after; /* what ephemerons and guards hold, as it is after the slide */
    size_t held;
    char fault[80];
} judge;

static void *room_for(uint64_t count) {
    void *room = calloc(count + 1, sizeof(uint64_t));
    if (!room) abort();
    return room;
}

static const char *fault_of(const char *what, compressor_answer a) {
    if (a.status == COMPRESSOR_DONE) return NULL;
    snprintf(judge.fault, sizeof judge.fault, "Judged(%s: %s, %llu, %u)", what, compressor_status_text(a.status),
             (unsigned long long)a.value, a.other);
    return judge.fault;
}

const char *heap_judge_before(const uint64_t *words, uint64_t used, compressor_survey *weak) {
    const size_t most = heap.root_count + (weak ? heap_weak_roots(NULL, NULL, NULL) : 0);
    uint64_t *roots = (uint64_t *)room_for(most);
    compressor_answer a;
    judge.after = (uint64_t *)room_for(most);
    judge.held = weak ? heap_weak_roots(weak, roots + heap.root_count, judge.after) : 0;
    memcpy(roots, heap.roots, heap.root_count * sizeof *roots);
    a = compressor_heap_by_roots(EDITION, words, used, roots, heap.root_count + judge.held, &judge.heap);
    free(roots);
    return fault_of("before", a);
}

/* A moved heap, as its bytes are written down one after another. */
typedef struct moved {
    uint8_t *bytes;
    size_t length;
} moved;

static void put(moved *m, uint64_t number, size_t bytes) {
    memcpy(m->bytes + m->length, &number, bytes);
    m->length += bytes;
}

/* A root, a reference or a weak word, as an address of to-space. */
static void put_value(moved *m, uint64_t value) {
    put(m, value + (compressor_is_reference(value) ? COMPRESSOR_TO_SPACE - COMPRESSOR_FROM_SPACE : 0), 8);
}

/* The objects lie side by side: where each begins, but no more of them than were marked. */
static void put_places(moved *m, const uint64_t *words, uint64_t live, uint64_t objects) {
    uint64_t i, k;
    for (i = 0, k = 0; k < objects; k++) {
        put(m, i, 4);
        if (i < live) i += compressor_shape_words(compressor_shape_of(EDITION, words[i]));
    }
}

static void put_words(moved *m, const uint64_t *words, uint64_t live) {
    uint64_t i, end, values;
    for (i = 0; i < live;) {
        const compressor_shape shape = compressor_shape_of(EDITION, words[i]);
        end = i + compressor_shape_words(shape), values = i + shape.refs + shape.weak;
        for (put(m, words[i++], 8); i < end && i < live; i++)
            if (i <= values) put_value(m, words[i]);
            else put(m, words[i], 8);
    }
}

const char *heap_judge_after(const uint64_t *words, uint64_t live) {
    const uint64_t roots = heap.root_count + judge.held;
    compressor_heap_facts facts;
    compressor_answer a = compressor_heap_facts_of(&judge.heap, &facts);
    moved m = {NULL, 0};
    size_t k;
    m.bytes = (uint8_t *)room_for(3 + facts.marked + roots + live);
    memcpy(m.bytes, "COMPMOVE", 8);
    m.length = 8;
    put(&m, EDITION, 4);
    put(&m, facts.marked, 4);
    put(&m, roots, 4);
    put(&m, live, 4);
    put_places(&m, words, live, facts.marked);
    for (k = 0; k < heap.root_count; k++) put_value(&m, heap.roots[k]);
    for (k = 0; k < judge.held; k++) put_value(&m, judge.after[k]);
    put_words(&m, words, live);
    a = compressor_heap_judge(&judge.heap, m.bytes, m.length);
    if (a.status == COMPRESSOR_DONE && a.value != live) a.status = COMPRESSOR_WRONG_TOTAL;
    compressor_heap_drop(&judge.heap);
    free(judge.after);
    free(m.bytes);
    return fault_of("after", a);
}

#else
typedef int nothing_is_judged; /* a file of C declares something */
#endif
