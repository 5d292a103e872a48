/* Marked heaps and plans. */
#include "driver.h"

#include <stdlib.h>

static uint64_t *words_of(const graph *g, uint64_t count) {
    uint64_t *words = (uint64_t *)zeros(count, sizeof *words);
    graph_fill(g, FROM, words);
    return words;
}

/* The image of the heap, into buffers that are too short, and one that is too long. */
static void check_image(const graph *g, compressor_heap *heap, const uint64_t *words, uint64_t count) {
    bytes image = {NULL, 0, 0};
    uint8_t *out;
    image_of(&image, g, words, count);
    out = (uint8_t *)zeros(image.count + 3, 1);
    memset(out, 0xee, image.count + 3);
    ANSWERS(COMPRESSOR_TOO_SHORT, image.count, heap_write, heap, out, one_in(2) ? 0 : image.count - 1);
    for (size_t i = 0; i < image.count + 3; i++) IS(out[i] == 0xee);
    DONE(image.count, heap_write, heap, out, image.count + below(4));
    IS(memcmp(out, image.at, image.count) == 0);
    for (size_t i = 0; i < 3; i++) IS(out[image.count + i] == 0xee);
    free(out);
    free(image.at);
}

/* What is asked of a heap, whose marks are the live objects of the graph. */
void check_heap(const graph *g, compressor_heap *heap, uint64_t word_count) {
    compressor_heap_facts facts;
    uint64_t *words = words_of(g, word_count);
    size_t live;
    free(live_marks(g, &live));
    DONE(0, heap_facts_of, heap, &facts);
    SAME(facts.words, word_count);
    SAME(facts.marked, live);
    SAME(facts.roots, g->root_count);
    SAME(facts.edition, g->edition);
    SAME(facts.unused, 0);
    if (one_in(2)) check_image(g, heap, words, word_count);
    if (one_in(2)) check_judge(g, heap);
    free(words);
}

/* Its image, read again in its place. */
static void read_again(compressor_heap *heap) {
    compressor_answer a;
    uint8_t none[1] = {0}, *out;
    size_t size, cut;
    CALL(a, heap_write, heap, none, 0);
    answers(a, COMPRESSOR_TOO_SHORT, a.value, 0);
    size = a.value;
    out = (uint8_t *)zeros(size + 1, 1);
    DONE(size, heap_write, heap, out, size);
    DROP(heap_drop, heap);
    cut = below(size);
    ANSWERS(COMPRESSOR_IMAGE_TRUNCATED, 0, heap_read, out, cut, heap);
    ANSWERS(COMPRESSOR_IMAGE_TRAILING, 0, heap_read, out, size + 1, heap);
    out[below(8)] ^= 4;
    ANSWERS(COMPRESSOR_IMAGE_BAD_MAGIC, 0, heap_read, out, size, heap);
    memcpy(out, "COMPHEAP", 8);
    DONE(0, heap_read, out, size, heap);
    free(out);
}

void heap_of(graph *g, compressor_heap *heap, uint64_t word_count) {
    const int is_by_marks = one_in(2);
    uint64_t *words = words_of(g, word_count), *roots = root_words(g, FROM);
    graph_trace(g, is_by_marks);
    if (is_by_marks) {
        size_t count;
        uint32_t *marks = live_marks(g, &count);
        DONE(0, heap_by_marks, g->edition, words, word_count, marks, count, roots, g->root_count, heap);
        ANSWERS(COMPRESSOR_NOT_EMPTY, 0, heap_by_marks, g->edition, words, word_count, marks, count, roots,
                g->root_count, heap);
        free(marks);
    } else {
        DONE(0, heap_by_roots, g->edition, words, word_count, roots, g->root_count, heap);
    }
    free(words);
    free(roots);
    check_heap(g, heap, word_count);
    if (one_in(3)) {
        read_again(heap);
        check_heap(g, heap, word_count);
    }
}

/* PLANS */

static void check_pages(const graph *g, compressor_plan *plan, uint64_t pages) {
    uint64_t *words = (uint64_t *)zeros(64 * (pages + 1), sizeof *words), out[64];
    graph_fill(g, TO, words);
    for (uint64_t p = 0; p < pages; p++) {
        if (pages > 40 && !one_in(pages / 20)) continue;
        DONE(0, plan_page, plan, p, out);
        SAME_WORDS(out, words + 64 * p, 64);
    }
    free(words);
    memset(out, 0xee, sizeof out);
    ANSWERS(COMPRESSOR_NO_SUCH_PAGE, pages, plan_page, plan, pages, out);
    ANSWERS(COMPRESSOR_NO_SUCH_PAGE, UINT64_MAX, plan_page, plan, UINT64_MAX, out);
    IS(out[0] == UINT64_C(0xeeeeeeeeeeeeeeee) && out[63] == out[0]);
}

/* The plan of a heap, which goes. Before it the graph has the heap's places and marks, then those of the slide. */
void plan_of(graph *g, compressor_heap *heap, compressor_plan *plan, uint64_t word_count) {
    compressor_plan_facts facts;
    compressor_plan other = COMPRESSOR_EMPTY;
    const uint64_t live = live_words(g), pages = (live + 63) / 64, all = compressor_max_pages(g->edition) - pages;
    uint64_t asked[64], wanted[64], to = 0;
    size_t count = 0;
    DONE(0, heap_plan, heap, plan);
    /* where what begins at some places slides: the sum of the live words before */
    for (; count < 60; count++) {
        const uint64_t place = g->count == 0 || one_in(4) ? below(word_count + 1) : g->objects[below(g->count)].place;
        const object *o = object_at(g, place);
        asked[count] = FROM + place;
        wanted[count] = 0;
        if (o == NULL || !o->is_live) continue;
        to = 0;
        for (size_t i = 0; i < g->count; i++)
            if (g->objects[i].is_live && g->objects[i].place < place) to += g->objects[i].words;
        wanted[count] = TO + to;
    }
    asked[60] = wanted[60] = 0;
    asked[61] = any_word() | COMPRESSOR_IMMEDIATE;
    wanted[61] = g->edition == 4 ? asked[61] : 0;
    asked[62] = FROM + word_count;
    asked[63] = TO;
    wanted[62] = wanted[63] = 0;
    DONE(0, plan_forward, plan, asked, 0);
    DONE(0, plan_forward, plan, asked, 64);
    SAME_WORDS(asked, wanted, 64);

    graph_slide(g);
    DONE(0, plan_facts_of, plan, &facts);
    SAME(facts.live_words, live);
    SAME(facts.pages, pages);
    SAME(facts.most_fresh_pages, all < compressor_max_roots(g->edition) ? all : compressor_max_roots(g->edition));
    SAME(facts.roots, g->root_count);
    SAME(facts.edition, g->edition);
    DONE(0, plan_share, plan, &other);
    ANSWERS(COMPRESSOR_NOT_EMPTY, 1, plan_share, plan, &other);
    if (one_in(2)) {
        DROP(plan_drop, plan);
        DONE(0, plan_share, &other, plan);
    }
    DROP(plan_drop, &other);
    check_pages(g, plan, pages);
}

/* REFUSALS */

#define BY_ROOTS(status, number, edition_, words_, count_, roots_, root_count_) \
    ANSWERS(status, number, heap_by_roots, edition_, words_, count_, roots_, root_count_, heap)
#define BY_MARKS(status, number, marks_, mark_count_) \
    ANSWERS(status, number, heap_by_marks, g->edition, words, count, marks_, mark_count_, roots, g->root_count, heap)

/* The first root or reference that leads to no live object: the answer of a heap with these marks, and whether there is
   one. The objects have rising places. */
static int first_unmarked(const graph *g, uint32_t *status, uint64_t *number) {
    for (size_t k = 0; k < g->root_count; k++)
        if (is_object(g->roots[k]) && !g->objects[g->roots[k] - 1].is_live) {
            *status = COMPRESSOR_BAD_ROOT;
            *number = k;
            return 1;
        }
    for (size_t i = 0; i < g->count; i++)
        for (uint32_t f = 0; g->objects[i].is_live && f < g->objects[i].shape.refs; f++) {
            const value v = g->objects[i].fields[f];
            if (!is_object(v) || g->objects[v - 1].is_live) continue;
            *status = COMPRESSOR_UNMARKED_TARGET;
            *number = g->objects[i].place + 1 + f;
            return 1;
        }
    return 0;
}

static void refused_marks(graph *g, const uint64_t *words, uint64_t count, const uint64_t *roots,
                          compressor_heap *heap) {
    size_t marked;
    uint32_t *marks, status = 0;
    uint64_t number = 0;
    graph_trace(g, 1);
    marks = live_marks(g, &marked);
    if (marked > 0) {
        const size_t i = below(marked);
        marks[marked] = marks[marked - 1];
        BY_MARKS(COMPRESSOR_MARKS_NOT_RISING, marks[marked], marks, marked + 1);
        if (object_at(g, marks[i])->words > 1) {
            marks[i]++;
            BY_MARKS(COMPRESSOR_MARK_NOT_START, marks[i], marks, i + 1);
        }
        free(marks);
        /* one mark is left out */
        marks = live_marks(g, &marked);
        g->objects[object_at(g, marks[i]) - g->objects].is_live = 0;
        free(marks);
        marks = live_marks(g, &marked);
        if (first_unmarked(g, &status, &number)) BY_MARKS(status, number, marks, marked);
    }
    free(marks);
}

/* What is refused of a heap of this graph, whose objects lie side by side. */
void refused_heaps(graph *g, uint64_t count) {
    compressor_heap empty = COMPRESSOR_EMPTY, *heap = &empty;
    uint64_t *words = words_of(g, count), *roots = (uint64_t *)zeros(g->root_count + 1, sizeof *roots);
    const uint64_t astray[] = {FROM + count, TO, 1, FROM - 1, COMPRESSOR_IMMEDIATE - 1, UINT64_MAX};
    const object *last = g->count > 0 ? &g->objects[g->count - 1] : NULL;
    graph_trace(g, 0);
    for (size_t k = 0; k < g->root_count; k++) roots[k] = word_of(g, FROM, g->roots[k]);
    BY_ROOTS(COMPRESSOR_BAD_EDITION, 0, 0, words, count, roots, g->root_count);
    BY_ROOTS(COMPRESSOR_BAD_EDITION, 5, 5, words, count, roots, g->root_count);
    roots[g->root_count] = astray[below(g->edition == 4 ? 5 : 6)];
    BY_ROOTS(COMPRESSOR_BAD_ROOT, g->root_count, g->edition, words, count, roots, g->root_count + 1);
    if (last && last->words > 1) {
        BY_ROOTS(COMPRESSOR_OBJECT_PAST_END, last->place, g->edition, words, count - 1, roots, g->root_count);
        roots[g->root_count] = FROM + last->place + 1;
        BY_ROOTS(COMPRESSOR_BAD_ROOT, g->root_count, g->edition, words, count, roots, g->root_count + 1);
    }
    for (size_t i = 0; i < g->count; i++) {
        const object *o = &g->objects[i];
        uint64_t *word = words + o->place + 1;
        if (!o->is_live || o->shape.refs + o->shape.weak == 0) continue;
        *word = astray[below(g->edition == 4 ? 5 : 6)];
        BY_ROOTS(o->shape.refs > 0 ? COMPRESSOR_UNMARKED_TARGET : COMPRESSOR_BAD_WEAK, o->place + 1, g->edition, words,
                 count, roots, g->root_count);
        *word = word_of(g, FROM, o->fields[0]);
        break;
    }
    refused_marks(g, words, count, roots, heap);
    ANSWERS(COMPRESSOR_EMPTY_HANDLE, 0, heap_write, heap, (uint8_t *)words, 0);
    free(words);
    free(roots);
}
