/* The bytes of files, by docs/FORMATS.md. */
#include "driver.h"

#include <stdlib.h>

static void put(bytes *b, uint64_t n, size_t count) {
    if (b->room < b->count + 8) {
        b->room = 2 * b->room + 256;
        b->at = (uint8_t *)realloc(b->at, b->room);
        IS(b->at != NULL);
    }
    for (size_t i = 0; i < count; i++) b->at[b->count++] = (uint8_t)(n >> 8 * i);
}
void put4(bytes *b, uint64_t n) { put(b, n, 4); }
void put8(bytes *b, uint64_t n) { put(b, n, 8); }
void put_words(bytes *b, const uint64_t *words, size_t count) {
    for (size_t i = 0; i < count; i++) put8(b, words[i]);
}
void put_magic(bytes *b, const char *magic, uint32_t edition) {
    for (int i = 0; i < 8; i++) put(b, (uint8_t)magic[i], 1);
    put4(b, edition);
}

/* The image of a heap of these words, whose live objects are marked. */
void image_of(bytes *b, const graph *g, const uint64_t *words, size_t word_count) {
    size_t count;
    uint32_t *marks = live_marks(g, &count);
    uint64_t *roots = root_words(g, FROM);
    put_magic(b, "COMPHEAP", g->edition);
    put4(b, word_count);
    put4(b, count);
    put4(b, g->root_count);
    put_words(b, words, word_count);
    for (size_t i = 0; i < count; i++) put4(b, marks[i]);
    put_words(b, roots, g->root_count);
    free(marks);
    free(roots);
}

/* The file of words of a graph whose objects are all live, and slid. */
void words_file_of(bytes *b, const graph *g) {
    const uint64_t count = graph_end(g);
    uint64_t *words = (uint64_t *)zeros(count, sizeof *words), *roots = root_words(g, TO);
    graph_fill(g, TO, words);
    put_magic(b, "COMPWORD", g->edition);
    put4(b, count);
    put4(b, g->root_count);
    put_words(b, roots, g->root_count);
    put_words(b, words, count);
    free(words);
    free(roots);
}

/* What a collector leaves that puts the live objects anywhere: from the last one to the first, with gaps. Weak words to
   others are null. */
uint64_t moved_of(bytes *b, const graph *g, uint64_t *file_words) {
    graph moved = *g;
    uint64_t place = below(5), count, *words, *roots, moved_words = 0;
    size_t live = 0;
    moved.objects = (object *)zeros(g->count, sizeof *moved.objects);
    for (size_t i = 0; i < g->count; i++) moved.objects[i] = g->objects[i];
    for (size_t i = g->count; i-- > 0;) {
        if (!g->objects[i].is_live) continue;
        moved.objects[i].place = place;
        place += g->objects[i].words + below(3);
        moved_words += g->objects[i].words;
        live++;
    }
    *file_words = count = place + below(3);
    words = (uint64_t *)zeros(count, sizeof *words);
    for (uint64_t i = 0; i < count; i++) words[i] = any_word();
    for (size_t i = 0; i < g->count; i++) {
        const object *o = &moved.objects[i];
        if (!o->is_live) continue;
        words[o->place] = o->header;
        for (uint64_t f = 0; f + 1 < o->words; f++) {
            const value v = o->fields[f];
            uint64_t *word = words + o->place + 1 + f;
            if (f >= o->shape.refs + o->shape.weak) *word = v;
            else *word = is_object(v) && !moved.objects[v - 1].is_live ? 0 : word_of(&moved, TO, v);
        }
    }
    roots = root_words(&moved, TO);
    put_magic(b, "COMPMOVE", g->edition);
    put4(b, live);
    put4(b, g->root_count);
    put4(b, count);
    /* the marks are in the order of the old places */
    {
        size_t marked;
        uint32_t *marks = live_marks(g, &marked);
        for (size_t i = 0; i < marked; i++) put4(b, moved.objects[object_at(g, marks[i]) - g->objects].place);
        free(marks);
    }
    put_words(b, roots, g->root_count);
    put_words(b, words, count);
    free(moved.objects);
    free(words);
    free(roots);
    return moved_words;
}
