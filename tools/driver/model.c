/* A graph of objects by number, and the words of a heap that has them. Nothing here calls the library. */
#include "driver.h"

#include <stdlib.h>

int is_object(value v) { return v != 0 && v < COMPRESSOR_IMMEDIATE; }

uint32_t fields_of(const object *o, enum kind kind) {
    return kind == REF ? o->shape.refs : kind == WEAK ? o->shape.weak : o->shape.data;
}
uint64_t offset_of(const object *o, enum kind kind, uint32_t field) {
    return UINT64_C(1) + (kind == REF ? 0 : kind == WEAK ? o->shape.refs : o->shape.refs + o->shape.weak) + field;
}
value *field_of(object *o, enum kind kind, uint32_t field) { return &o->fields[offset_of(o, kind, field) - 1]; }

/* One of the header words that say this shape, which the edition has. */
uint64_t any_header(uint32_t edition, compressor_shape s) {
    const uint64_t r = s.refs, w = s.weak, d = s.data, t = s.tag, few = 1 << 17;
    const int is_mixed = r < 65536 && w < 65536 && d < 65536;
    uint64_t forms[4];
    size_t count = 0;
    if (edition == 1) return r + (d << 16) + (t << 32);
    if (is_mixed) forms[count++] = r + (d << 16) + (w << 32) + (t << 48);
    if (edition > 2 && w == 0 && d < few) forms[count++] = r + (d << 31) + (t << 48) + (UINT64_C(1) << 62);
    if (edition > 2 && w == 0 && r < few) forms[count++] = d + (r << 31) + (t << 48) + (UINT64_C(2) << 62);
    if (edition > 2 && r == 0 && d < few) forms[count++] = w + (d << 31) + (t << 48) + (UINT64_C(3) << 62);
    return forms[is_mixed && !one_in(4) ? 0 : below(count)];
}

/* A shape of at most so many words, at least one. */
compressor_shape any_shape(uint32_t edition, uint32_t most_words) {
    const uint32_t most = one_in(12) ? most_words : most_words < 9 ? most_words : 9;
    compressor_shape s;
    uint32_t left = (uint32_t)below(most);
    s.refs = (uint32_t)below(left + 1);
    left -= s.refs;
    s.weak = edition == 1 || one_in(2) ? 0 : (uint32_t)below(left + 1);
    s.data = left - s.weak;
    s.tag = one_in(8) ? (uint32_t)compressor_max_tag(edition) : (uint32_t)below(compressor_max_tag(edition));
    return s;
}

/* A new object of nulls and zeros, which has no place yet. */
object *graph_add(graph *g, compressor_shape shape) {
    object *o;
    if (g->count == g->room) {
        g->room *= 2;
        g->objects = (object *)realloc(g->objects, g->room * sizeof *g->objects);
        IS(g->objects != NULL);
    }
    o = &g->objects[g->count++];
    memset(o, 0, sizeof *o);
    o->shape = shape;
    o->header = any_header(g->edition, shape);
    o->words = UINT64_C(1) + shape.refs + shape.weak + shape.data;
    o->fields = (value *)zeros(o->words, sizeof *o->fields);
    return o;
}

value any_value(const graph *g) {
    if (g->count == 0 || one_in(6)) return 0;
    if (g->edition == 4 && one_in(6)) return COMPRESSOR_IMMEDIATE | any_word();
    return 1 + below(g->count);
}

void graph_roots(graph *g, size_t count) {
    free(g->roots);
    g->roots = (value *)zeros(count, sizeof *g->roots);
    g->root_count = count;
    for (size_t k = 0; k < count; k++) g->roots[k] = any_value(g);
}

/* A graph of so many objects with places side by side. Editions three and four now and then have one with more fields
   than a mixed header can say. */
void graph_any(graph *g, uint32_t edition, size_t count) {
    memset(g, 0, sizeof *g);
    g->edition = edition;
    g->room = 64;
    g->objects = (object *)zeros(g->room, sizeof *g->objects);
    for (size_t i = 0; i < count; i++) graph_add(g, any_shape(edition, 200));
    if (edition > 2 && one_in(24)) {
        compressor_shape many = {(uint32_t)below(3), 0, (uint32_t)below(3), 5};
        uint32_t *of = one_in(2) ? &many.refs : &many.data;
        if (one_in(3)) of = &many.weak;
        *of = 65536 + (uint32_t)below(3000);
        if (of == &many.weak) many.refs = 0;
        graph_add(g, many);
    }
    for (size_t i = 0; i < g->count; i++) {
        object *o = &g->objects[i];
        for (uint64_t f = 0; f + 1 < o->words; f++)
            o->fields[f] = f < o->shape.refs + o->shape.weak ? any_value(g) : any_word();
    }
    graph_roots(g, 1 + below(6));
    graph_spread(g, 0);
}

void graph_free(graph *g) {
    for (size_t i = 0; i < g->count; i++) free(g->objects[i].fields);
    free(g->objects);
    free(g->roots);
    memset(g, 0, sizeof *g);
}

void graph_spread(graph *g, uint64_t most_gap) {
    uint64_t place = 0;
    for (size_t i = 0; i < g->count; i++) {
        if (most_gap > 0 && one_in(3)) place += below(most_gap + 1);
        g->objects[i].place = place;
        place += g->objects[i].words;
    }
}

uint64_t graph_end(const graph *g) {
    uint64_t end = 0;
    for (size_t i = 0; i < g->count; i++) {
        const uint64_t behind = g->objects[i].place + g->objects[i].words;
        if (behind > end) end = behind;
    }
    return end;
}

const object *object_at(const graph *g, uint64_t place) {
    for (size_t i = 0; i < g->count; i++)
        if (g->objects[i].place == place) return &g->objects[i];
    return NULL;
}

uint64_t word_of(const graph *g, uint64_t space, value v) {
    return is_object(v) ? space + g->objects[v - 1].place : v;
}

/* Writes the words of all objects to their places. */
void graph_fill(const graph *g, uint64_t space, uint64_t *words) {
    for (size_t i = 0; i < g->count; i++) {
        const object *o = &g->objects[i];
        uint64_t *at = words + o->place;
        *at++ = o->header;
        for (uint64_t f = 0; f + 1 < o->words; f++)
            *at++ = f < o->shape.refs + o->shape.weak ? word_of(g, space, o->fields[f]) : o->fields[f];
    }
}

uint64_t *root_words(const graph *g, uint64_t space) {
    uint64_t *words = (uint64_t *)zeros(g->root_count, sizeof *words);
    for (size_t k = 0; k < g->root_count; k++) words[k] = word_of(g, space, g->roots[k]);
    return words;
}

size_t graph_follow(graph *g, value *stack, size_t deep) {
    size_t found = 0;
    while (deep > 0) {
        const object *o = &g->objects[stack[--deep] - 1];
        found++;
        for (uint32_t f = 0; f < o->shape.refs; f++) {
            const value v = o->fields[f];
            if (!is_object(v) || g->objects[v - 1].is_live) continue;
            g->objects[v - 1].is_live = 1;
            stack[deep++] = v;
        }
    }
    return found;
}

size_t graph_follow_root(graph *g, value *stack, value root) {
    if (!is_object(root) || g->objects[root - 1].is_live) return 0;
    g->objects[root - 1].is_live = 1;
    stack[0] = root;
    return graph_follow(g, stack, 1);
}

size_t graph_trace(graph *g, int more) {
    value *stack = (value *)zeros(g->count, sizeof *stack);
    size_t found = 0;
    for (size_t i = 0; i < g->count; i++) g->objects[i].is_live = 0;
    for (size_t k = 0; k < g->root_count + (more ? 5 : 0); k++) {
        const value root = k < g->root_count ? g->roots[k] : any_value(g);
        found += graph_follow_root(g, stack, root);
    }
    free(stack);
    return found;
}

uint64_t live_words(const graph *g) {
    uint64_t words = 0;
    for (size_t i = 0; i < g->count; i++) words += g->objects[i].is_live ? g->objects[i].words : 0;
    return words;
}

static int by_place(const void *a, const void *b) {
    const uint64_t x = ((const object *)a)->place, y = ((const object *)b)->place;
    return (x > y) - (x < y);
}
static int by_number(const void *a, const void *b) {
    const uint32_t x = *(const uint32_t *)a, y = *(const uint32_t *)b;
    return (x > y) - (x < y);
}

uint32_t *live_marks(const graph *g, size_t *count) {
    uint32_t *marks = (uint32_t *)zeros(g->count + 1, sizeof *marks);
    *count = 0;
    for (size_t i = 0; i < g->count; i++)
        if (g->objects[i].is_live) marks[(*count)++] = (uint32_t)g->objects[i].place;
    qsort(marks, *count, sizeof *marks, by_number);
    return marks;
}

void graph_slide(graph *g) {
    value *number = (value *)zeros(g->count, sizeof *number);
    size_t live = 0;
    /* each object carries the number that it had, until all have their new ones */
    for (size_t i = 0; i < g->count; i++) g->objects[i].known = i;
    qsort(g->objects, g->count, sizeof *g->objects, by_place);
    for (size_t i = 0; i < g->count; i++) {
        if (g->objects[i].is_live) {
            number[g->objects[i].known] = live + 1;
            g->objects[live++] = g->objects[i];
        } else {
            free(g->objects[i].fields);
        }
    }
    g->count = live;
    for (size_t i = 0; i < live; i++) {
        object *o = &g->objects[i];
        for (uint32_t f = 0; f < o->shape.refs + o->shape.weak; f++)
            if (is_object(o->fields[f])) o->fields[f] = number[o->fields[f] - 1];
        o->known = ~UINT64_C(0);
    }
    for (size_t k = 0; k < g->root_count; k++)
        if (is_object(g->roots[k])) g->roots[k] = number[g->roots[k] - 1];
    free(number);
    graph_spread(g, 0);
}
