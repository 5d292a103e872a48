/* A heap at rest is collected around pinned objects: they stay, and the others slide down to the one before them. */
#include "driver.h"

#include <stdlib.h>

/* What the collection is handed, and what it has to leave. */
typedef struct around {
    graph *g;
    uint64_t *words, count;
    uint64_t *roots, *pins;
    uint64_t *numbers; /* of the graph's roots that are no pins */
    size_t root_count, pin_count;
    uint64_t *places; /* of the live objects before, by rising places */
    uint64_t *runs;   /* the free runs afterwards */
    uint64_t run_count, end;
} around;

static int by_number(const void *one, const void *other) {
    const uint64_t a = *(const uint64_t *)one, b = *(const uint64_t *)other;
    return a < b ? -1 : a > b;
}
static int is_pinned(const around *c, uint64_t place) {
    for (size_t k = 0; k < c->pin_count; k++)
        if (c->pins[k] == FROM + place) return 1;
    return 0;
}

/* Some roots are pins, which keep what only they reach. So are some objects that live anyway, and some of them twice. */
static void choose(around *c) {
    const uint64_t often = 1 + below(4);
    uint64_t *roots = root_words(c->g, FROM);
    size_t live = 0;
    c->roots = (uint64_t *)zeros(c->g->root_count, sizeof *c->roots);
    c->numbers = (uint64_t *)zeros(c->g->root_count, sizeof *c->numbers);
    c->pins = (uint64_t *)zeros(2 * (c->g->root_count + c->g->count) + 1, sizeof *c->pins);
    c->places = (uint64_t *)zeros(c->g->count, sizeof *c->places);
    for (size_t k = 0; k < c->g->root_count; k++) {
        if (is_object(c->g->roots[k]) && one_in(2)) {
            c->pins[c->pin_count++] = roots[k];
        } else {
            c->numbers[c->root_count] = k;
            c->roots[c->root_count++] = roots[k];
        }
    }
    for (size_t i = 0; i < c->g->count; i++) {
        const object *o = &c->g->objects[i];
        if (!o->is_live) continue;
        c->places[live++] = o->place;
        for (int times = 0; times < 2; times++)
            if (one_in(10 * often)) c->pins[c->pin_count++] = FROM + o->place;
    }
    qsort(c->places, live, sizeof *c->places, by_number);
    free(roots);
}

/* The graph is that of afterwards. */
static void settle(around *c) {
    graph_slide(c->g);
    c->runs = (uint64_t *)zeros(2 * c->g->count, sizeof *c->runs);
    for (size_t i = 0; i < c->g->count; i++) {
        object *o = &c->g->objects[i];
        o->place = is_pinned(c, c->places[i]) ? c->places[i] : c->end;
        if (o->place > c->end) {
            c->runs[2 * c->run_count] = c->end;
            c->runs[2 * c->run_count++ + 1] = o->place;
        }
        c->end = o->place + o->words;
    }
}

#define AROUND c->words, c->count, c->roots, c->root_count

static void refuse(around *c) {
    const uint32_t edition = c->g->edition, bad = one_in(2) ? 0 : 5 + (uint32_t)below(100);
    const uint64_t astray[] = {0, 1, FROM - 1, FROM + c->count, TO, UINT64_MAX};
    uint64_t *words = copy_of(c->words, c->count), *roots = copy_of(c->roots, c->root_count);
    uint64_t runs[2] = {7, 8}, run_count = 9;
    ANSWERS(COMPRESSOR_BAD_EDITION, bad, collect_pinned, bad, AROUND, c->pins, c->pin_count, runs, 2, &run_count);
    c->pins[c->pin_count] = astray[below(6)];
    ANSWERS(COMPRESSOR_BAD_PIN, c->pin_count, collect_pinned, edition, AROUND, c->pins, c->pin_count + 1, runs, 2,
            &run_count);
    c->pins[c->pin_count] = 0;
    if (c->run_count == 1)
        ANSWERS(COMPRESSOR_TOO_SHORT, 1, collect_pinned, edition, AROUND, c->pins, c->pin_count, runs, below(2),
                &run_count);
    if (c->run_count > 1)
        ANSWERS(COMPRESSOR_TOO_SHORT, c->run_count, collect_pinned, edition, AROUND, c->pins, c->pin_count, runs, 2,
                &run_count);
    IS(runs[0] == 7 && runs[1] == 8 && run_count == 9);
    SAME_WORDS(c->words, words, c->count);
    SAME_WORDS(c->roots, roots, c->root_count);
    free(words);
    free(roots);
}

/* The words between the objects are those that a walk needs; in a run of editions three and four the others are any. */
static void ask(around *c, uint64_t *wanted) {
    graph_fill(c->g, FROM, wanted);
    for (uint64_t k = 0; k < c->run_count; k++) {
        const uint64_t start = c->runs[2 * k], end = c->runs[2 * k + 1];
        for (uint64_t i = start; i < end; i++) wanted[i] = c->g->edition < 3 ? 0 : c->words[i];
        if (c->g->edition >= 3) wanted[start] = (UINT64_C(1) << 63) + (end - start - 1);
    }
    SAME_WORDS(c->words, wanted, c->count);
}

/* The graph lies at rest in these words, and it is known what lives. Answers where the last object ends
   then: no word behind it has changed. */
uint64_t pinned_round(graph *g, uint64_t *words, uint64_t count) {
    around all = {g, words, count, NULL, NULL, NULL, 0, 0, NULL, NULL, 0, 0}, *c = &all;
    uint64_t *wanted = copy_of(words, count), *runs, *roots, run_count = 0;
    size_t room;
    choose(c);
    settle(c);
    if (one_in(2)) refuse(c);
    room = one_in(2) ? 2 * c->pin_count : 2 * c->run_count + below(3);
    runs = (uint64_t *)zeros(room + 1, sizeof *runs);
    runs[room] = 9;
    DONE(c->end, collect_pinned, g->edition, AROUND, c->pins, c->pin_count, runs, room, &run_count);
    SAME(run_count, c->run_count);
    SAME_WORDS(runs, c->runs, 2 * c->run_count);
    for (size_t i = 2 * c->run_count; i < room; i++) IS(runs[i] == 0);
    IS(runs[room] == 9);
    ask(c, wanted);
    roots = root_words(g, FROM);
    for (size_t k = 0; k < c->root_count; k++) SAME(c->roots[k], roots[c->numbers[k]]);
    free(wanted);
    free(runs);
    free(roots);
    free(c->roots);
    free(c->numbers);
    free(c->pins);
    free(c->places);
    free(c->runs);
    return c->end;
}
