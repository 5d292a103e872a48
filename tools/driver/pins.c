/* What compressor_rest.h has for pins, beside the graph: the words of a stack mean objects, whatever they are; these stay
   in collections, and new objects are made in the runs between them. */
#include "driver.h"

#include <stdlib.h>

enum { BUFFERS = 3, STACK = 40, MEANINGS = 3 };

/* A heap at rest of edition three or four, of which all objects are the graph's. */
typedef struct scanned {
    graph *g;
    compressor_space space;
    compressor_buffer buffers[BUFFERS];
    uint64_t *words, room;
    unsigned char *starts;
    uint64_t *owner; /* of each word of the room: the number of its object, counted from 1; 0 if it has none */
    uint64_t stack[STACK], pins[MEANINGS * STACK], *runs;
    size_t pin_count;
} scanned;

static void own_words(scanned *s) {
    memset(s->owner, 0, s->room * sizeof *s->owner);
    for (size_t i = 0; i < s->g->count; i++) {
        const object *o = &s->g->objects[i];
        for (uint64_t k = 0; k < o->words; k++) {
            IS(o->place + k < s->space.used && s->owner[o->place + k] == 0);
            s->owner[o->place + k] = i + 1;
        }
    }
}

/* New objects, by several buffers in turn, and stores to all. */
static void go_on(scanned *s) {
    graph *g = s->g;
    const uint64_t limit = s->space.limit, in_runs = s->space.in_runs;
    for (uint64_t i = below(120); i > 0; i--) {
        object *o = graph_add(g, any_shape(g->edition, one_in(20) ? 2000 : 100));
        uint64_t made;
        if (o->words == 1) o->shape.tag |= 1;
        IS(compressor_shape_header(g->edition, o->shape, &o->header));
        made = compressor_new(&s->space, &s->buffers[below(BUFFERS)], o->header, o->words);
        if (made == 0) {
            free(o->fields);
            g->count--;
            continue;
        }
        o->place = made - FROM;
        for (uint64_t k = 0; k + 1 < o->words; k++) IS(compressor_load(&s->space, made, k) == 0);
        if (one_in(40)) compressor_object_at(&s->space, below(s->room));
    }
    SAME(limit - s->space.limit, in_runs - s->space.in_runs);
    own_words(s);
    for (uint64_t i = below(80); g->count > 0 && i > 0; i--) {
        object *o = &g->objects[below(g->count)];
        const uint64_t most = o->shape.refs + o->shape.weak;
        uint64_t k;
        if (o->words == 1) continue;
        k = below(o->words - 1);
        o->fields[k] = k < most ? any_value(g) : any_word();
        compressor_store(&s->space, FROM + o->place, k, k < most ? word_of(g, FROM, o->fields[k]) : o->fields[k]);
    }
    graph_roots(g, below(9));
}

/* All used words are a row of objects, and those of the runs are in it. */
static void check_row(const scanned *s) {
    uint64_t left = 0, runs = 0;
    for (uint64_t i = 0; i < s->space.used;) {
        const uint64_t words = compressor_shape_words(compressor_shape_at(&s->space, FROM + i));
        IS(words <= s->space.used - i);
        if (runs < s->space.run_count && s->runs[2 * runs] == i) {
            IS(i + words <= s->runs[2 * runs + 1] && s->owner[i] == 0);
            left += words;
            runs++;
        }
        i += words;
    }
    SAME(runs, s->space.run_count);
    SAME(left, s->space.in_runs);
}

/* The object that a word of the space has, if it lies in it, as an address; or 0. */
static uint64_t found_at(const scanned *s, uint64_t index) {
    const uint64_t owner = index < s->space.used ? s->owner[index] : 0;
    return owner == 0 ? 0 : FROM + s->g->objects[owner - 1].place;
}
static void check_objects(const scanned *s) {
    const uint64_t step = one_in(3) ? 1 : 1 + below(300);
    for (uint64_t i = below(step); i < s->room + 5; i += step)
        SAME(compressor_object_at(&s->space, i), i < s->room ? found_at(s, i) : 0);
    SAME(compressor_object_at(&s->space, UINT64_MAX - below(3)), 0);
}

/* A word that means the word of the space at this index, in one of the ways that are known. */
static uint64_t meaning(const scanned *s, uint64_t index, uint64_t way) {
    const uint64_t memory = (uint64_t)(uintptr_t)s->words;
    return way == 0 ? FROM + index : way == 1 ? memory + 8 * index + below(8) : 8 * (FROM + index) + below(8);
}
/* Also one that means nothing, or lies beside all words. */
static uint64_t hostile(const scanned *s) {
    const uint64_t near = s->space.used + below(5) - 2;
    if (one_in(4)) return any_word();
    if (one_in(8)) return 0;
    return meaning(s, one_in(2) ? below(s->room) : one_in(2) ? near : UINT64_MAX - below(3), below(MEANINGS));
}
static int is_meant(const scanned *s, uint64_t word, uint64_t pin) {
    const uint64_t memory = (uint64_t)(uintptr_t)s->words;
    return found_at(s, word - FROM) == pin || found_at(s, (word - memory) / 8) == pin ||
           (word >= 8 * FROM && found_at(s, word / 8 - FROM) == pin);
}

/* What is named is meant by a word, and what is meant is named. */
static void scan(scanned *s) {
    const uint64_t *from = s->stack, *to = s->stack + STACK, memory = (uint64_t)(uintptr_t)s->words;
    uint64_t few[MEANINGS * STACK];
    size_t count, room;
    for (size_t k = 0; k < STACK; k++) s->stack[k] = hostile(s);
    count = one_in(2) ? compressor_ambiguous(&s->space, from, to, s->pins, MEANINGS * STACK)
                      : compressor_ambiguous(&s->space, to, from, s->pins, MEANINGS * STACK);
    IS(count <= MEANINGS * STACK);
    for (size_t k = 0; k < count; k++) {
        int meant = 0;
        for (size_t i = 0; i < STACK; i++) meant |= is_meant(s, s->stack[i], s->pins[k]);
        IS(meant);
    }
    for (size_t i = 0; i < STACK; i++) {
        const uint64_t word = s->stack[i], means[] = {word - FROM, (word - memory) / 8, word / 8 - FROM};
        for (int way = 0; way < MEANINGS; way++) {
            const uint64_t meant = found_at(s, means[way]);
            int named = meant == 0;
            for (size_t k = 0; k < count; k++) named |= s->pins[k] == meant;
            IS(named);
        }
    }
    room = below(count + 2);
    few[room] = 7;
    SAME(compressor_ambiguous(&s->space, from, to, few, room), count);
    SAME_WORDS(few, s->pins, room < count ? room : count);
    IS(few[room] == 7);
    s->pin_count = count;
}

static int by_number(const void *one, const void *other) {
    const uint64_t a = *(const uint64_t *)one, b = *(const uint64_t *)other;
    return (a > b) - (a < b);
}

/* What the roots and the pins reach is live, and slides around the pins. Answers how many runs there are then. */
static uint64_t slide_around(scanned *s, uint64_t *runs, uint64_t *end) {
    graph *g = s->g;
    value *stack = (value *)zeros(g->count, sizeof *stack);
    uint64_t *places = (uint64_t *)zeros(g->count, sizeof *places), count = 0, live = 0;
    graph_trace(g, 0);
    for (size_t k = 0; k < s->pin_count; k++) graph_follow_root(g, stack, s->owner[s->pins[k] - FROM]);
    for (size_t i = 0; i < g->count; i++)
        if (g->objects[i].is_live) places[live++] = g->objects[i].place;
    qsort(places, live, sizeof *places, by_number);
    graph_slide(g);
    *end = 0;
    for (size_t i = 0; i < g->count; i++) {
        object *o = &g->objects[i];
        o->place = *end;
        for (size_t k = 0; k < s->pin_count; k++)
            if (s->pins[k] == FROM + places[i]) o->place = places[i];
        if (o->place != *end) {
            runs[2 * count] = *end;
            runs[2 * count++ + 1] = o->place;
        }
        *end = o->place + o->words;
    }
    free(stack);
    free(places);
    return count;
}

static void collect(scanned *s) {
    graph *g = s->g;
    const uint64_t used = s->space.used, limit = s->space.limit - s->space.in_runs;
    uint64_t *was = copy_of(s->words, used), *runs = (uint64_t *)zeros(2 * MEANINGS * STACK, sizeof *runs);
    uint64_t *roots = root_words(g, FROM), *wanted_roots, count, end, free_words = 0;
    compressor_answer a;
    if (one_in(3)) s->pin_count = 0;
    count = slide_around(s, runs, &end);
    for (uint64_t k = 0; k < count; k++) free_words += runs[2 * k + 1] - runs[2 * k];
    do {
        call_begins(EXPORT_collect_pinned, __FILE__, __LINE__);
        a = compressor_space_collect_pinned(&s->space, roots, g->root_count, s->pins, s->pin_count, s->runs,
                                            2 * s->pin_count);
    } while (call_again(a));
    answers(a, COMPRESSOR_DONE, end - free_words, 0);
    SAME(s->space.used, end);
    SAME(s->space.run_count, count);
    SAME(s->space.in_runs, free_words);
    SAME(s->space.limit, limit + free_words);
    SAME_WORDS(s->runs, runs, 2 * count);
    for (uint64_t k = 0; k < count; k++) {
        const uint64_t first = runs[2 * k], behind = runs[2 * k + 1];
        was[first] = (UINT64_C(1) << 63) + (behind - first - 1);
        for (uint64_t i = first + 1; i < behind; i++) was[i] = s->words[i];
    }
    graph_fill(g, FROM, was);
    SAME_WORDS(s->words, was, used);
    wanted_roots = root_words(g, FROM);
    SAME_WORDS(roots, wanted_roots, g->root_count);
    memset(s->buffers, 0, sizeof s->buffers);
    own_words(s);
    if (one_in(2)) {
        const uint64_t more = compressor_space_limit(&s->space, a.value, below(4));
        IS(compressor_space_due(&s->space) == (more == 0));
    }
    free(was);
    free(runs);
    free(roots);
    free(wanted_roots);
}

void pins_round(void) {
    graph g;
    scanned all, *s = &all;
    memset(s, 0, sizeof *s);
    graph_any(&g, 3 + (uint32_t)below(2), 0);
    while (g.count > 0) free(g.objects[--g.count].fields); /* it has one that lies nowhere now and then */
    graph_roots(&g, 0);
    s->g = &g;
    s->room = 64 + below(one_in(3) ? 600 : 20000);
    s->words = (uint64_t *)zeros(s->room, sizeof *s->words);
    for (uint64_t i = 0; i < s->room; i++) s->words[i] = any_word();
    s->starts = (unsigned char *)zeros(compressor_cards_of(s->room), 1);
    s->owner = (uint64_t *)zeros(s->room, sizeof *s->owner);
    s->runs = (uint64_t *)zeros(2 * MEANINGS * STACK, sizeof *s->runs);
    compressor_space_in(&s->space, g.edition, s->words, s->room, 0);
    compressor_starts_in(&s->space, s->starts);
    if (one_in(2)) compressor_space_limit(&s->space, 0, 2);
    for (uint64_t times = 1 + below(10); times > 0; times--) {
        go_on(s);
        check_row(s);
        if (one_in(2)) check_objects(s);
        scan(s);
        collect(s);
        check_row(s);
        check_objects(s);
    }
    free(s->words);
    free(s->starts);
    free(s->owner);
    free(s->runs);
    graph_free(&g);
}
