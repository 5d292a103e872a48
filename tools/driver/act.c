/* What a mutator is asked, with what the model says that it answers. */
#include "driver.h"

#include <stdlib.h>

/* What a call is to be about: an object of the model, or an address at which there is none. */
typedef struct target {
    uint64_t address;
    object *object;
} target;

static target no_object(uint64_t address) {
    const target t = {address, NULL};
    return t;
}

/* Mostly an object that the mutator knows and that has a field of this kind, 0 for any. */
static target any_target(const cycle *c, uint32_t m, int kind) {
    const graph *g = c->g;
    target t = {0, NULL};
    if (g->count == 0 || one_in(40)) return no_object(0);
    if (one_in(60)) return no_object(any_word() | COMPRESSOR_IMMEDIATE);
    if (one_in(60)) return no_object(FROM + g->objects[below(g->count)].place);
    if (one_in(40)) {
        const uint64_t place = below(64 * c->pages + 2);
        if (object_at(g, place) == NULL) return no_object(TO + place);
    }
    for (int tries = 0; tries == 0 || (tries < 6 && !one_in(10)); tries++) {
        t.object = &g->objects[below(g->count)];
        if ((t.object->known >> m & 1) && (kind == 0 || fields_of(t.object, (enum kind)kind) > 0)) break;
    }
    t.address = TO + t.object->place;
    return t;
}

/* Whether the mutator knows the object. If the header does not say that it does, it is asked: it may know more, and
   mostly does. A field that no object has shows it, and changes nothing. */
static int knows(cycle *c, object *o, uint32_t m) {
    compressor_answer a;
    if (o->known >> m & 1) return 1;
    CALL(a, mutator_read_data, &c->members[m].mutator, TO + o->place, UINT32_MAX);
    if (a.status == COMPRESSOR_NO_SUCH_FIELD) o->known |= UINT64_C(1) << m;
    else answers(a, COMPRESSOR_NOT_A_START, TO + o->place, 0);
    return (int)(o->known >> m & 1);
}

/* The refusal of a call on this object, or DONE. */
static uint32_t refusal(cycle *c, target t, uint32_t m) {
    if (t.address == 0) return COMPRESSOR_NULL_OBJECT;
    return t.object == NULL || !knows(c, t.object, m) ? COMPRESSOR_NOT_A_START : COMPRESSOR_DONE;
}

/* A field, mostly one that there is. */
static uint32_t any_field(uint32_t count) {
    if (count > 0 && !one_in(20)) return (uint32_t)below(count);
    return one_in(2) ? count : count + (uint32_t)below(UINT32_MAX - count);
}

#define ASK(status, number, name, ...)                                                          \
    do {                                                                                        \
        if (kind == REF) ANSWERS(status, number, mutator_##name##_ref, mutator, __VA_ARGS__);   \
        if (kind == WEAK) ANSWERS(status, number, mutator_##name##_weak, mutator, __VA_ARGS__); \
        if (kind == DATA) ANSWERS(status, number, mutator_##name##_data, mutator, __VA_ARGS__); \
    } while (0)

static void read_one(cycle *c, uint32_t m, enum kind kind) {
    compressor_mutator *mutator = &c->members[m].mutator;
    const target t = any_target(c, m, kind);
    const uint32_t count = t.object ? fields_of(t.object, kind) : 3, field = any_field(count);
    const uint32_t status = refusal(c, t, m);
    value v;
    if (status != COMPRESSOR_DONE) {
        ASK(status, t.address, read, t.address, field);
    } else if (field >= count) {
        ASK(COMPRESSOR_NO_SUCH_FIELD, field, read, t.address, field);
    } else {
        v = *field_of(t.object, kind, field);
        ASK(COMPRESSOR_DONE, kind == DATA ? v : word_of(c->g, TO, v), read, t.address, field);
        build(c, m, (t.object->place + offset_of(t.object, kind, field)) / 64);
        if (kind != DATA && is_object(v)) c->g->objects[v - 1].known |= UINT64_C(1) << m;
    }
}

static void ask_header(cycle *c, uint32_t m) {
    const target t = any_target(c, m, 0);
    const uint32_t status = refusal(c, t, m);
    const uint64_t number = status == COMPRESSOR_DONE ? t.object->header : t.address;
    ANSWERS(status, number, mutator_header, &c->members[m].mutator, t.address);
}

static void write_one(cycle *c, uint32_t m, enum kind kind) {
    compressor_mutator *mutator = &c->members[m].mutator;
    const target t = any_target(c, m, kind);
    const uint32_t count = t.object ? fields_of(t.object, kind) : 3, field = any_field(count);
    const uint32_t status = refusal(c, t, m);
    const target to = kind == DATA ? no_object(any_word()) : any_target(c, m, 0);
    const int is_immediate = c->g->edition == 4 && to.address >= COMPRESSOR_IMMEDIATE;
    uint64_t place;
    value v = to.address;
    if (status != COMPRESSOR_DONE) {
        ASK(status, t.address, write, t.address, field, to.address);
        return;
    }
    if (field >= count) {
        ASK(COMPRESSOR_NO_SUCH_FIELD, field, write, t.address, field, to.address);
        return;
    }
    if (kind != DATA && !is_immediate && refusal(c, to, m) == COMPRESSOR_NOT_A_START) {
        ASK(COMPRESSOR_NOT_A_START, to.address, write, t.address, field, to.address);
        return;
    }
    place = t.object->place + offset_of(t.object, kind, field);
    if (c->page_of[place / 64].entries == COMPRESSOR_MAX_ENTRIES) {
        ASK(COMPRESSOR_JOURNAL_FULL, place / 64, write, t.address, field, to.address);
        return;
    }
    ASK(COMPRESSOR_DONE, c->stamps, write, t.address, field, to.address);
    build(c, m, place / 64);
    if (kind != DATA && to.object) v = 1 + (value)(to.object - c->g->objects);
    *field_of(t.object, kind, field) = v;
    enter(c, m, place, (uint8_t)kind, to.address);
}

static void make_one(cycle *c, uint32_t m) {
    compressor_mutator *mutator = &c->members[m].mutator;
    compressor_shape shape = any_shape(c->g->edition, 64);
    const uint64_t words = compressor_shape_words(shape);
    object *o;
    if (one_in(40)) {
        shape.data += 64;
        ANSWERS(COMPRESSOR_OBJECT_TOO_LARGE, words + 64, mutator_alloc, mutator, any_header(c->g->edition, shape));
        return;
    }
    for (uint64_t f = m; f < c->fresh; f += c->mutators) {
        const uint64_t p = c->compacted + f, header = any_header(c->g->edition, shape);
        if (c->used[f] + words > 64) continue;
        if (c->page_of[p].entries == COMPRESSOR_MAX_ENTRIES) {
            ANSWERS(COMPRESSOR_JOURNAL_FULL, p, mutator_alloc, mutator, header);
            return;
        }
        DONE(TO + 64 * p + c->used[f], mutator_alloc, mutator, header);
        build(c, m, p);
        o = graph_add(c->g, shape);
        o->header = header;
        o->place = 64 * p + c->used[f];
        o->known = UINT64_C(1) << m;
        enter(c, m, o->place, COMPRESSOR_KIND_HEADER, header);
        c->used[f] += (uint32_t)words;
        c->members[m].made_words += words;
        return;
    }
    ANSWERS(COMPRESSOR_OUT_OF_PAGES, 0, mutator_alloc, mutator, any_header(c->g->edition, shape));
}

static void touch_one(cycle *c, uint32_t m) {
    const uint64_t p = one_in(20) ? c->pages + below(3) : below(c->pages + 1);
    if (p >= c->pages) {
        ANSWERS(COMPRESSOR_NO_SUCH_PAGE, p, mutator_touch, &c->members[m].mutator, p);
        return;
    }
    DONE(!c->page_of[p].is_built, mutator_touch, &c->members[m].mutator, p);
    build(c, m, p);
}

static void copy_one(cycle *c, uint32_t m) {
    const uint64_t p = one_in(20) ? c->pages + below(3) : below(c->pages + 1);
    uint64_t out[64], *words;
    memset(out, 0xee, sizeof out);
    if (p >= c->pages) {
        ANSWERS(COMPRESSOR_NO_SUCH_PAGE, p, mutator_page, &c->members[m].mutator, p, out);
        IS(out[0] == UINT64_C(0xeeeeeeeeeeeeeeee) && out[63] == out[0]);
        return;
    }
    words = (uint64_t *)zeros(64 * c->pages, sizeof *words);
    graph_fill(c->g, TO, words);
    DONE(c->page_of[p].entries, mutator_page, &c->members[m].mutator, p, out);
    SAME_WORDS(out, words + 64 * p, 64);
    free(words);
    build(c, m, p);
    for (size_t i = 0; i < c->g->count; i++)
        if (c->g->objects[i].place / 64 == p) c->g->objects[i].known |= UINT64_C(1) << m;
}

static void look_one(cycle *c, uint32_t m) {
    compressor_mutator *mutator = &c->members[m].mutator;
    const graph *g = c->g;
    const size_t count = g->root_count, k = below(count + 1);
    uint64_t *roots = root_words(g, TO), *out = (uint64_t *)zeros(count + 1, sizeof *out);
    const uint64_t number = below(c->members[m].builds + 1);
    if (k == count) ANSWERS(COMPRESSOR_NO_SUCH_ROOT, k, mutator_root, mutator, k);
    else DONE(roots[k], mutator_root, mutator, k);
    out[count] = 77;
    if (k < count) ANSWERS(COMPRESSOR_TOO_SHORT, count, mutator_roots, mutator, out, k);
    IS(out[0] == (count == 0 ? 77 : 0));
    DONE(count, mutator_roots, mutator, out, count + below(2));
    SAME_WORDS(out, roots, count);
    IS(out[count] == 77);
    if (number == c->members[m].builds) ANSWERS(COMPRESSOR_NO_SUCH_BUILD, number, mutator_build, mutator, number);
    else DONE(c->members[m].built[number], mutator_build, mutator, number);
    free(roots);
    free(out);
    check_facts(c, m);
}

void check_facts(cycle *c, uint32_t m) {
    const member *own_facts = &c->members[m];
    compressor_mutator_facts facts;
    DONE(0, mutator_facts_of, &c->members[m].mutator, &facts);
    SAME(facts.pages, c->pages);
    SAME(facts.compacted_pages, c->compacted);
    SAME(facts.builds, own_facts->builds);
    SAME(facts.entries, own_facts->entries);
    SAME(facts.made_words, own_facts->made_words);
    SAME(facts.roots, c->g->root_count);
    SAME(facts.edition, c->g->edition);
    SAME(facts.mutators, c->mutators);
    SAME(facts.number, m);
}

static void meet_one(cycle *c, uint32_t m) {
    const uint32_t n = (uint32_t)below(c->mutators);
    const uint64_t both = UINT64_C(1) << m | UINT64_C(1) << n;
    if (n == m || !c->members[n].is_out) return;
    DONE(0, mutator_meet, &c->members[m].mutator, &c->members[n].mutator);
    for (size_t i = 0; i < c->g->count; i++)
        if (c->g->objects[i].known & both) c->g->objects[i].known |= both;
}

/* Writes again and again to one word, until its page is full, and once more. */
static void fill_page(cycle *c, uint32_t m) {
    object *o = c->g->count > 0 ? &c->g->objects[below(c->g->count)] : NULL;
    if (o == NULL || o->shape.data == 0 || !knows(c, o, m)) return;
    for (;;) {
        const uint64_t place = o->place + offset_of(o, DATA, 0), word = any_word();
        compressor_mutator *mutator = &c->members[m].mutator;
        if (c->page_of[place / 64].entries == COMPRESSOR_MAX_ENTRIES) {
            ANSWERS(COMPRESSOR_JOURNAL_FULL, place / 64, mutator_write_data, mutator, TO + o->place, 0, word);
            return;
        }
        DONE(c->stamps, mutator_write_data, mutator, TO + o->place, 0, word);
        build(c, m, place / 64);
        o->fields[o->shape.refs + o->shape.weak] = word;
        enter(c, m, place, COMPRESSOR_KIND_DATA, word);
    }
}

void act(cycle *c, uint32_t m) {
    const uint64_t n = below(100);
    if (n < 16) read_one(c, m, REF);
    else if (n < 24) read_one(c, m, WEAK);
    else if (n < 33) read_one(c, m, DATA);
    else if (n < 36) ask_header(c, m);
    else if (n < 48) write_one(c, m, REF);
    else if (n < 55) write_one(c, m, WEAK);
    else if (n < 66) write_one(c, m, DATA);
    else if (n < 80) make_one(c, m);
    else if (n < 86) touch_one(c, m);
    else if (n < 89) copy_one(c, m);
    else if (n < 93) look_one(c, m);
    else if (n < 95) check_facts(c, m);
    else if (n < 99) meet_one(c, m);
    else if (one_in(50)) fill_page(c, m);
}
