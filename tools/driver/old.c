/* Young collections beside the graph: what is old stays and is all kept, what is young is kept if roots or old objects
   reach it. Stores mark cards, or are listed; one that does neither is found by a check. */
#include "driver.h"

#include <stdlib.h>

/* A heap at rest whose objects below the watermark are old. The graph's objects stand by rising places. */
typedef struct aged {
    graph *g;
    compressor_space space;
    compressor_old old;
    uint64_t *words, room;
    unsigned char *cards;
    uint64_t watermark; /* what the tables know */
    uint64_t left;      /* the words that the last collection left */
} aged;

enum way { ALL, YOUNG, BY, AGING, WAYS };

static int is_old(const aged *s, const object *o) { return o->place < s->watermark; }

/* Whether this word of an old object leads to no old one. */
static int leads_above(const aged *s, const object *o, uint64_t k) {
    const value v = o->fields[k];
    return k < o->shape.refs + o->shape.weak && is_object(v) && !is_old(s, &s->g->objects[v - 1]);
}
static int is_dirty(const aged *s, uint64_t index) { return s->cards[index / 64] != 0; }

/* How many words of old objects lead above, from clean cards alone if asked for so. */
static uint64_t above(const aged *s, int clean, uint64_t *indices) {
    uint64_t count = 0;
    for (size_t i = 0; i < s->g->count; i++) {
        const object *o = &s->g->objects[i];
        for (uint64_t k = 0; is_old(s, o) && k + 1 < o->words; k++) {
            const uint64_t index = o->place + 1 + k;
            if (!leads_above(s, o, k) || (clean && is_dirty(s, index))) continue;
            if (indices) indices[count] = index;
            count++;
        }
    }
    return count;
}

/* What a collection of this kind keeps is live. */
static void trace(aged *s, enum way way) {
    graph *g = s->g;
    value *stack = (value *)zeros(g->count, sizeof *stack);
    size_t deep = 0;
    for (size_t i = 0; i < g->count; i++) {
        g->objects[i].is_live = way != ALL && is_old(s, &g->objects[i]);
        if (g->objects[i].is_live) stack[deep++] = i + 1;
    }
    graph_follow(g, stack, deep);
    for (size_t k = 0; k < g->root_count; k++) graph_follow_root(g, stack, g->roots[k]);
    free(stack);
}

/* New objects, and stores to all: `by_cards`, or without any. */
static void go_on(aged *s, int by_cards) {
    graph *g = s->g;
    compressor_buffer buffer = {0, 0, 0};
    if (one_in(2)) compressor_space_nursery(&s->space, below(300), below(s->room + 1));
    for (uint64_t i = below(60); i > 0; i--) {
        object *o = graph_add(g, any_shape(g->edition, 100));
        const uint64_t made = compressor_new(&s->space, &buffer, o->header, o->words);
        if (made == 0) {
            free(o->fields);
            g->count--;
            break;
        }
        o->place = made - FROM;
    }
    for (uint64_t i = below(80); g->count > 0 && i > 0; i--) {
        object *o = &g->objects[below(g->count)];
        const uint64_t at = FROM + o->place, most = o->shape.refs + o->shape.weak;
        uint64_t k, word;
        if (o->words == 1) continue;
        k = below(o->words - 1);
        o->fields[k] = k < most ? any_value(g) : any_word();
        word = k < most ? word_of(g, FROM, o->fields[k]) : o->fields[k];
        if (by_cards && k < most) compressor_store_card(&s->space, s->cards, at, k, word);
        else compressor_store(&s->space, at, k, word);
    }
    graph_roots(g, below(9));
}

#define HEAP s->g->edition, s->words, s->space.used
#define ROOTS roots, s->g->root_count
#define CARDS s->cards, compressor_cards_of(s->space.used)

/* A store of before was forgotten: each clean card whose words lead above. Then they are marked. */
static void check(aged *s) {
    uint64_t *missed = (uint64_t *)zeros(s->space.used, sizeof *missed);
    const uint64_t count = above(s, 1, missed), edition = 5 + below(1000);
    compressor_answer a;
    int is_named = 0;
    ANSWERS(COMPRESSOR_BAD_EDITION, edition, old_check, &s->old, (uint32_t)edition, s->words, s->space.used, CARDS);
    CALL(a, old_check, &s->old, HEAP, CARDS);
    if (count == 0) answers(a, COMPRESSOR_DONE, 0, 0);
    for (uint64_t i = 0; i < count; i++) is_named |= missed[i] == a.value;
    if (count > 0) IS(a.status == COMPRESSOR_LEADS_ABOVE && a.other == 0 && is_named);
    for (uint64_t i = 0; i < count; i++) s->cards[missed[i] / 64] = 1 + (unsigned char)below(255);
    free(missed);
    DONE(0, old_check, &s->old, HEAP, CARDS);
    if (s->watermark == 0) return;
    ANSWERS(COMPRESSOR_NOT_A_ROW, 0, old_check, &s->old, s->g->edition, s->words, 0, CARDS);
    if (above(s, 0, NULL) > 0) {
        CALL(a, old_check, &s->old, HEAP, s->cards, 0); /* no card is dirty then */
        IS(a.status == COMPRESSOR_LEADS_ABOVE && is_dirty(s, a.value));
    }
}

/* What is refused before anything is looked at, and roots that lead to no object. */
static void refuse(aged *s, uint64_t *roots) {
    const uint32_t edition = one_in(2) ? 0 : 5 + (uint32_t)below(1 << 20), right = s->g->edition;
    const uint64_t used = s->space.used, wanted = compressor_cards_of(s->watermark);
    const uint64_t over = compressor_cards_of(s->left), astray[2] = {0, FROM + used};
    uint64_t fields[3], stray[2];
    compressor_old small = COMPRESSOR_EMPTY;
    ANSWERS(COMPRESSOR_BAD_EDITION, edition, collect_all, &s->old, edition, s->words, used, ROOTS);
    ANSWERS(COMPRESSOR_BAD_EDITION, edition, collect_young, &s->old, edition, s->words, used, CARDS, ROOTS);
    ANSWERS(COMPRESSOR_BAD_EDITION, edition, collect_young_by, &s->old, edition, s->words, used, fields, 0, ROOTS);
    ANSWERS(COMPRESSOR_BAD_EDITION, edition, collect_aging, &s->old, edition, s->words, used, CARDS, ROOTS);
    if (used > 0) {
        const uint64_t room = below(used);
        DONE(0, old_reserve, room, &small);
        ANSWERS(COMPRESSOR_NOT_EMPTY, 0, old_reserve, room, &small);
        ANSWERS(COMPRESSOR_SHORT_TABLES, room, collect_all, &small, HEAP, ROOTS);
        ANSWERS(COMPRESSOR_SHORT_TABLES, room, collect_young, &small, HEAP, CARDS, ROOTS);
        ANSWERS(COMPRESSOR_SHORT_TABLES, room, collect_young_by, &small, HEAP, fields, 0, ROOTS);
        ANSWERS(COMPRESSOR_SHORT_TABLES, room, collect_aging, &small, HEAP, CARDS, ROOTS);
        ANSWERS(COMPRESSOR_SHORT_TABLES, room, old_raise, &small, HEAP, below(2 * used));
        DROP(old_return, &small);
    }
    if (s->watermark > 0) {
        const uint64_t few = below(s->watermark);
        ANSWERS(COMPRESSOR_FEW_WORDS, s->watermark, collect_young, &s->old, right, s->words, few, CARDS, ROOTS);
        ANSWERS(COMPRESSOR_FEW_WORDS, s->watermark, collect_young_by, &s->old, right, s->words, few, fields, 0, ROOTS);
        ANSWERS(COMPRESSOR_FEW_WORDS, s->watermark, collect_aging, &s->old, right, s->words, few, CARDS, ROOTS);
        ANSWERS(COMPRESSOR_FEW_CARDS, wanted, collect_young, &s->old, HEAP, s->cards, below(wanted), ROOTS);
    }
    if (over > 0) ANSWERS(COMPRESSOR_FEW_CARDS, over, collect_aging, &s->old, HEAP, s->cards, below(over), ROOTS);
    memcpy(stray, astray, sizeof stray);
    ANSWERS(COMPRESSOR_BAD_ROOT, 1, collect_all, &s->old, HEAP, stray, 2);
    ANSWERS(COMPRESSOR_BAD_ROOT, 1, collect_young, &s->old, HEAP, CARDS, stray, 2);
    ANSWERS(COMPRESSOR_BAD_ROOT, 1, collect_aging, &s->old, HEAP, CARDS, stray, 2);
    /* the middle of an old object, and a header */
    for (size_t i = 0; i < s->g->count; i++) {
        const object *o = &s->g->objects[i];
        if (!is_old(s, o) || o->words == 1) continue;
        stray[1] = FROM + o->place + 1;
        ANSWERS(COMPRESSOR_BAD_ROOT, 1, collect_young, &s->old, HEAP, CARDS, stray, 2);
        fields[0] = fields[1] = fields[2] = o->place;
        ANSWERS(COMPRESSOR_NOT_A_FIELD, o->place, collect_young_by, &s->old, HEAP, fields, 1 + below(3), ROOTS);
        break;
    }
    fields[0] = one_in(2) ? s->watermark : UINT64_MAX;
    ANSWERS(COMPRESSOR_NOT_A_FIELD, fields[0], collect_young_by, &s->old, HEAP, fields, 1, ROOTS);
    DONE(s->watermark, watermark, &s->old);
}

/* The words that lead above, in any order, some of them twice, and others that need not be told. */
static uint64_t *fields_of_all(const aged *s, uint64_t *count) {
    uint64_t *all = (uint64_t *)zeros(2 * s->space.used + 20, sizeof *all), found = above(s, 0, all);
    for (uint64_t k = found > 0 ? below(found + 1) : 0; k > 0; k--) {
        all[found] = all[below(found)];
        found++;
    }
    for (int tries = 0; s->g->count > 0 && tries < 10; tries++) {
        const object *o = &s->g->objects[below(s->g->count)];
        const uint64_t most = o->shape.refs + o->shape.weak;
        if (is_old(s, o) && most > 0) all[found++] = o->place + 1 + below(most);
    }
    for (uint64_t k = found; k > 1; k--) {
        const uint64_t i = below(k), word = all[k - 1];
        all[k - 1] = all[i];
        all[i] = word;
    }
    *count = found;
    return all;
}

/* Cards after a collection of so many words by age: dirty exactly where a word leads above. */
static void check_cards(const aged *s, uint64_t words) {
    const uint64_t count = compressor_cards_of(words);
    unsigned char *wanted = (unsigned char *)zeros(count, 1);
    uint64_t *indices = (uint64_t *)zeros(s->space.used, sizeof *indices);
    for (uint64_t found = above(s, 0, indices); found > 0; found--) wanted[indices[found - 1] / 64] = 1;
    for (uint64_t i = 0; i < count; i++) SAME(s->cards[i] != 0, wanted[i]);
    free(wanted);
    free(indices);
}

/* The first place at which the words lie that were allocated since the last collection, once what lives has slid. */
static uint64_t first_new(const aged *s) {
    uint64_t place = 0;
    for (size_t i = 0; i < s->g->count; i++) {
        const object *o = &s->g->objects[i];
        if (o->is_live && o->place < s->left) place += o->words;
    }
    return place;
}

static void collect(aged *s, enum way way) {
    graph *g = s->g;
    const uint64_t used = s->space.used, before = s->watermark;
    uint64_t *was = copy_of(s->words, used), *roots = root_words(g, FROM), *wanted, *wanted_roots;
    uint64_t live, fields_count = 0, *fields = NULL, middle;
    if (one_in(3)) {
        uint64_t *same_roots = copy_of(roots, g->root_count);
        refuse(s, roots);
        SAME_WORDS(s->words, was, used);
        SAME_WORDS(roots, same_roots, g->root_count);
        free(same_roots);
    }
    if (way == BY) fields = fields_of_all(s, &fields_count);
    trace(s, way);
    middle = first_new(s);
    graph_slide(g);
    live = graph_end(g);
    wanted = copy_of(was, used); /* what lies behind stays */
    graph_fill(g, FROM, wanted);
    wanted_roots = root_words(g, FROM);
    if (way == ALL) DONE(live, collect_all, &s->old, HEAP, ROOTS);
    if (way == YOUNG) DONE(live, collect_young, &s->old, HEAP, CARDS, ROOTS);
    if (way == BY) DONE(live, collect_young_by, &s->old, HEAP, fields, fields_count, ROOTS);
    if (way == AGING) DONE(live, collect_aging, &s->old, HEAP, CARDS, ROOTS);
    SAME_WORDS(s->words, wanted, used);
    SAME_WORDS(roots, wanted_roots, g->root_count);
    IS(live >= before || way == ALL);
    s->left = live;
    s->watermark = way == AGING ? middle : live;
    DONE(s->watermark, watermark, &s->old);
    if (way == AGING) check_cards(s, used);
    else memset(s->cards, 0, compressor_cards_of(used));
    compressor_space_in(&s->space, g->edition, s->words, s->room, live);
    free(was);
    free(roots);
    free(wanted);
    free(wanted_roots);
    free(fields);
    DONE(0, old_check, &s->old, HEAP, CARDS);
}

/* The same by the layer of compressor_rest.h. */
static void collect_space(aged *s, enum way way) {
    static const enum compressor_ages ages[WAYS] = {COMPRESSOR_ALL, COMPRESSOR_YOUNG, COMPRESSOR_YOUNG,
                                                    COMPRESSOR_AGING};
    graph *g = s->g;
    uint64_t *roots = root_words(g, FROM), *wanted, *wanted_roots, middle;
    const int wants = compressor_space_wants_all(&s->space, &s->old, s->cards, 0);
    IS(wants || 2 * s->watermark <= s->room + 1);
    trace(s, way);
    middle = first_new(s);
    graph_slide(g);
    wanted = (uint64_t *)zeros(graph_end(g), sizeof *wanted);
    graph_fill(g, FROM, wanted);
    wanted_roots = root_words(g, FROM);
    answers(compressor_space_collect(&s->space, &s->old, ages[way], s->cards, ROOTS), COMPRESSOR_DONE, graph_end(g), 0);
    SAME(s->space.used, graph_end(g));
    SAME_WORDS(s->words, wanted, s->space.used);
    SAME_WORDS(roots, wanted_roots, g->root_count);
    s->left = s->space.used;
    s->watermark = way == AGING ? middle : s->left;
    free(roots);
    free(wanted);
    free(wanted_roots);
}

/* The watermark goes up in place of a collection, to the end of an object; below it no words are free, since the model
   does not know such. All stays where it is. Other tables are raised to the end of the words. */
static void raise_old(aged *s) {
    const graph *g = s->g;
    const uint64_t used = s->space.used, bad = 5 + below(1000);
    uint64_t *was = copy_of(s->words, used), *missed = (uint64_t *)zeros(used, sizeof *missed);
    uint64_t row = s->watermark, end;
    unsigned char *clean = (unsigned char *)zeros(compressor_cards_of(used), 1);
    compressor_old other = COMPRESSOR_EMPTY;
    DONE(0, old_reserve, s->room, &other);
    DONE(used, old_raise, &other, HEAP, used);
    DONE(0, old_check, &other, HEAP, clean, compressor_cards_of(used));
    DROP(old_return, &other);
    for (size_t i = 0; i < g->count; i++)
        if (g->objects[i].place == row) row += g->objects[i].words;
    end = row;
    for (size_t i = 0; i < g->count; i++) {
        const object *o = &g->objects[i];
        if (o->place < s->watermark || o->place >= row) continue;
        if (one_in(20)) end = o->place;
        if (o->words == 1 || !one_in(20)) continue;
        ANSWERS(COMPRESSOR_NOT_A_ROW, o->place, old_raise, &s->old, HEAP, o->place + 1 + below(o->words - 1));
    }
    ANSWERS(COMPRESSOR_BAD_EDITION, bad, old_raise, &s->old, (uint32_t)bad, s->words, used, end);
    ANSWERS(COMPRESSOR_FEW_WORDS, used + 1, old_raise, &s->old, HEAP, used + 1);
    if (s->watermark > 0)
        ANSWERS(COMPRESSOR_BELOW_WATERMARK, s->watermark, old_raise, &s->old, HEAP, below(s->watermark));
    DONE(s->watermark, watermark, &s->old);
    DONE(end, old_raise, &s->old, HEAP, end);
    DONE(end, watermark, &s->old);
    SAME_WORDS(s->words, was, used);
    s->left = s->watermark = end;
    if (end == used) {
        IS(above(s, 0, NULL) == 0); /* all leads below: each card may be clean */
        memset(s->cards, 0, compressor_cards_of(used));
    }
    for (uint64_t count = above(s, 1, missed), i = 0; i < count; i++) s->cards[missed[i] / 64] = 1;
    DONE(0, old_check, &s->old, HEAP, CARDS);
    free(was);
    free(missed);
    free(clean);
}

/* The graph lies at rest in these words. The copy of them that is collected goes; the graph is as it left it. */
void old_round(graph *g, const uint64_t *words, uint64_t count) {
    aged all = {g, {0}, COMPRESSOR_EMPTY, NULL, count + 1500, NULL, 0, 0}, *s = &all;
    int by_cards = 1;
    if (s->room > compressor_max_words(g->edition)) s->room = compressor_max_words(g->edition);
    s->words = (uint64_t *)zeros(s->room, sizeof *s->words);
    memcpy(s->words, words, count * sizeof *words);
    s->cards = (unsigned char *)zeros(compressor_cards_of(s->room), 1);
    compressor_space_in(&s->space, g->edition, s->words, s->room, count);
    DONE(0, old_reserve, s->room, &s->old);
    DONE(0, watermark, &s->old);
    for (uint64_t times = 1 + below(24); times > 0; times--) {
        enum way way;
        if (s->left > 0 && one_in(5)) raise_old(s); /* since a collection there is a row */
        way = by_cards ? (enum way)below(WAYS) : one_in(8) ? ALL : BY;
        if (way != BY) check(s);
        if (way != BY && one_in(4)) collect_space(s, way);
        else collect(s, way);
        by_cards = !one_in(4);
        go_on(s, by_cards || one_in(2));
    }
    if (one_in(2)) {
        check(s);
        collect(s, ALL);
    }
    DROP(old_return, &s->old);
    ANSWERS(COMPRESSOR_EMPTY_HANDLE, 0, watermark, &s->old);
    free(s->cards);
    free(s->words);
}
