/* A flipped heap and its crew, with all mutators used by one thread: what each call answers is known. */
#include "driver.h"

#include <stdlib.h>

/* Somebody builds this page, if nobody has. */
void build(cycle *c, uint32_t m, uint64_t number) {
    page *p = &c->page_of[number];
    if (p->is_built) return;
    p->is_built = 1;
    p->builder = m;
    c->members[m].built[c->members[m].builds++] = number;
}

/* The next entry of the page of this word. */
compressor_entry *enter(cycle *c, uint32_t m, uint64_t place, uint8_t kind, uint64_t word) {
    page *p = &c->page_of[place / 64];
    compressor_entry *e;
    if (p->entries == p->room) {
        p->room = 2 * p->room + 8;
        p->journal = (compressor_entry *)realloc(p->journal, p->room * sizeof *p->journal);
        IS(p->journal != NULL);
    }
    e = &p->journal[p->entries++];
    memset(e, 0, sizeof *e);
    e->stamp = c->stamps++;
    e->value = word;
    e->writer = (uint8_t)m;
    e->kind = kind;
    e->offset = (uint8_t)(place % 64);
    c->members[m].entries++;
    return e;
}

void take(cycle *c) {
    compressor_mutator none = COMPRESSOR_EMPTY;
    uint32_t number;
    if (c->in_count == 0) {
        ANSWERS(COMPRESSOR_NO_MUTATOR_LEFT, 0, crew_take, &c->crew, &none);
        return;
    }
    number = c->inside[--c->in_count];
    DONE(number, crew_take, &c->crew, &none);
    c->members[number].mutator = none; /* a handle may be moved */
    ANSWERS(COMPRESSOR_NOT_EMPTY, 1, crew_take, &c->crew, &c->members[number].mutator);
    c->members[number].is_out = 1;
}

void give(cycle *c, uint32_t number) {
    const compressor_mutator empty = COMPRESSOR_EMPTY;
    compressor_mutator moved = c->members[number].mutator;
    c->members[number].mutator = empty;
    DONE(0, crew_give, &c->crew, &moved);
    ANSWERS(COMPRESSOR_EMPTY_HANDLE, 1, crew_give, &c->crew, &moved);
    c->members[number].is_out = 0;
    c->inside[c->in_count++] = number;
}

static void refused_flips(cycle *c) {
    const uint64_t all = compressor_max_pages(c->g->edition) - c->compacted;
    const uint64_t most = all < compressor_max_roots(c->g->edition) ? all : compressor_max_roots(c->g->edition);
    const uint32_t bad = one_in(2) ? 0 : 65 + (uint32_t)below(1 << 20);
    ANSWERS(COMPRESSOR_BAD_MUTATORS, bad, plan_flip, &c->plan, bad, c->fresh, &c->crew);
    ANSWERS(COMPRESSOR_TOO_MANY_PAGES, most, plan_flip, &c->plan, 1, (uint32_t)most + 1, &c->crew);
    ANSWERS(COMPRESSOR_TOO_MANY_PAGES, most, plan_flip, &c->plan, 1, UINT32_MAX, &c->crew);
}

/* The words that slid, as a file of words of another collector, are lawful; one that is wrong is found. */
static void audit_words(cycle *c) {
    const uint32_t options = COMPRESSOR_WORDS | (one_in(2) ? COMPRESSOR_WHOLE : 0);
    bytes b = {NULL, 0, 0};
    words_file_of(&b, c->g);
    DONE(c->slid_words, plan_audit, &c->plan, b.at, b.count, options);
    ANSWERS(COMPRESSOR_FILE_BAD_MAGIC, 0, plan_audit, &c->plan, b.at, b.count, 0);
    ANSWERS(COMPRESSOR_FILE_TRUNCATED, 0, plan_audit, &c->plan, b.at, below(b.count), options);
    if (c->slid_words > 0) {
        const uint64_t word = below(c->slid_words);
        b.at[b.count - 8 * (c->slid_words - word) + below(8)] ^= 2;
        ANSWERS(COMPRESSOR_WRONG_WORD, TO + word, plan_audit, &c->plan, b.at, b.count, options);
    }
    free(b.at);
}

/* A cycle of the heap, which goes. Before it the graph has its places and marks, then those of the flip. */
void cycle_begin(cycle *c, graph *g, compressor_heap *heap, uint64_t word_count, uint32_t mutators, uint32_t fresh) {
    memset(c, 0, sizeof *c);
    c->g = g;
    c->slid_words = live_words(g);
    plan_of(g, heap, &c->plan, word_count);
    c->mutators = mutators;
    c->fresh = fresh;
    c->compacted = (c->slid_words + 63) / 64;
    c->pages = c->compacted + fresh;
    c->page_of = (page *)zeros(c->pages, sizeof *c->page_of);
    c->used = (uint32_t *)zeros(fresh, sizeof *c->used);
    c->members = (member *)zeros(mutators, sizeof *c->members);
    c->inside = (uint32_t *)zeros(mutators, sizeof *c->inside);
    c->plan_words = (uint64_t *)zeros(64 * c->pages, sizeof *c->plan_words);
    graph_fill(g, TO, c->plan_words);
    if (one_in(2)) refused_flips(c);
    if (one_in(3)) audit_words(c);
    DONE(mutators, plan_flip, &c->plan, mutators, fresh, &c->crew);
    ANSWERS(COMPRESSOR_NOT_EMPTY, 1, plan_flip, &c->plan, mutators, fresh, &c->crew);
    for (uint32_t m = 0; m < mutators; m++) {
        c->members[m].built = (uint64_t *)zeros(c->pages, sizeof *c->members[m].built);
        c->inside[c->in_count++] = m;
    }
}

/* Mutators of two crews do not meet, and are not handed to each other's. */
static void strange(cycle *c, uint32_t m) {
    compressor_crew other = COMPRESSOR_EMPTY;
    compressor_mutator stranger = COMPRESSOR_EMPTY;
    const void *const kept = c->members[m].mutator.at;
    DONE(2, plan_flip, &c->plan, 2, 1, &other);
    DONE(1, crew_take, &other, &stranger);
    ANSWERS(COMPRESSOR_OTHER_CREW, 0, mutator_meet, &c->members[m].mutator, &stranger);
    ANSWERS(COMPRESSOR_OTHER_CREW, 0, mutator_meet, &stranger, &c->members[m].mutator);
    ANSWERS(COMPRESSOR_OTHER_CREW, 0, crew_give, &c->crew, &stranger);
    ANSWERS(COMPRESSOR_OTHER_CREW, 0, crew_give, &other, &c->members[m].mutator);
    IS(c->members[m].mutator.at == kept);
    if (one_in(2)) {
        DROP(crew_drop, &other);
        DONE(1, mutator_touch, &stranger, 0); /* it lives on without its crew */
    }
    DROP(mutator_drop, &stranger);
    DROP(crew_drop, &other);
}

/* Some mutators are taken, and do so many things between them. */
void cycle_run(cycle *c, uint64_t actions) {
    for (uint32_t k = 1 + (uint32_t)below(c->mutators); k > 0; k--) take(c);
    for (uint64_t i = 0; i < actions; i++) {
        uint32_t m = (uint32_t)below(c->mutators), tries = 0;
        while (!c->members[m].is_out && tries++ < c->mutators) m = (m + 1) % c->mutators;
        if (!c->members[m].is_out || one_in(60)) take(c);
        else if (one_in(60)) give(c, m);
        else if (one_in(400)) strange(c, m);
        else act(c, m);
    }
}

/* All mutators are handed back in any order, and the crew is finished. */
void cycle_finish(cycle *c) {
    uint64_t live = c->slid_words;
    for (uint32_t m = 0; m < c->mutators; m++) live += c->members[m].made_words;
    while (c->in_count < c->mutators) {
        uint32_t m = 0, least = 0;
        while (!c->members[least].is_out) least++;
        ANSWERS(COMPRESSOR_MUTATOR_MISSING, least, crew_finish, &c->crew, &c->end);
        do m = (uint32_t)below(c->mutators);
        while (!c->members[m].is_out);
        check_facts(c, m);
        give(c, m);
    }
    DONE(live, crew_finish, &c->crew, &c->end);
    ANSWERS(COMPRESSOR_EMPTY_HANDLE, 0, crew_finish, &c->crew, &c->end);
}

void cycle_free(cycle *c) {
    for (uint64_t p = 0; p < c->pages; p++) free(c->page_of[p].journal);
    for (uint32_t m = 0; m < c->mutators; m++) {
        free(c->members[m].built);
        DROP(mutator_drop, &c->members[m].mutator);
    }
    free(c->page_of);
    free(c->used);
    free(c->members);
    free(c->inside);
    free(c->plan_words);
    DROP(plan_drop, &c->plan);
    DROP(crew_drop, &c->crew);
    DROP(end_drop, &c->end);
}
