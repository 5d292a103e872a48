/* A flipped heap, with four threads at once. Each writes to objects of its own, of which it knows what they are to be;
   of the others it knows what holds at all times. At the end all must come together. */
#include "threads.h"

#include <stdlib.h>

/* Marks an address that a thread found, of an object whose number is looked up when all threads are done. */
#define LATER (UINT64_C(1) << 62)

/* What the field of an object of this thread's is to be. */
static uint64_t word_now(const worker *w, value v) {
    return is_object(v) && (v & LATER) ? TO + (v & ~LATER) : word_of(w->c->g, TO, v);
}

/* An object of this thread's: a slid one, or one that it made. */
static object *any_own(const worker *w) {
    const size_t slid = (w->slid + THREADS - 1 - w->number) / THREADS, n = below(slid + w->made + 1);
    if (n < slid) return &w->c->g->objects[w->number + THREADS * n];
    return w->made > 0 ? &w->c->g->objects[w->first + below(w->made)] : NULL;
}

static value any_known(const worker *w) {
    const object *o = any_own(w);
    if (one_in(8)) return 0;
    if (w->c->g->edition == 4 && one_in(6)) return any_word() | COMPRESSOR_IMMEDIATE;
    if (w->found != 0 && one_in(3)) return (w->found - TO) | LATER;
    if (w->slid > 0 && (o == NULL || one_in(2))) return 1 + below(w->slid);
    return o == NULL ? 0 : 1 + (value)(o - w->c->g->objects);
}

static void write_own(worker *w) {
    object *o = any_own(w);
    const enum kind kind = (enum kind)(1 + below(3));
    compressor_answer a;
    uint64_t word, place;
    uint32_t field;
    value v;
    if (o == NULL || fields_of(o, kind) == 0) return;
    field = (uint32_t)below(fields_of(o, kind));
    v = kind == DATA ? any_word() : any_known(w);
    word = kind == DATA ? v : word_now(w, v);
    place = o->place + offset_of(o, kind, field);
    if (kind == REF) CALL(a, mutator_write_ref, w->mutator, TO + o->place, field, word);
    else if (kind == WEAK) CALL(a, mutator_write_weak, w->mutator, TO + o->place, field, word);
    else CALL(a, mutator_write_data, w->mutator, TO + o->place, field, word);
    if (a.status == COMPRESSOR_JOURNAL_FULL) {
        SAME(a.value, place / 64);
        return;
    }
    answers(a, COMPRESSOR_DONE, a.value, 0);
    IS(w->entries == 0 || a.value > w->stamp);
    w->stamp = a.value;
    w->entries++;
    *field_of(o, kind, field) = v;
}

static void read_own(worker *w) {
    object *o = any_own(w);
    const enum kind kind = (enum kind)(1 + below(3));
    uint32_t field;
    value v;
    if (o == NULL || fields_of(o, kind) == 0) return;
    field = (uint32_t)below(fields_of(o, kind));
    v = *field_of(o, kind, field);
    if (kind == REF) DONE(word_now(w, v), mutator_read_ref, w->mutator, TO + o->place, field);
    else if (kind == WEAK) DONE(word_now(w, v), mutator_read_weak, w->mutator, TO + o->place, field);
    else DONE(v, mutator_read_data, w->mutator, TO + o->place, field);
}

/* Follows references of anybody's from a slid object on: each leads to an object that the mutator then knows. */
static void wander(worker *w) {
    const object *first;
    compressor_answer a;
    uint64_t at;
    uint32_t field = (uint32_t)below(4);
    if (w->slid == 0) return;
    first = &w->c->g->objects[below(w->slid)];
    at = TO + first->place;
    CALL(a, mutator_read_data, w->mutator, at, field);
    if (field < first->shape.data) answers(a, COMPRESSOR_DONE, a.value, 0);
    else answers(a, COMPRESSOR_NO_SUCH_FIELD, field, 0);
    for (int steps = 0; steps < 6; steps++) {
        field = (uint32_t)below(3);
        if (one_in(2)) CALL(a, mutator_read_ref, w->mutator, at, field);
        else CALL(a, mutator_read_weak, w->mutator, at, field);
        if (a.status == COMPRESSOR_NO_SUCH_FIELD) {
            SAME(a.value, field);
            continue;
        }
        answers(a, COMPRESSOR_DONE, a.value, 0);
        if (!is_object(a.value)) {
            IS(a.value == 0 || w->c->g->edition == 4);
            return;
        }
        at = a.value;
        IS(at >= TO && at < TO + 64 * w->c->pages);
        w->found = at;
    }
}

static void make_own(worker *w) {
    cycle *c = w->c;
    const compressor_shape shape = any_shape(c->g->edition, 64);
    const uint64_t header = any_header(c->g->edition, shape), words = compressor_shape_words(shape);
    compressor_answer a;
    object *o;
    if (w->made == MOST_MADE) return;
    for (uint64_t f = w->member; f < c->fresh; f += c->mutators) {
        if (c->used[f] + words > 64) continue;
        CALL(a, mutator_alloc, w->mutator, header);
        if (a.status == COMPRESSOR_JOURNAL_FULL) {
            SAME(a.value, c->compacted + f);
            return;
        }
        answers(a, COMPRESSOR_DONE, TO + 64 * (c->compacted + f) + c->used[f], 0);
        o = &c->g->objects[w->first + w->made++];
        o->shape = shape;
        o->header = header;
        o->words = words;
        o->place = a.value - TO;
        o->fields = (value *)zeros(words, sizeof *o->fields);
        c->used[f] += (uint32_t)words;
        w->made_words += words;
        w->entries++;
        return;
    }
    ANSWERS(COMPRESSOR_OUT_OF_PAGES, 0, mutator_alloc, w->mutator, header);
}

/* A copy of a page has what this thread wrote. */
static void copy_page(worker *w) {
    const graph *g = w->c->g;
    const uint64_t p = below(w->c->pages);
    uint64_t out[64];
    compressor_answer a;
    CALL(a, mutator_page, w->mutator, p, out);
    answers(a, COMPRESSOR_DONE, a.value, 0);
    IS(a.value <= COMPRESSOR_MAX_ENTRIES);
    for (size_t i = w->number; i < w->first + w->made; i += i < w->slid ? THREADS : 1) {
        const object *o;
        if (i >= w->slid && i < w->first) i = w->first;
        if (i >= w->first + w->made) break;
        o = &g->objects[i];
        for (uint64_t k = 0; k < o->words; k++) {
            const int is_data = k > o->shape.refs + o->shape.weak;
            uint64_t word;
            if ((o->place + k) / 64 != p) continue;
            word = k == 0 ? o->header : is_data ? o->fields[k - 1] : word_now(w, o->fields[k - 1]);
            SAME(out[(o->place + k) % 64], word);
        }
    }
}

/* What it asks that changes nothing, and the plan, by a share of its own. */
static void look(worker *w) {
    const cycle *c = w->c;
    compressor_mutator_facts facts;
    compressor_plan_facts plan_facts;
    uint64_t out[64], address[1];
    const uint64_t p = below(c->compacted + 1), k = below(c->g->root_count + 1);
    DONE(0, mutator_facts_of, w->mutator, &facts);
    SAME(facts.number, w->member);
    SAME(facts.entries, w->entries);
    SAME(facts.made_words, w->made_words);
    IS(facts.builds >= w->builds);
    w->builds = facts.builds;
    if (k < c->g->root_count) DONE(word_of(c->g, TO, c->g->roots[k]), mutator_root, w->mutator, k);
    DONE(0, plan_facts_of, &w->plan, &plan_facts);
    SAME(plan_facts.live_words, c->slid_words);
    SAME(plan_facts.pages, c->compacted);
    SAME(plan_facts.roots, c->g->root_count);
    SAME(plan_facts.edition, c->g->edition);
    if (p < c->compacted) {
        DONE(0, plan_page, &w->plan, p, out);
        SAME_WORDS(out, c->plan_words + 64 * p, 64);
    }
    address[0] = FROM - 1;
    DONE(0, plan_forward, &w->plan, address, 1);
    SAME(address[0], 0);
}

static pthread_mutex_t lock = PTHREAD_MUTEX_INITIALIZER;

/* Hands its mutator back, and takes it again: the crew is used by one thread at a time. */
static void give_and_take(worker *w) {
    IS(pthread_mutex_lock(&lock) == 0);
    DONE(0, crew_give, &w->c->crew, w->mutator);
    DONE(w->member, crew_take, &w->c->crew, w->mutator);
    IS(pthread_mutex_unlock(&lock) == 0);
}

static void *work(void *given) {
    worker *w = (worker *)given;
    begin_thread(w);
    for (uint64_t i = w->actions; i > 0; i--) {
        const uint64_t n = below(100), p = below(w->c->pages);
        compressor_answer a;
        if (n < 35) write_own(w);
        else if (n < 63) read_own(w);
        else if (n < 70) wander(w);
        else if (n < 85) make_own(w);
        else if (n < 92) {
            CALL(a, mutator_touch, w->mutator, p);
            IS(a.status == COMPRESSOR_DONE && a.value <= 1);
        } else if (n < 95) copy_page(w);
        else if (n < 96) give_and_take(w);
        else look(w);
    }
    DROP(plan_drop, &w->plan);
    return NULL;
}

/* The numbers of all objects, once the threads are done: those that were made come behind the slid ones. */
static void number_all(graph *g, const worker *workers, size_t slid) {
    value *number = (value *)zeros(g->count, sizeof *number);
    size_t count = slid;
    for (size_t i = 0; i < slid; i++) number[i] = i + 1;
    for (int k = 0; k < THREADS; k++)
        for (size_t i = 0; i < workers[k].made; i++) {
            number[workers[k].first + i] = count + 1;
            g->objects[count++] = g->objects[workers[k].first + i];
        }
    g->count = count;
    for (size_t i = 0; i < count; i++) {
        object *o = &g->objects[i];
        for (uint32_t f = 0; f < o->shape.refs + o->shape.weak; f++) {
            const value v = o->fields[f];
            if (!is_object(v)) continue;
            if (v & LATER) {
                const object *to = object_at(g, v & ~LATER);
                IS(to != NULL);
                o->fields[f] = 1 + (value)(to - g->objects);
            } else {
                o->fields[f] = number[v - 1];
            }
        }
    }
    free(number);
}

/* All fields of all objects, as one mutator reads them that has met the others. */
static void read_all(cycle *c, compressor_mutator *mutator) {
    for (size_t i = 0; i < c->g->count; i++) {
        object *o = &c->g->objects[i];
        const uint64_t at = TO + o->place;
        if (o->words > 300) continue;
        for (uint32_t f = 0; f < o->shape.refs; f++)
            DONE(word_of(c->g, TO, *field_of(o, REF, f)), mutator_read_ref, mutator, at, f);
        for (uint32_t f = 0; f < o->shape.weak; f++)
            DONE(word_of(c->g, TO, *field_of(o, WEAK, f)), mutator_read_weak, mutator, at, f);
        for (uint32_t f = 0; f < o->shape.data; f++) DONE(*field_of(o, DATA, f), mutator_read_data, mutator, at, f);
    }
}

/* Takes the journals and build lists of the finished heap over: the entries of each page make its words, their stamps
   are all numbers below their count, and each page was built by one. */
static void take_over(cycle *c) {
    uint64_t entries = 0, *words = (uint64_t *)zeros(64 * c->pages, sizeof *words), out[64];
    uint8_t *seen;
    graph_fill(c->g, TO, words);
    for (uint32_t m = 0; m < c->mutators; m++) entries += c->members[m].entries;
    seen = (uint8_t *)zeros(entries, 1);
    for (uint64_t p = 0; p < c->pages; p++) {
        page *page = &c->page_of[p];
        compressor_answer a;
        CALL(a, end_page, &c->end, p, out);
        page->is_built = a.status == COMPRESSOR_DONE;
        page->entries = page->is_built ? a.value : 0;
        page->journal = (compressor_entry *)zeros(page->entries, sizeof *page->journal);
        memcpy(out, c->plan_words + 64 * p, sizeof out);
        for (size_t e = 0; e < page->entries; e++) {
            compressor_entry *it = &page->journal[e];
            DONE(0, end_entry, &c->end, p, e, it);
            IS(it->writer < c->mutators && it->offset < 64 && it->stamp < entries && !seen[it->stamp]++);
            IS(e == 0 || it->stamp > it[-1].stamp);
            out[it->offset] = it->value;
        }
        SAME_WORDS(out, words + 64 * p, 64);
    }
    for (uint64_t s = 0; s < entries; s++) IS(seen[s]);
    for (uint32_t m = 0; m < c->mutators; m++) {
        member *it = &c->members[m];
        compressor_answer a;
        for (size_t i = 0; i < it->builds; i++) {
            CALL(a, end_build, &c->end, m, i);
            IS(a.status == COMPRESSOR_DONE && a.value < c->pages && c->page_of[a.value].is_built++ == 1);
            it->built[i] = a.value;
        }
    }
    for (uint64_t p = 0; p < c->pages; p++) IS(c->page_of[p].is_built != 1);
    for (uint64_t p = 0; p < c->pages; p++) c->page_of[p].is_built /= 2;
    free(seen);
    free(words);
}

/* The threads go on while the heap is compacted. */
static void run_cycle(cycle *c) {
    worker workers[THREADS];
    graph *g = c->g;
    const size_t slid = g->count;
    const uint64_t actions = slid < 15 && one_in(2) ? 5000 : 50 + below(500);
    memset(workers, 0, sizeof workers);
    for (size_t i = 0; i < THREADS * MOST_MADE; i++) {
        free(graph_add(g, (compressor_shape){0, 0, 0, 0})->fields);
        g->objects[slid + i].fields = NULL;
    }
    for (uint32_t k = 0; k < THREADS; k++) {
        worker *w = &workers[k];
        w->number = k;
        w->c = c;
        w->slid = slid;
        w->first = slid + k * MOST_MADE;
        w->actions = actions;
        take(c);
        w->member = c->inside[c->in_count];
        w->mutator = &c->members[w->member].mutator;
        DONE(0, plan_share, &c->plan, &w->plan);
    }
    run_threads(workers, work);
    number_all(g, workers, slid);
    for (uint32_t k = 0; k < THREADS; k++) {
        const worker *w = &workers[k];
        compressor_mutator_facts facts;
        member *it = &c->members[w->member];
        DONE(0, mutator_facts_of, w->mutator, &facts);
        it->builds = facts.builds;
        it->entries = w->entries;
        it->made_words = w->made_words;
        if (k > 0) DONE(0, mutator_meet, workers[0].mutator, w->mutator);
    }
    read_all(c, workers[0].mutator);
    for (uint32_t k = 0; k < THREADS; k++) {
        compressor_mutator_facts facts;
        DONE(0, mutator_facts_of, workers[k].mutator, &facts);
        c->members[workers[k].member].builds = facts.builds;
    }
}

void threads_round(void) {
    graph g;
    compressor_heap heap = COMPRESSOR_EMPTY;
    uint64_t count, *rested = NULL;
    const int refuses = own.refuses;
    graph_any(&g, 1 + (uint32_t)below(4), one_in(4) ? 3 + below(10) : 20 + below(300));
    count = graph_end(&g);
    heap_of(&g, &heap, count);
    for (int times = 2; times > 0; times--) {
        cycle all, *c = &all;
        bytes dump = {NULL, 0, 0};
        cycle_begin(c, &g, &heap, count, THREADS + (uint32_t)below(2), one_in(3) ? 1 : 1 + (uint32_t)below(30));
        run_cycle(c);
        own.refuses = refuses;
        cycle_finish(c);
        take_over(c);
        check_end(c);
        dump_of(&dump, c);
        check_dump(c, &dump);
        audit_by_threads(c, &dump);
        free(dump.at);
        count = 64 * c->pages;
        if (times == 1) rested = cycle_rest(c);
        else cycle_next(c, &heap);
        cycle_free(c);
    }
    rest_by_threads(&g, rested, count);
    graph_free(&g);
}
