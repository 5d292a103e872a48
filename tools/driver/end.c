/* The finished cycle: its pages and entries, its dump, and what comes of it. */
#include "driver.h"

#include <stdio.h>
#include <stdlib.h>

static void check_page(cycle *c, uint64_t p, const uint64_t *words) {
    const page *page = &c->page_of[p];
    compressor_entry entry, untouched;
    uint64_t out[64];
    memset(&entry, 0xee, sizeof entry);
    untouched = entry;
    memset(out, 0xee, sizeof out);
    if (!page->is_built) {
        ANSWERS(COMPRESSOR_NOT_BUILT, p, end_page, &c->end, p, out);
        ANSWERS(COMPRESSOR_NOT_BUILT, p, end_entry, &c->end, p, 0, &entry);
        IS(out[0] == UINT64_C(0xeeeeeeeeeeeeeeee) && memcmp(&entry, &untouched, sizeof entry) == 0);
        SAME_WORDS(words, c->plan_words + 64 * p, 64);
        return;
    }
    DONE(page->entries, end_page, &c->end, p, out);
    SAME_WORDS(out, words, 64);
    ANSWERS(COMPRESSOR_NO_SUCH_ENTRY, page->entries, end_entry, &c->end, p, page->entries, &entry);
    IS(memcmp(&entry, &untouched, sizeof entry) == 0);
    for (size_t e = 0; e < page->entries; e++) {
        const compressor_entry *wanted = &page->journal[e];
        if (page->entries > 100 && !one_in(20)) continue;
        DONE(0, end_entry, &c->end, p, e, &entry);
        SAME(entry.stamp, wanted->stamp);
        SAME(entry.value, wanted->value);
        SAME(entry.writer, wanted->writer);
        SAME(entry.kind, wanted->kind);
        SAME(entry.offset, wanted->offset);
    }
}

static void check_builds(cycle *c) {
    for (uint32_t m = 0; m < c->mutators; m++) {
        const member *it = &c->members[m];
        DONE(it->builds, end_builds, &c->end, m);
        for (size_t i = 0; i < it->builds; i++)
            if (it->builds < 20 || one_in(20)) DONE(it->built[i], end_build, &c->end, m, i);
        ANSWERS(COMPRESSOR_NO_SUCH_BUILD, it->builds, end_build, &c->end, m, it->builds);
    }
    ANSWERS(COMPRESSOR_NO_SUCH_MUTATOR, c->mutators, end_builds, &c->end, c->mutators);
    ANSWERS(COMPRESSOR_NO_SUCH_MUTATOR, UINT32_MAX, end_build, &c->end, UINT32_MAX, 0);
}

static uint64_t live_at_end(const cycle *c) {
    uint64_t live = c->slid_words;
    for (uint32_t m = 0; m < c->mutators; m++) live += c->members[m].made_words;
    return live;
}

void check_end(cycle *c) {
    const graph *g = c->g;
    compressor_end_facts facts;
    uint64_t *words = (uint64_t *)zeros(64 * c->pages, sizeof *words), none[64];
    uint64_t *roots = root_words(g, TO), *out = (uint64_t *)zeros(g->root_count + 1, sizeof *out);
    graph_fill(g, TO, words);
    DONE(0, end_facts_of, &c->end, &facts);
    SAME(facts.live_words, live_at_end(c));
    SAME(facts.pages, c->pages);
    SAME(facts.compacted_pages, c->compacted);
    SAME(facts.rest_words, 64 * c->pages);
    SAME(facts.roots, g->root_count);
    SAME(facts.edition, g->edition);
    SAME(facts.mutators, c->mutators);
    for (uint64_t p = 0; p < c->pages; p++)
        if (c->pages < 60 || c->page_of[p].entries > 0 || one_in(c->pages / 20)) check_page(c, p, words + 64 * p);
    ANSWERS(COMPRESSOR_NO_SUCH_PAGE, c->pages, end_page, &c->end, c->pages, none);
    check_builds(c);
    if (g->root_count > 0)
        ANSWERS(COMPRESSOR_TOO_SHORT, g->root_count, end_roots, &c->end, out, below(g->root_count));
    DONE(g->root_count, end_roots, &c->end, out, g->root_count + below(2));
    SAME_WORDS(out, roots, g->root_count);
    free(words);
    free(roots);
    free(out);
}

/* DUMPS */

void dump_of(bytes *b, const cycle *c) {
    uint64_t *words = (uint64_t *)zeros(64 * c->pages, sizeof *words), *roots = root_words(c->g, TO);
    graph_fill(c->g, TO, words);
    put_magic(b, "COMPDUMP", c->g->edition);
    put4(b, c->mutators);
    put4(b, c->fresh);
    put4(b, c->pages);
    put4(b, c->g->root_count);
    put_words(b, roots, c->g->root_count);
    for (uint64_t p = 0; p < c->pages; p++) {
        const page *page = &c->page_of[p];
        put4(b, page->is_built);
        b->count -= 3;
        if (!page->is_built) continue;
        put_words(b, words + 64 * p, 64);
        put4(b, page->entries);
        for (size_t e = 0; e < page->entries; e++) {
            const compressor_entry *it = &page->journal[e];
            put8(b, it->stamp);
            put4(b, it->writer | (uint32_t)it->kind << 8 | (uint32_t)it->offset << 16);
            b->count -= 1;
            put8(b, it->value);
        }
    }
    for (uint32_t m = 0; m < c->mutators; m++) {
        put4(b, c->members[m].builds);
        for (size_t i = 0; i < c->members[m].builds; i++) put4(b, c->members[m].built[i]);
    }
    put8(b, live_at_end(c));
    free(words);
    free(roots);
}

/* What is said of these bytes, whose fault this is. */
static void explained(cycle *c, const bytes *b, uint32_t options, const char *text) {
    uint8_t out[256];
    const size_t length = strlen(text);
    memset(out, 0xee, sizeof out);
    if (length > 0)
        ANSWERS(COMPRESSOR_TOO_SHORT, length, plan_explain, &c->plan, b->at, b->count, options, out, length - 1);
    IS(out[0] == 0xee);
    DONE(length, plan_explain, &c->plan, b->at, b->count, options, out, sizeof out);
    if (memcmp(out, text, length) != 0) fail(__FILE__, __LINE__, "'%.*s' and not '%s'", (int)length, out, text);
    IS(out[length] == 0xee);
}

/* The dump with a bit of this byte changed, and what is said of it then. */
static void changed(cycle *c, bytes *b, size_t at, uint32_t status, uint64_t number) {
    compressor_answer a;
    uint8_t out[2000];
    b->at[at] ^= 1;
    CALL(a, plan_audit, &c->plan, b->at, b->count, 0);
    answers(a, status, number, a.other);
    CALL(a, plan_explain, &c->plan, b->at, b->count, 0, out, sizeof out);
    answers(a, COMPRESSOR_DONE, a.value, 0);
    IS(a.value > 0 && a.value < sizeof out);
    for (size_t i = 0; i < a.value; i++) IS(out[i] == '\n' || (out[i] >= ' ' && out[i] < 127));
    b->at[at] ^= 1;
}

/* Some changes of a dump whose fault is known: its magic, edition, roots, the word of a page, the last stamp of one, a
   built page, the total. */
static void change_dump(cycle *c, bytes *b) {
    size_t at = 28;
    char text[100];
    const uint64_t live = live_at_end(c);
    b->at[3] ^= 1;
    ANSWERS(COMPRESSOR_FILE_BAD_MAGIC, 0, plan_audit, &c->plan, b->at, b->count, 0);
    b->at[3] ^= 1;
    b->at[12] = 0;
    ANSWERS(COMPRESSOR_FILE_BAD_FIELD, 0, plan_audit, &c->plan, b->at, b->count, 0);
    b->at[12] = (uint8_t)c->mutators;
    changed(c, b, b->count - 8, COMPRESSOR_WRONG_TOTAL, 0);
    b->at[b->count - 8] ^= 1;
    snprintf(text, sizeof text, "live words %llu, not %llu", (unsigned long long)(live ^ 1), (unsigned long long)live);
    explained(c, b, 0, text);
    b->at[b->count - 8] ^= 1;
    if (c->g->root_count > 0) changed(c, b, at, COMPRESSOR_WRONG_HEAD, 0);
    at += 8 * c->g->root_count;
    for (uint64_t p = 0; p < c->pages; p++) {
        const page *page = &c->page_of[p];
        const size_t word = below(64);
        at++;
        if (!page->is_built) continue;
        if (one_in(c->pages / 2 + 1)) changed(c, b, at + 8 * word, COMPRESSOR_WRONG_WORD, TO + 64 * p + word);
        at += 64 * 8 + 4 + 19 * page->entries;
        /* its last stamp is one that the dump has not: the stamp that it was is missed */
        if (page->entries > 0 && one_in(c->pages / 2 + 1)) {
            const compressor_entry *last = &page->journal[page->entries - 1];
            b->at[at - 19 + 4] ^= 1;
            if (last->kind == COMPRESSOR_KIND_DATA)
                ANSWERS(COMPRESSOR_STAMP_MISSING, last->stamp, plan_audit, &c->plan, b->at, b->count, 0);
            b->at[at - 19 + 4] ^= 1;
            b->at[at - 19 + 9] ^= 4; /* a kind that there is not */
            ANSWERS(COMPRESSOR_FILE_BAD_FIELD, 0, plan_audit, &c->plan, b->at, b->count, 0);
            b->at[at - 19 + 9] ^= 4;
        }
    }
}

/* The dump of the finished heap is this one, and the plan says that it is lawful. */
void check_dump(cycle *c, const bytes *dump) {
    uint8_t none[1] = {0};
    bytes b = {NULL, dump->count, dump->count};
    uint64_t missing = 0;
    char text[100];
    while (missing < c->compacted && c->page_of[missing].is_built) missing++;
    b.at = (uint8_t *)zeros(b.count + 3, 1);
    ANSWERS(COMPRESSOR_TOO_SHORT, b.count, end_write, &c->end, none, below(2));
    DONE(b.count, end_write, &c->end, b.at, b.count + below(4));
    for (size_t i = 0; i < b.count; i++)
        if (b.at[i] != dump->at[i])
            fail(__FILE__, __LINE__, "byte %zu of the dump is %u, not %u", i, b.at[i], dump->at[i]);
    DONE(live_at_end(c), plan_audit, &c->plan, b.at, b.count, 0);
    explained(c, &b, 0, "");
    ANSWERS(COMPRESSOR_BAD_OPTIONS, 4, plan_audit, &c->plan, b.at, b.count, 4);
    ANSWERS(COMPRESSOR_BAD_OPTIONS, UINT32_MAX, plan_explain, &c->plan, b.at, b.count, UINT32_MAX, none, 0);
    ANSWERS(COMPRESSOR_FILE_TRUNCATED, 0, plan_audit, &c->plan, b.at, below(b.count), 0);
    ANSWERS(COMPRESSOR_FILE_TRAILING, 0, plan_audit, &c->plan, b.at, b.count + 1, 0);
    ANSWERS(COMPRESSOR_FILE_BAD_MAGIC, 0, plan_audit, &c->plan, b.at, b.count, COMPRESSOR_WORDS);
    if (missing < c->compacted) {
        ANSWERS(COMPRESSOR_PAGE_MISSING, missing, plan_audit, &c->plan, b.at, b.count, COMPRESSOR_WHOLE);
        snprintf(text, sizeof text, "page %llu of %llu was never built", (unsigned long long)missing,
                 (unsigned long long)c->compacted);
        explained(c, &b, COMPRESSOR_WHOLE, text);
    } else {
        DONE(live_at_end(c), plan_audit, &c->plan, b.at, b.count, COMPRESSOR_WHOLE);
    }
    change_dump(c, &b);
    free(b.at);
}

/* WHAT COMES AFTER */

/* The next heap, of new roots. */
void cycle_next(cycle *c, compressor_heap *heap) {
    graph *g = c->g;
    const int is_by_marks = one_in(2);
    uint64_t *roots;
    size_t count, astray;
    uint32_t *marks;
    graph_roots(g, below(7));
    graph_trace(g, is_by_marks);
    marks = live_marks(g, &count);
    roots = root_words(g, TO);
    if (g->root_count > 0) {
        const uint64_t was = roots[astray = below(g->root_count)];
        const uint64_t wrong[] = {TO + 64 * c->pages, FROM, 1, TO - 1, UINT64_MAX};
        roots[astray] = wrong[below(g->edition == 4 ? 4 : 5)];
        ANSWERS(COMPRESSOR_BAD_ROOT, astray, end_next_by_roots, &c->end, roots, g->root_count, heap);
        ANSWERS(COMPRESSOR_BAD_ROOT, astray, end_next_by_marks, &c->end, marks, count, roots, g->root_count, heap);
        roots[astray] = was;
    }
    if (count > 0) {
        marks[count] = marks[count - 1];
        ANSWERS(COMPRESSOR_MARKS_NOT_RISING, marks[count], end_next_by_marks, &c->end, marks, count + 1, roots,
                g->root_count, heap);
        marks[count] = (uint32_t)(64 * c->pages);
        ANSWERS(COMPRESSOR_MARK_NOT_START, marks[count], end_next_by_marks, &c->end, marks, count + 1, roots,
                g->root_count, heap);
    }
    if (is_by_marks) DONE(0, end_next_by_marks, &c->end, marks, count, roots, g->root_count, heap);
    else DONE(0, end_next_by_roots, &c->end, roots, g->root_count, heap);
    ANSWERS(COMPRESSOR_EMPTY_HANDLE, 0, end_roots, &c->end, roots, 0);
    free(marks);
    free(roots);
    check_heap(g, heap, 64 * c->pages);
}

/* The words of the heap at rest, with room for more; the end stays. */
uint64_t *cycle_rest(cycle *c) {
    graph *g = c->g;
    const uint64_t count = 64 * c->pages;
    uint64_t *words = (uint64_t *)zeros(count + 1, sizeof *words), *wanted = (uint64_t *)zeros(count, sizeof *wanted);
    uint64_t *roots = root_words(g, TO), *rested = (uint64_t *)zeros(g->root_count + 1, sizeof *rested);
    graph_fill(g, FROM, wanted);
    words[0] = rested[0] = 7;
    if (count > 0) ANSWERS(COMPRESSOR_TOO_SHORT, count, end_rest, &c->end, words, count - 1, rested, g->root_count);
    if (g->root_count > 0)
        ANSWERS2(COMPRESSOR_TOO_SHORT, g->root_count, 1, end_rest, &c->end, words, count, rested, g->root_count - 1);
    IS(words[0] == 7 && rested[0] == 7);
    words[count] = rested[g->root_count] = 9;
    DONE(count, end_rest, &c->end, words, count + below(2), rested, g->root_count + below(2));
    SAME_WORDS(words, wanted, count);
    for (size_t k = 0; k < g->root_count; k++) SAME(rested[k], compressor_rested(roots[k]));
    IS(words[count] == 9 && rested[g->root_count] == 9);
    free(wanted);
    free(roots);
    free(rested);
    return words;
}
