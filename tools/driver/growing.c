/* Surveys that grow, beside a plain closure over the graph: roots, ephemerons by rounds, and what is kept so far. */
#include "driver.h"

#include <stdlib.h>

/* A survey that grows, and what it has to keep. */
typedef struct grown {
    const graph *g;
    const uint64_t *words;
    uint64_t count;
    compressor_growing growing;
    compressor_tables tables;
    uint64_t room; /* of its tables; 0 if none were lent */
    int is_lent;
    int *is_kept;  /* by the numbers of objects, counted from 0 */
    uint64_t kept;
} grown;

#define WORDS s->words, s->count

static void keep(grown *s, value root) {
    value *stack;
    size_t deep = 0;
    if (!is_object(root) || s->is_kept[root - 1]) return;
    stack = (value *)zeros(s->g->count, sizeof *stack);
    s->is_kept[root - 1] = 1;
    stack[deep++] = root;
    while (deep > 0) {
        const object *o = &s->g->objects[stack[--deep] - 1];
        s->kept++;
        for (uint32_t f = 0; f < o->shape.refs; f++) {
            const value v = o->fields[f];
            if (!is_object(v) || s->is_kept[v - 1]) continue;
            s->is_kept[v - 1] = 1;
            stack[deep++] = v;
        }
    }
    free(stack);
}

static int is_held(const grown *s, value v) { return is_object(v) ? s->is_kept[v - 1] : v != 0; }

static void begin(grown *s) {
    const uint32_t edition = s->g->edition, bad = one_in(2) ? 0 : 5 + (uint32_t)below(1 << 20);
    s->kept = 0;
    memset(s->is_kept, 0, s->g->count * sizeof *s->is_kept);
    s->room = 0;
    if (!s->is_lent) {
        ANSWERS(COMPRESSOR_BAD_EDITION, bad, growing_begin, bad, WORDS, &s->growing);
        DONE(0, growing_begin, edition, WORDS, &s->growing);
        return;
    }
    if (s->count > 0) {
        const uint64_t small = below(s->count);
        DONE(0, tables_reserve, small, &s->tables);
        ANSWERS(COMPRESSOR_SHORT_TABLES, small, growing_begin_lent, &s->tables, edition, WORDS, &s->growing);
        DROP(tables_drop, &s->tables);
    }
    s->room = s->count + below(100);
    DONE(0, tables_reserve, s->room, &s->tables);
    ANSWERS(COMPRESSOR_BAD_EDITION, bad, growing_begin_lent, &s->tables, bad, WORDS, &s->growing);
    DONE(0, growing_begin_lent, &s->tables, edition, WORDS, &s->growing);
    ANSWERS(COMPRESSOR_EMPTY_HANDLE, 0, growing_begin_lent, &s->tables, edition, WORDS, &s->growing);
}

/* Its tables come back, whatever it was. */
static void give_back(grown *s) {
    DONE(s->room, growing_return, &s->growing, &s->tables);
    ANSWERS(COMPRESSOR_EMPTY_HANDLE, 0, growing_keeps, &s->growing, 0);
    DROP(tables_drop, &s->tables);
}

/* After a refusal it is over. */
static void is_over(grown *s) {
    ANSWERS(COMPRESSOR_WRONG_HANDLE, 0, growing_also, &s->growing, WORDS, s->words, 0);
    ANSWERS(COMPRESSOR_WRONG_HANDLE, 0, growing_also_values, &s->growing, WORDS, s->words, 0);
    ANSWERS(COMPRESSOR_WRONG_HANDLE, 0, growing_keeps, &s->growing, 0);
    ANSWERS(COMPRESSOR_WRONG_HANDLE, 0, growing_settle, &s->growing, &(compressor_survey)COMPRESSOR_EMPTY);
    give_back(s);
}

/* What is kept so far, of any words. */
static void ask_kept(grown *s) {
    const uint64_t immediate = any_word() | COMPRESSOR_IMMEDIATE;
    DONE(1, growing_keeps, &s->growing, 0);
    DONE(s->g->edition == 4, growing_keeps, &s->growing, immediate);
    for (uint64_t asks = below(20); asks > 0; asks--) {
        const uint64_t place = below(s->count + 2);
        const object *o = object_at(s->g, place);
        if (one_in(2) && s->g->count > 0) o = &s->g->objects[below(s->g->count)];
        DONE(o != NULL && s->is_kept[o - s->g->objects], growing_keeps, &s->growing, FROM + (o ? o->place : place));
    }
    if (s->count == 0) return;
    ANSWERS(COMPRESSOR_WRONG_LENGTH, 0, growing_also, &s->growing, s->words, s->count - 1, s->words, 0);
    ANSWERS(COMPRESSOR_WRONG_LENGTH, 0, growing_also_values, &s->growing, s->words, s->count - 1, s->words, 0);
}

/* One step: some roots. 0 if it is over, for want of memory. */
static int grow(grown *s) {
    uint64_t roots[5];
    const size_t some = below(6);
    compressor_answer a;
    for (size_t k = 0; k < some; k++) {
        const value v = any_value(s->g);
        roots[k] = word_of(s->g, FROM, v);
        keep(s, v);
    }
    own.refuse_next = one_in(12) ? 1 : 0;
    CALL(a, growing_also, &s->growing, WORDS, roots, some);
    if (a.status == COMPRESSOR_OUT_OF_MEMORY) return 0;
    answers(a, COMPRESSOR_DONE, s->kept, 0);
    return 1;
}

/* One step: some ephemerons, and words behind the last three. */
static int grow_by_values(grown *s) {
    value of[32];
    uint64_t three[32];
    const size_t some = 3 * below(10), all = some + below(3);
    compressor_answer a;
    for (size_t k = 0; k < all; k++) {
        of[k] = any_value(s->g);
        three[k] = k < some ? word_of(s->g, FROM, of[k]) : any_word();
    }
    for (uint64_t kept = s->kept + 1; kept != s->kept;) {
        kept = s->kept;
        for (size_t k = 0; k < some; k += 3)
            if (is_held(s, of[k]) && is_held(s, of[k + 1])) keep(s, of[k + 2]);
    }
    own.refuse_next = one_in(12) ? 1 : 0;
    CALL(a, growing_also_values, &s->growing, WORDS, three, all);
    if (a.status == COMPRESSOR_OUT_OF_MEMORY) return 0;
    answers(a, COMPRESSOR_DONE, s->kept, 0);
    return 1;
}

/* A root, or a value, that leads to no word. */
static void refuse(grown *s) {
    const uint64_t astray = one_in(2) ? FROM + s->count : FROM - 1, roots[3] = {0, 0, astray};
    uint64_t three[6] = {0, 0, astray, 0, 0, astray};
    for (size_t i = 0; i < s->g->count; i++)
        if (s->is_kept[i]) three[3] = three[4] = FROM + s->g->objects[i].place;
    if (three[3] != 0 && one_in(2)) ANSWERS(COMPRESSOR_BAD_ROOT, 5, growing_also_values, &s->growing, WORDS, three, 6);
    else ANSWERS(COMPRESSOR_BAD_ROOT, 2, growing_also, &s->growing, WORDS, roots, 3);
    is_over(s);
}

/* Other words than those so far: nothing is promised but that no harm is done. */
static void go_astray(grown *s) {
    compressor_survey survey = COMPRESSOR_EMPTY;
    compressor_answer a;
    uint64_t *words = copy_of(s->words, s->count), *to, roots[4];
    for (uint64_t k = s->count > 0 ? below(40) : 0; k > 0; k--)
        words[below(s->count)] = one_in(2) ? any_word() : FROM + below(s->count);
    for (size_t k = 0; k < 4; k++) roots[k] = word_of(s->g, FROM, any_value(s->g));
    CALL(a, growing_also, &s->growing, words, s->count, roots, 4);
    if (a.status == COMPRESSOR_DONE) {
        IS(a.value >= s->kept && a.value <= s->count);
        CALL(a, growing_settle, &s->growing, &survey);
        IS(a.status == COMPRESSOR_DONE && a.value <= s->count);
        to = (uint64_t *)zeros(a.value, sizeof *to);
        CALL(a, survey_slide, &survey, words, s->count, 0, to, a.value);
        IS(a.status == COMPRESSOR_DONE || a.status == COMPRESSOR_CHANGED || a.status == COMPRESSOR_UNMARKED);
        DROP(survey_drop, &survey);
        free(to);
    } else {
        IS(a.status != COMPRESSOR_BAD_ROOT && a.status != COMPRESSOR_OUT_OF_MEMORY);
        give_back(s);
    }
    free(words);
}

/* The survey is that of marks of the kept objects. */
static void compare(grown *s) {
    compressor_survey survey = COMPRESSOR_EMPTY, wanted = COMPRESSOR_EMPTY;
    const size_t blocks = (s->count + 63) / 64;
    uint64_t *marks = (uint64_t *)zeros(blocks, sizeof *marks), live = 0, *to, *want;
    compressor_answer a;
    for (size_t i = 0; i < s->g->count; i++) {
        if (!s->is_kept[i]) continue;
        compressor_mark(marks, FROM + s->g->objects[i].place);
        live += s->g->objects[i].words;
    }
    own.refuse_next = one_in(12) ? 1 : 0;
    CALL(a, growing_settle, &s->growing, &survey);
    if (a.status == COMPRESSOR_OUT_OF_MEMORY) {
        is_over(s);
        free(marks);
        return;
    }
    answers(a, COMPRESSOR_DONE, live, 0);
    ANSWERS(COMPRESSOR_EMPTY_HANDLE, 0, growing_settle, &s->growing, &survey);
    DONE(live, survey_by_marks, s->g->edition, WORDS, s->words, 0, marks, blocks, &wanted);
    to = (uint64_t *)zeros(live, sizeof *to);
    want = (uint64_t *)zeros(live, sizeof *want);
    DONE(0, survey_slide, &survey, WORDS, 0, to, live);
    DONE(0, survey_slide, &wanted, WORDS, 0, want, live);
    SAME_WORDS(to, want, live);
    DONE(s->room, survey_return, &survey, &s->tables);
    DROP(tables_drop, &s->tables);
    DROP(survey_drop, &wanted);
    free(marks);
    free(to);
    free(want);
}

void growing_round(const graph *g, const uint64_t *words, uint64_t count) {
    grown all = {g, words, count, COMPRESSOR_EMPTY, COMPRESSOR_EMPTY, 0, one_in(2), NULL, 0}, *s = &all;
    s->is_kept = (int *)zeros(g->count, sizeof *s->is_kept);
    begin(s);
    for (uint64_t steps = below(8); steps > 0; steps--) {
        if (!(one_in(2) ? grow(s) : grow_by_values(s))) {
            IS(!s->is_lent);
            is_over(s);
            begin(s);
        }
        ask_kept(s);
    }
    if (one_in(4)) refuse(s);
    else if (one_in(4)) go_astray(s);
    else if (one_in(8)) give_back(s);
    else if (one_in(8)) DROP(growing_drop, &s->growing);
    else compare(s);
    free(s->is_kept);
}

/* All roots, in two arrays. The words of the survey are `live`. */
void survey_by_growing(uint32_t edition, const uint64_t *words, uint64_t count, const uint64_t *roots,
                       size_t root_count, uint64_t live, compressor_survey *survey) {
    const size_t some = below(root_count + 1);
    compressor_growing growing = COMPRESSOR_EMPTY;
    compressor_answer a;
    DONE(0, growing_begin, edition, words, count, &growing);
    CALL(a, growing_also, &growing, words, count, roots, some);
    IS(a.status == COMPRESSOR_DONE);
    CALL(a, growing_also, &growing, words, count, roots + some, root_count - some);
    IS(a.status == COMPRESSOR_DONE);
    DONE(live, growing_settle, &growing, survey);
}

/* The roots of a heap with a fault: it is over. Answers as it does. */
compressor_answer grow_by_fault(uint32_t edition, const uint64_t *words, uint64_t count, const uint64_t *roots,
                                size_t root_count) {
    compressor_growing growing = COMPRESSOR_EMPTY;
    compressor_tables tables = COMPRESSOR_EMPTY;
    compressor_answer a;
    DONE(0, growing_begin, edition, words, count, &growing);
    CALL(a, growing_also, &growing, words, count, roots, root_count);
    DONE(0, growing_return, &growing, &tables);
    DROP(tables_drop, &tables);
    return a;
}
