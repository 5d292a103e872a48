/* What is refused of a heap at rest, after which all is as it was. */
#include "driver.h"

#include <stdlib.h>

/* A heap at rest with one fault. */
typedef struct faulty {
    const graph *g;
    uint64_t *words, count;
    uint64_t *roots;
    size_t root_count;
    uint32_t status;  /* of the fault; for a size that is wrong OBJECT_PAST_END, and any of its kind is good */
    uint64_t number;
} faulty;

static int is_size(uint32_t status) {
    return status == COMPRESSOR_OBJECT_PAST_END || status == COMPRESSOR_OBJECT_TOO_LONG || status == COMPRESSOR_OVERLAP;
}

static void refused(const faulty *f, compressor_answer a, int is_by_marks) {
    const uint32_t status =
        is_by_marks && f->status == COMPRESSOR_BAD_REFERENCE ? COMPRESSOR_UNMARKED_TARGET : f->status;
    if (!is_size(status)) {
        answers(a, status, f->number, 0);
    } else if (a.status == COMPRESSOR_OVERLAP && is_size(status)) {
        IS(object_at(f->g, a.value) != NULL && a.other == 0);
    } else {
        answers(a, is_size(a.status) ? a.status : status, f->number, 0);
    }
}

#define FAULTY f->g->edition, f->words, f->count, f->roots, f->root_count

static void collect_faulty(const faulty *f, uint64_t how) {
    compressor_survey survey = COMPRESSOR_EMPTY;
    compressor_tables tables = COMPRESSOR_EMPTY;
    compressor_job job = COMPRESSOR_EMPTY;
    compressor_answer a;
    uint64_t *to = copy_of(f->words, f->count), *words = copy_of(f->words, f->count);
    uint64_t *roots = copy_of(f->roots, f->root_count);
    DONE(0, tables_reserve, f->count, &tables);
    if (how == 0) CALL(a, collect, FAULTY, to, f->count);
    else if (how == 1) CALL(a, collect_in_place, FAULTY);
    else if (how == 2) CALL(a, collect_lent, &tables, FAULTY, to, f->count);
    else if (how == 3) CALL(a, collect_in_place_lent, &tables, FAULTY);
    else if (how == 4) CALL(a, survey_by_roots, FAULTY, &survey);
    else if (how == 5) CALL(a, survey_by_roots_lent, &tables, FAULTY, &survey);
    else if (how == 6) a = survey_by_looks(FAULTY, NULL, &survey);
    else if (how == 7) a = grow_by_fault(FAULTY);
    else {
        DONE(0, job_begin, FAULTY, &job);
        if (one_in(2)) CALL(a, job_help, &job, 1);
        CALL(a, job_finish, &job, &survey);
        ANSWERS(COMPRESSOR_EMPTY_HANDLE, 0, job_share, &job, &(compressor_job)COMPRESSOR_EMPTY);
    }
    refused(f, a, 0);
    SAME_WORDS(f->words, words, f->count);
    SAME_WORDS(f->roots, roots, f->root_count);
    SAME_WORDS(to, words, f->count);
    ANSWERS(COMPRESSOR_EMPTY_HANDLE, 0, survey_facts_of, &survey, &(compressor_survey_facts){0});
    DONE(0, collect_in_place_lent, &tables, f->g->edition, f->words, f->count, f->roots, 0);
    DROP(tables_drop, &tables);
    free(to);
    free(words);
    free(roots);
}

static void mark_faulty(const faulty *f) {
    compressor_survey survey = COMPRESSOR_EMPTY;
    compressor_answer a;
    const size_t blocks = (f->count + 63) / 64;
    uint64_t *marks = (uint64_t *)zeros(blocks, sizeof *marks), *live = (uint64_t *)zeros(blocks, sizeof *live);
    for (size_t i = 0; i < f->g->count; i++) {
        const object *o = &f->g->objects[i];
        if (!o->is_live) continue;
        compressor_mark(marks, FROM + o->place);
        compressor_mark_live(live, FROM + o->place, o->words);
    }
    CALL(a, survey_by_marks, FAULTY, marks, blocks, &survey);
    refused(f, a, 1);
    if (f->status == COMPRESSOR_BAD_ROOT && f->g->edition >= 3)
        ANSWERS(COMPRESSOR_BAD_ROOT, f->number, survey_by_bits, f->g->edition, f->count, f->roots, f->root_count, marks,
                blocks, live, blocks, &survey);
    ANSWERS(COMPRESSOR_EMPTY_HANDLE, 0, survey_facts_of, &survey, &(compressor_survey_facts){0});
    free(marks);
    free(live);
}

/* A marking in steps sees sizes alone. A reference is for the slide. */
static void mark_faulty_in_steps(const faulty *f) {
    compressor_marking marking = COMPRESSOR_EMPTY;
    compressor_survey survey = COMPRESSOR_EMPTY;
    compressor_answer a;
    uint64_t *to;
    if (f->g->edition < 3 || f->status == COMPRESSOR_BAD_WEAK) return;
    if (f->status == COMPRESSOR_BAD_ROOT) {
        ANSWERS(COMPRESSOR_BAD_ROOT, f->number, marking_begin, f->g->edition, f->count, f->roots, f->root_count,
                &marking);
        return;
    }
    do {
        DONE(0, marking_begin, f->g->edition, f->count, f->roots, f->root_count, &marking);
        do CALL(a, marking_help, &marking, f->words, f->count, 1);
        while (a.value != COMPRESSOR_HELP_DONE);
        CALL(a, marking_finish, &marking, f->roots, f->root_count, &survey);
    } while (a.status == COMPRESSOR_OUT_OF_MEMORY);
    if (is_size(f->status)) {
        answers(a, COMPRESSOR_BAD_OBJECT, a.value, 0);
        IS(object_at(f->g, a.value) != NULL);
        return;
    }
    answers(a, COMPRESSOR_DONE, a.value, 0);
    to = (uint64_t *)zeros(a.value, sizeof *to);
    ANSWERS(COMPRESSOR_UNMARKED, f->number, survey_slide, &survey, f->words, f->count, 0, to, a.value);
    DROP(survey_drop, &survey);
    free(to);
}

static void refuse(faulty *f, uint32_t status, uint64_t number) {
    f->status = status;
    f->number = number;
    collect_faulty(f, below(9));
    if (one_in(2)) mark_faulty(f);
    if (one_in(2)) mark_faulty_in_steps(f);
}

/* A live object, or none. */
static const object *any_live(const graph *g) {
    for (int i = 0; g->count > 0 && i < 20; i++) {
        const object *o = &g->objects[below(g->count)];
        if (o->is_live) return o;
    }
    return NULL;
}

/* The object says that it has so many words, if a header of the mixed form can say it. */
static int resize(faulty *f, const object *o, uint64_t words) {
    compressor_shape s = o->shape;
    if (s.refs >= 65536 || s.weak >= 65536 || words < 1u + s.refs + s.weak) return 0;
    if (words - 1 - s.refs - s.weak >= 65536) return 0;
    s.data = (uint32_t)(words - 1 - s.refs - s.weak);
    return compressor_shape_header(f->g->edition, s, &f->words[o->place]);
}

static void change_sizes(faulty *f, const object *o) {
    const object *next = NULL;
    const uint64_t past = f->count - o->place + 1 + below(100);
    if (resize(f, o, past)) refuse(f, COMPRESSOR_OBJECT_PAST_END, o->place);
    for (size_t i = 0; i < f->g->count; i++) {
        const object *it = &f->g->objects[i];
        if (it->is_live && it->place > o->place && (next == NULL || it->place < next->place)) next = it;
    }
    if (next != NULL && resize(f, o, next->place - o->place + 1)) refuse(f, COMPRESSOR_OVERLAP, o->place);
    f->words[o->place] = o->header;
}

/* Words that changed since the survey. */
static void change_since(faulty *f, const object *o) {
    compressor_survey survey = COMPRESSOR_EMPTY;
    const uint64_t live = live_words(f->g);
    uint64_t *to = (uint64_t *)zeros(live + 1, sizeof *to);
    DONE(live, survey_by_roots, FAULTY, &survey);
    to[live] = 9;
    if (resize(f, o, o->words + 1)) {
        ANSWERS(COMPRESSOR_CHANGED, o->place, survey_slide, &survey, f->words, f->count, 0, to, live);
        f->words[o->place] = o->header;
    }
    if (o->shape.refs > 0) {
        const uint64_t k = below(o->shape.refs), was = f->words[o->place + 1 + k];
        f->words[o->place + 1 + k] = one_in(2) ? FROM + f->count : FROM - 1;
        ANSWERS(COMPRESSOR_UNMARKED, o->place + 1 + k, survey_slide, &survey, f->words, f->count, 0, to, live);
        f->words[o->place + 1 + k] = was;
    }
    DONE(0, survey_slide, &survey, f->words, f->count, 0, to, live);
    IS(to[live] == 9);
    DROP(survey_drop, &survey);
    free(to);
}

void rest_faults(graph *g, const uint64_t *words, uint64_t count) {
    uint64_t *roots = root_words(g, FROM);
    faulty all = {g, copy_of(words, count), count, NULL, g->root_count, 0, 0}, *f = &all;
    const uint64_t astray[] = {FROM + count, 1, TO, FROM - 1, COMPRESSOR_IMMEDIATE - 1, UINT64_MAX};
    const uint64_t wrong = astray[below(g->edition == 4 ? 5 : 6)], bad = one_in(2) ? 0 : 5 + below(1 << 20);
    int *lived = (int *)zeros(g->count, sizeof *lived);
    compressor_survey survey = COMPRESSOR_EMPTY;
    const object *o;
    for (size_t i = 0; i < g->count; i++) lived[i] = g->objects[i].is_live;
    f->roots = (uint64_t *)zeros(g->root_count + 1, sizeof *f->roots);
    for (size_t k = 0; k < g->root_count; k++) f->roots[k] = roots[k];
    graph_trace(g, 0);
    o = any_live(g);

    f->root_count++;
    f->roots[g->root_count] = wrong;
    refuse(f, COMPRESSOR_BAD_ROOT, g->root_count);
    f->root_count--;
    ANSWERS(COMPRESSOR_BAD_EDITION, bad, collect_in_place, (uint32_t)bad, f->words, count, f->roots, 0);
    ANSWERS(COMPRESSOR_BAD_EDITION, bad, survey_by_roots, (uint32_t)bad, f->words, count, f->roots, 0, &survey);
    if (o != NULL) {
        if (o->shape.refs > 0) {
            const uint64_t at = o->place + 1 + below(o->shape.refs), was = f->words[at];
            f->words[at] = wrong;
            refuse(f, COMPRESSOR_BAD_REFERENCE, at);
            f->words[at] = was;
        }
        if (o->shape.weak > 0) {
            const uint64_t at = o->place + 1 + o->shape.refs + below(o->shape.weak), was = f->words[at];
            f->words[at] = wrong;
            refuse(f, COMPRESSOR_BAD_WEAK, at);
            f->words[at] = was;
        }
        change_sizes(f, o);
        change_since(f, o);
    }
    for (size_t i = 0; i < g->count; i++) g->objects[i].is_live = lived[i];
    free(f->words);
    free(f->roots);
    free(roots);
    free(lived);
}
