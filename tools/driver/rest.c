/* Heaps at rest, collected in each way. */
#include "driver.h"

#include <stdlib.h>

/* A heap at rest: these words are the graph, and anything between its objects. */
typedef struct rest {
    graph *g;
    uint64_t *words, count;
    uint64_t *roots;   /* as the graph has them */
    uint64_t *to;      /* room for the live words, and some behind */
    uint64_t *wanted;  /* what is to be there */
    uint64_t *wanted_roots;
    uint64_t live;
} rest;

#define BEHIND 5u
#define FILLER UINT64_C(0xeeeeeeeeeeeeeeee)

/* The runtime goes on: it writes, and makes objects, by the layer of compressor_rest.h. */
static void go_on(rest *r) {
    graph *g = r->g;
    compressor_space space = {0};
    compressor_buffer buffer = {0, 0, 0};
    const uint64_t room = r->count + below(600);
    r->words = (uint64_t *)realloc(r->words, (room + 1) * sizeof *r->words);
    IS(r->words != NULL);
    compressor_space_in(&space, g->edition, r->words, room, r->count);
    if (one_in(2)) compressor_space_limit(&space, r->count, below(4));
    for (uint64_t i = below(60); i > 0; i--) {
        const compressor_shape shape = any_shape(g->edition, 100);
        object *o = graph_add(g, shape);
        const uint64_t made = compressor_new(&space, &buffer, o->header, o->words);
        if (made == 0) {
            free(o->fields);
            g->count--;
            break;
        }
        o->place = made - FROM;
        IS(o->place + o->words <= space.used && compressor_shape_words(compressor_shape_at(&space, made)) == o->words);
        for (uint64_t k = 0; k + 1 < o->words; k++) IS(compressor_load(&space, made, k) == 0);
    }
    for (uint64_t i = below(60); g->count > 0 && i > 0; i--) {
        object *o = &g->objects[below(g->count)];
        const uint64_t at = FROM + o->place, most = o->shape.refs + o->shape.weak;
        uint64_t k;
        if (o->words == 1) continue;
        k = below(o->words - 1);
        o->fields[k] = k < most ? any_value(g) : any_word();
        compressor_store(&space, at, k, k < most ? word_of(g, FROM, o->fields[k]) : o->fields[k]);
        IS(compressor_load_acquire(&space, at, k) == compressor_load(&space, at, k));
    }
    /* what was made, and what buffers left, is a row of objects */
    for (uint64_t i = r->count; i < space.used;) {
        const uint64_t words = compressor_shape_words(compressor_shape_at(&space, FROM + i));
        IS(words <= space.used - i && words <= compressor_max_object_words(g->edition));
        i += words;
    }
    r->count = space.used;
    graph_roots(g, below(9));
}

/* Weak words to words of the heap at which no live object is. */
static void loosen(rest *r) {
    for (int i = 0; r->count > 0 && r->g->count > 0 && i < 10; i++) {
        object *o = &r->g->objects[below(r->g->count)];
        const uint64_t place = below(r->count);
        if (o->shape.weak == 0 || object_at(r->g, place)) continue;
        *field_of(o, WEAK, 0) = 0;
        r->words[o->place + 1 + o->shape.refs] = FROM + place;
    }
}

/* What the collection has to find. From now on the graph is that of afterwards. */
static void expect(rest *r, int more) {
    r->roots = root_words(r->g, FROM);
    graph_trace(r->g, more);
    loosen(r);
}
static void slid(rest *r) {
    graph_slide(r->g);
    r->live = graph_end(r->g);
    r->wanted = (uint64_t *)zeros(r->live + BEHIND, sizeof *r->wanted);
    for (uint64_t i = 0; i < BEHIND; i++) r->wanted[r->live + i] = FILLER;
    graph_fill(r->g, FROM, r->wanted);
    r->to = (uint64_t *)zeros(r->live + BEHIND, sizeof *r->to);
    for (uint64_t i = 0; i < r->live + BEHIND; i++) r->to[i] = FILLER;
    r->wanted_roots = root_words(r->g, FROM);
}

/* The heap lies in `to` from now on, if it is as wanted. */
static void moved(rest *r) {
    SAME_WORDS(r->to, r->wanted, r->live + BEHIND);
    SAME_WORDS(r->roots, r->wanted_roots, r->g->root_count);
    free(r->words);
    free(r->roots);
    free(r->wanted);
    free(r->wanted_roots);
    r->words = r->to;
    r->count = r->live;
}
static void stayed(rest *r) {
    memcpy(r->to, r->words, r->live * sizeof *r->to);
    moved(r);
}

#define HEAP r->g->edition, r->words, r->count, r->roots, r->g->root_count

static void lend(rest *r, compressor_tables *tables, uint64_t *room) {
    *room = r->count + (one_in(3) ? 0 : below(100));
    if (r->count > 0 && one_in(2)) {
        const uint64_t small = below(r->count);
        DONE(0, tables_reserve, small, tables);
        ANSWERS(COMPRESSOR_NOT_EMPTY, 0, tables_reserve, small, tables);
        ANSWERS(COMPRESSOR_SHORT_TABLES, small, collect_in_place_lent, tables, HEAP);
        ANSWERS(COMPRESSOR_SHORT_TABLES, small, collect_lent, tables, HEAP, r->to, r->live);
        DROP(tables_drop, tables);
    }
    DONE(0, tables_reserve, *room, tables);
}

static void collect_at_once(rest *r, uint64_t how) {
    compressor_tables tables = COMPRESSOR_EMPTY;
    const uint64_t too_few = r->live > 0 ? below(r->live) : 0, room = r->live + below(BEHIND + 1);
    uint64_t lent;
    if (how == 0) {
        if (r->live > 0) ANSWERS(COMPRESSOR_TOO_SHORT, r->live, collect, HEAP, r->to, too_few);
        DONE(r->live, collect, HEAP, r->to, room);
    } else if (how == 1) {
        DONE(r->live, collect_in_place, HEAP);
    } else {
        lend(r, &tables, &lent);
        if (r->live > 0) ANSWERS(COMPRESSOR_TOO_SHORT, r->live, collect_lent, &tables, HEAP, r->to, too_few);
        if (how == 2) DONE(r->live, collect_lent, &tables, HEAP, r->to, room);
        else DONE(r->live, collect_in_place_lent, &tables, HEAP);
        DROP(tables_drop, &tables);
    }
    if (how == 1 || how == 3) stayed(r);
    else moved(r);
}

/* Slides by pages; or by parts, in any order, each by a share or by the survey itself. */
static void slide_parts(rest *r, compressor_survey *survey) {
    const uint64_t parts = one_in(3) ? 0 : 1 + below(5), start = parts > 0 ? below(parts) : 0;
    compressor_survey share = COMPRESSOR_EMPTY;
    DONE(0, survey_share, survey, &share);
    if (parts == 0) slide_pages(survey, r->words, r->count, r->live, r->to);
    for (uint64_t i = 0; i < parts; i++) {
        size_t count;
        const uint64_t first = compressor_part(r->live, parts, (start + i) % parts, &count);
        DONE(0, survey_slide, one_in(2) ? survey : &share, r->words, r->count, first, r->to + first, count);
        if (i == 0) DONE(0, survey_slide, &share, r->words, r->count, first, r->to + first, count);
    }
    if (r->g->root_count > 0) {
        const size_t some = below(r->g->root_count);
        DONE(0, survey_forward, survey, r->roots, some);
        DONE(0, survey_forward, &share, r->roots + some, r->g->root_count - some);
    }
    DROP(survey_drop, &share);
}

/* A survey of another heap, of one word more: it is of no use for this one. */
static void ask_another(rest *r) {
    compressor_survey other = COMPRESSOR_EMPTY;
    uint64_t *words = (uint64_t *)zeros(r->count + 1, sizeof *words), part[1] = {5};
    uint64_t *roots = copy_of(r->roots, r->g->root_count);
    DONE(0, survey_by_roots, r->g->edition, words, r->count + 1, words, 0, &other);
    ANSWERS(COMPRESSOR_OTHER_COUNT, 0, survey_slide, &other, r->words, r->count, 0, part, 0);
    ANSWERS(COMPRESSOR_NO_SUCH_PART, 0, survey_slide, &other, r->words, r->count + 1, 0, part, 1);
    for (size_t k = 0; k < r->g->root_count; k++) {
        if (!is_object(roots[k])) continue;
        ANSWERS(COMPRESSOR_BAD_ROOT, k, survey_forward, &other, r->roots, r->g->root_count);
        break;
    }
    IS(part[0] == 5);
    SAME_WORDS(r->roots, roots, r->g->root_count);
    DROP(survey_drop, &other);
    free(words);
    free(roots);
}

/* What else is asked of a survey, and refused. The graph is that of afterwards: its objects slid. */
static void ask_survey(rest *r, compressor_survey *survey) {
    compressor_survey_facts facts;
    uint64_t part[2] = {5, 6}, weak[3] = {0, FROM + r->count, any_word() | COMPRESSOR_IMMEDIATE}, immediate = weak[2];
    DONE(0, survey_facts_of, survey, &facts);
    SAME(facts.live_words, r->live);
    ANSWERS(COMPRESSOR_NO_SUCH_PART, 0, survey_slide, survey, r->words, r->count, r->live, part, 1);
    ANSWERS(COMPRESSOR_NO_SUCH_PART, 0, survey_slide, survey, r->words, r->count, UINT64_MAX, part, 2);
    if (r->count > 0)
        ANSWERS(COMPRESSOR_OTHER_COUNT, 0, survey_slide, survey, r->words, r->count - 1, 0, part, 0);
    ANSWERS(COMPRESSOR_BAD_ROOT, 1, survey_forward, survey, weak, 2);
    IS(part[0] == 5 && part[1] == 6 && weak[0] == 0 && weak[1] == FROM + r->count);
    DONE(r->g->edition == 4 ? 1 : 2, survey_forward_weak, survey, weak, 3);
    IS(weak[0] == 0 && weak[1] == 0 && weak[2] == (r->g->edition == 4 ? immediate : 0));
}

/* Helpers come and go, and the last one finishes. */
static void survey_by_job(rest *r, compressor_survey *survey) {
    compressor_job job = COMPRESSOR_EMPTY, share = COMPRESSOR_EMPTY;
    compressor_answer a;
    uint64_t helps = below(30);
    DONE(0, job_begin, HEAP, &job);
    if (one_in(4)) {
        CALL(a, job_help, &job, any_word());
        DROP(job_drop, &job);
        DONE(0, job_begin, HEAP, &job);
    }
    DONE(0, job_share, &job, &share);
    ANSWERS(COMPRESSOR_STILL_SHARED, 0, job_finish, &job, survey);
    while (helps-- > 0) {
        CALL(a, job_help, one_in(2) ? &job : &share, below(4));
        answers(a, COMPRESSOR_DONE, a.value, 0);
        IS(a.value <= COMPRESSOR_HELP_IDLE);
    }
    DROP(job_drop, &share);
    own.refuse_next = one_in(3) ? 1 + below(3) : 0;
    CALL(a, job_finish, &job, survey);
    if (a.status == COMPRESSOR_OUT_OF_MEMORY) { /* then the job is gone, and the survey is empty */
        ANSWERS(COMPRESSOR_EMPTY_HANDLE, 0, job_share, &job, &share);
        ANSWERS(COMPRESSOR_EMPTY_HANDLE, 0, survey_share, survey, &(compressor_survey)COMPRESSOR_EMPTY);
        DONE(0, job_begin, HEAP, &job);
        CALL(a, job_finish, &job, survey);
    }
    answers(a, COMPRESSOR_DONE, r->live, 0);
    ANSWERS(COMPRESSOR_EMPTY_HANDLE, 0, job_help, &job, 0);
}

/* The same in steps, over words that are lent. Some roots are met later. */
static void survey_by_marking(rest *r, compressor_survey *survey) {
    compressor_marking marking = COMPRESSOR_EMPTY, share = COMPRESSOR_EMPTY;
    const uint32_t edition = r->g->edition;
    const uint64_t astray[2] = {0, FROM + r->count};
    const size_t roots = r->g->root_count;
    compressor_answer a;
    if (edition < 3) {
        ANSWERS(COMPRESSOR_BAD_EDITION, edition, marking_begin, edition, r->count, r->roots, roots, &marking);
        DONE(r->live, survey_by_roots, HEAP, survey);
        return;
    }
    do {
        DONE(0, marking_begin, edition, r->count, r->roots, below(roots + 1), &marking);
        DONE(0, marking_share, &marking, &share);
        ANSWERS(COMPRESSOR_STILL_SHARED, 0, marking_finish, &marking, r->roots, roots, survey);
        if (r->count > 0) ANSWERS(COMPRESSOR_WRONG_LENGTH, 0, marking_help, &share, r->words, r->count - 1, 0);
        for (uint64_t helps = below(30); helps > 0; helps--) {
            CALL(a, marking_help, one_in(2) ? &marking : &share, r->words, r->count, below(4));
            answers(a, COMPRESSOR_DONE, a.value, 0);
            IS(a.value <= COMPRESSOR_HELP_IDLE);
        }
        DONE(0, marking_meet, one_in(2) ? &marking : &share, r->roots, roots);
        ANSWERS(COMPRESSOR_BAD_ROOT, 1, marking_meet, &marking, astray, 2);
        DROP(marking_drop, &share);
        if (one_in(4)) own.refuse_next = 1 + below(3);
        do CALL(a, marking_help, &marking, r->words, r->count, any_word());
        while (a.value != COMPRESSOR_HELP_DONE);
        if (one_in(4)) own.refuse_next = 1 + below(3);
        CALL(a, marking_finish, &marking, r->roots, roots, survey);
        ANSWERS(COMPRESSOR_EMPTY_HANDLE, 0, marking_help, &marking, r->words, r->count, 0);
    } while (a.status == COMPRESSOR_OUT_OF_MEMORY); /* then the marking is gone, and the survey is empty */
    answers(a, COMPRESSOR_DONE, r->live, 0);
}

/* Some roots as roots, and all of them guarded: together these hold what all roots do. */
static void survey_with_guards(rest *r, compressor_survey *survey) {
    size_t count = r->g->root_count, some = below(count + 1);
    uint64_t *guarded = copy_of(r->roots, count), lost = count + 1;
    DONE(r->live, survey_guarded, r->g->edition, r->words, r->count, r->roots, some, r->roots, 0, guarded, count,
         survey, &lost);
    IS(lost <= count - some);
    for (size_t k = 0, j = 0; k < count; k++) { /* both keep their order */
        if (j < lost && guarded[j] == r->roots[k]) j++;
        else IS(guarded[lost + k - j] == r->roots[k]);
    }
    free(guarded);
}

/* The bits of a marker: of the first words of the live objects, and of all their words. */
typedef struct bits {
    uint64_t *heads, *live;
    size_t blocks;
} bits;

#define BITS(heads_, live_) r->count, r->roots, r->g->root_count, heads_, b->blocks, live_, b->blocks

/* What is refused of bits that are no runs. */
static void spoil_bits(rest *r, const bits *b, compressor_survey *survey) {
    uint64_t *heads = copy_of(b->heads, b->blocks), *live = copy_of(b->live, b->blocks);
    const uint64_t i = below(r->count), bit = UINT64_C(1) << (i % 64);
    const int was_live = compressor_is_marked(live, FROM + i), was_head = compressor_is_marked(heads, FROM + i);
    const int is_behind = i > 0 && compressor_is_marked(live, FROM + i - 1);
    const uint32_t edition = r->g->edition;
    live[i / 64] ^= bit;
    if (was_head || !is_behind) ANSWERS(COMPRESSOR_NOT_A_RUN, i, survey_by_bits, edition, BITS(heads, live), survey);
    live[i / 64] ^= bit;
    heads[i / 64] ^= bit;
    if (!was_live || (was_head && !is_behind))
        ANSWERS(COMPRESSOR_NOT_A_RUN, i, survey_by_bits, edition, BITS(heads, live), survey);
    heads[i / 64] ^= bit;
    if (r->count % 64 != 0) {
        compressor_mark(heads, FROM + r->count);
        compressor_mark_live(live, FROM + r->count, 1);
        ANSWERS(COMPRESSOR_OBJECT_PAST_END, r->count, survey_by_bits, edition, BITS(heads, live), survey);
    }
    free(heads);
    free(live);
}

static void survey_by_bits(rest *r, const bits *b, compressor_survey *survey) {
    const uint32_t edition = r->g->edition;
    if (edition < 3) {
        ANSWERS(COMPRESSOR_BAD_EDITION, edition, survey_by_bits, edition, BITS(b->heads, b->live), survey);
        DONE(r->live, survey_by_marks, HEAP, b->heads, b->blocks, survey);
        return;
    }
    ANSWERS(COMPRESSOR_WRONG_LENGTH, 0, survey_by_bits, edition, r->count + 64, r->roots, 0, b->heads, b->blocks, b->live,
            b->blocks + 1, survey);
    ANSWERS(COMPRESSOR_WRONG_LENGTH, 0, survey_by_bits, edition, r->count + 64, r->roots, 0, b->heads, b->blocks + 1,
            b->live, b->blocks, survey);
    if (r->count > 0) spoil_bits(r, b, survey);
    DONE(r->live, survey_by_bits, edition, BITS(b->heads, b->live), survey);
}

static void collect_by_survey(rest *r, uint64_t how, const bits *b) {
    compressor_survey survey = COMPRESSOR_EMPTY, share = COMPRESSOR_EMPTY;
    compressor_tables tables = COMPRESSOR_EMPTY;
    uint64_t room = 0;
    if (how == 4) {
        if (one_in(3)) DONE(r->live, survey_by_roots, HEAP, &survey);
        else if (one_in(2)) survey_by_growing(HEAP, r->live, &survey);
        else survey_with_guards(r, &survey);
    }
    if (how == 5) {
        ANSWERS(COMPRESSOR_WRONG_LENGTH, 0, survey_by_marks, HEAP, b->heads, b->blocks + 1, &survey);
        DONE(r->live, survey_by_marks, HEAP, b->heads, b->blocks, &survey);
    }
    if (how == 6) {
        lend(r, &tables, &room);
        DONE(r->live, survey_by_roots_lent, &tables, HEAP, &survey);
        ANSWERS(COMPRESSOR_EMPTY_HANDLE, 0, collect_in_place_lent, &tables, HEAP);
    }
    if (how == 7) survey_by_job(r, &survey);
    if (how == 8) survey_by_bits(r, b, &survey);
    if (how == 9) answers(survey_by_looks(HEAP, b->heads, &survey), COMPRESSOR_DONE, r->live, 0);
    if (how == 10) survey_by_marking(r, &survey);
    ask_survey(r, &survey);
    if (one_in(4)) ask_another(r);
    slide_parts(r, &survey);
    if (how == 6 || one_in(4)) {
        DONE(0, survey_share, &survey, &share);
        ANSWERS(COMPRESSOR_STILL_SHARED, 0, survey_return, &survey, &tables);
        DROP(survey_drop, &share);
        DONE(room, survey_return, &survey, &tables);
        ANSWERS(COMPRESSOR_EMPTY_HANDLE, 0, survey_facts_of, &survey, &(compressor_survey_facts){0});
        DROP(tables_drop, &tables);
    }
    DROP(survey_drop, &survey);
    moved(r);
}

static bits bits_of(const rest *r) {
    bits b;
    b.blocks = (r->count + 63) / 64;
    b.heads = (uint64_t *)zeros(b.blocks + 1, sizeof *b.heads);
    b.live = (uint64_t *)zeros(b.blocks + 1, sizeof *b.live);
    for (size_t i = 0; i < r->g->count; i++) {
        const object *o = &r->g->objects[i];
        if (!o->is_live) continue;
        IS(compressor_mark(b.heads, FROM + o->place) && !compressor_mark(b.heads, FROM + o->place));
        IS(compressor_is_marked(b.heads, FROM + o->place));
        compressor_mark_live(b.live, FROM + o->place, o->words);
    }
    return b;
}

/* The graph lies at rest in these words, which go. */
void rest_round(graph *g, uint64_t *words, uint64_t count) {
    rest all = {g, words, count, NULL, NULL, NULL, NULL, 0}, *r = &all;
    for (uint64_t times = 1 + below(8); times > 0; times--) {
        const uint64_t how = below(12);
        bits b;
        go_on(r);
        expect(r, how == 5 || how == 8);
        if (one_in(3)) rest_faults(g, r->words, r->count);
        if (one_in(2)) growing_round(g, r->words, r->count);
        if (how == 11) {
            r->count = pinned_round(g, r->words, r->count);
            free(r->roots);
            continue;
        }
        b = bits_of(r);
        slid(r);
        if (how < 4) collect_at_once(r, how);
        else collect_by_survey(r, how, &b);
        free(b.heads);
        free(b.live);
    }
    free(r->words);
}
