/* What an edition allows: shapes and immediates, and what is too large. */
#include "driver.h"

#include <stdlib.h>

/* The shapes of headers, and small integers, as the inline functions of the headers say. */
void check_words(void) {
    for (int i = 0; i < 200; i++) {
        const uint32_t edition = 1 + (uint32_t)below(4);
        const compressor_shape shape = any_shape(edition, one_in(4) ? 60000 : 50);
        const compressor_shape said = compressor_shape_of(edition, any_header(edition, shape));
        const int64_t a = (int64_t)any_word() / 32, b = (int64_t)(any_word() >> below(64)) / 32;
        const uint32_t small = (uint32_t)below(8);
        uint64_t header = 0, sum;
        IS(memcmp(&said, &shape, sizeof said) == 0);
        IS(compressor_shape_header(edition, shape, &header));
        SAME(header, edition == 1 ? shape.refs + ((uint64_t)shape.data << 16) + ((uint64_t)shape.tag << 32)
                                  : shape.refs + ((uint64_t)shape.data << 16) + ((uint64_t)shape.weak << 32) +
                                        ((uint64_t)shape.tag << 48));
        IS(compressor_fixnum_value(compressor_fixnum(a)) == a && compressor_is_immediate(compressor_fixnum(a)));
        IS(compressor_is_small(compressor_small(small, a), small));
        SAME((uint64_t)compressor_small_value(compressor_small(small, a)), (uint64_t)a);
        IS(compressor_small_fits(a) && compressor_fixnum_add(compressor_fixnum(a), compressor_fixnum(b), &sum) ==
                                            compressor_small_fits(a + b));
        IS(!compressor_small_fits(a + b) || compressor_fixnum_value(sum) == a + b);
    }
}

/* The end of an idle cycle of a heap of the first edition that has as many live words as it may. */
static void largest(compressor_end *end) {
    enum { OBJECTS = 1024 };
    const size_t count = (size_t)compressor_max_words(1);
    uint64_t *words = (uint64_t *)zeros(count + 1, sizeof *words);
    uint32_t marks[OBJECTS];
    compressor_heap heap = COMPRESSOR_EMPTY;
    compressor_plan plan = COMPRESSOR_EMPTY;
    compressor_crew crew = COMPRESSOR_EMPTY;
    compressor_plan_facts facts;
    for (size_t i = 0; i < OBJECTS; i++) {
        words[1024 * i] = (uint64_t)1023 << 16;
        marks[i] = (uint32_t)(1024 * i);
    }
    ANSWERS(COMPRESSOR_TOO_LARGE, 0, heap_by_roots, 1, words, count + 1, words, 0, &heap);
    ANSWERS(COMPRESSOR_TOO_LARGE, 0, collect_in_place, 2, words, count + 1, words, 0);
    words[1024] += 1 << 16;
    ANSWERS(COMPRESSOR_OBJECT_TOO_LONG, 1024, heap_by_marks, 2, words, count, marks, OBJECTS, words, 0, &heap);
    words[1024] -= 1 << 16;
    DONE(0, heap_by_marks, 1, words, count, marks, OBJECTS, words, 0, &heap);
    DONE(0, heap_plan, &heap, &plan);
    DONE(0, plan_facts_of, &plan, &facts);
    SAME(facts.live_words, count);
    SAME(facts.most_fresh_pages, 0);
    ANSWERS(COMPRESSOR_TOO_MANY_PAGES, 0, plan_flip, &plan, 1, 1, &crew);
    DONE(1, plan_flip, &plan, 1, 0, &crew);
    DROP(plan_drop, &plan);
    DONE(count, crew_finish, &crew, end);
    free(words);
}

void limits_round(void) {
    enum { ROOTS = 4097, MANY = (1 << 20) + 1 };
    uint64_t *roots = (uint64_t *)zeros(ROOTS, sizeof *roots), *many = (uint64_t *)zeros(MANY, sizeof *many);
    uint64_t words[2] = {0, 0}, to[2] = {0, 0}, runs = 0;
    compressor_heap heap = COMPRESSOR_EMPTY;
    compressor_survey survey = COMPRESSOR_EMPTY;
    compressor_tables tables = COMPRESSOR_EMPTY;
    compressor_old old = COMPRESSOR_EMPTY;
    compressor_growing growing = COMPRESSOR_EMPTY;
    compressor_job job = COMPRESSOR_EMPTY;
    compressor_marking marking = COMPRESSOR_EMPTY;
    compressor_looks looks = COMPRESSOR_EMPTY;
    compressor_lane lane = COMPRESSOR_EMPTY;
    compressor_end end = COMPRESSOR_EMPTY;
    uint32_t marks[1] = {0};
    uint8_t bytes[1] = {0};
    DONE(0, tables_reserve, 2, &tables);
    DONE(0, old_reserve, 2, &old);
    for (uint32_t edition = 1; edition <= 2; edition++) {
        const uint64_t too_many = compressor_max_words(edition + 2) + 1;
        ANSWERS(COMPRESSOR_TOO_LARGE, 0, heap_by_roots, edition, words, 2, roots, ROOTS, &heap);
        ANSWERS(COMPRESSOR_TOO_LARGE, 0, heap_by_marks, edition, words, 2, marks, 0, roots, ROOTS, &heap);
        ANSWERS(COMPRESSOR_TOO_LARGE, 0, collect, edition, words, 2, roots, ROOTS, to, 2);
        ANSWERS(COMPRESSOR_TOO_LARGE, 0, collect_in_place, edition, words, 2, roots, ROOTS);
        ANSWERS(COMPRESSOR_TOO_LARGE, 0, collect_pinned, edition, words, 2, roots, ROOTS, to, 0, to, 2, &runs);
        ANSWERS(COMPRESSOR_TOO_LARGE, 0, collect_pinned, edition, words, 2, to, 0, roots, ROOTS, to, 2, &runs);
        ANSWERS(COMPRESSOR_TOO_LARGE, 0, collect_lent, &tables, edition, words, 2, roots, ROOTS, to, 2);
        ANSWERS(COMPRESSOR_TOO_LARGE, 0, collect_all, &old, edition, words, 2, roots, ROOTS);
        ANSWERS(COMPRESSOR_TOO_LARGE, 0, collect_young, &old, edition, words, 2, bytes, 1, roots, ROOTS);
        ANSWERS(COMPRESSOR_TOO_LARGE, 0, collect_young_by, &old, edition, words, 2, to, 0, roots, ROOTS);
        ANSWERS(COMPRESSOR_TOO_LARGE, 0, collect_aging, &old, edition, words, 2, bytes, 1, roots, ROOTS);
        ANSWERS(COMPRESSOR_TOO_LARGE, 0, old_raise, &old, edition, many, MANY, 0);
        DONE(0, collect_all, &old, edition + 2, words, 2, roots, ROOTS);
        ANSWERS(COMPRESSOR_TOO_LARGE, 0, survey_by_roots, edition, words, 2, roots, ROOTS, &survey);
        ANSWERS(COMPRESSOR_TOO_LARGE, 0, survey_by_roots_lent, &tables, edition, words, 2, roots, ROOTS, &survey);
        ANSWERS(COMPRESSOR_TOO_LARGE, 0, survey_by_marks, edition, words, 2, roots, ROOTS, words, 1, &survey);
        ANSWERS(COMPRESSOR_BAD_EDITION, edition, survey_by_bits, edition, 2, roots, ROOTS, words, 1, words, 1, &survey);
        ANSWERS(COMPRESSOR_TOO_LARGE, 0, survey_by_bits, edition + 2, too_many, roots, 1, words, 1, words, 1, &survey);
        ANSWERS(COMPRESSOR_BAD_EDITION, edition, marking_begin, edition, too_many, roots, ROOTS, &marking);
        ANSWERS(COMPRESSOR_TOO_LARGE, 0, marking_begin, edition + 2, too_many, roots, 1, &marking);
        ANSWERS(COMPRESSOR_BAD_EDITION, edition, looks_begin, edition, too_many, roots, ROOTS, &looks);
        ANSWERS(COMPRESSOR_TOO_LARGE, 0, looks_begin, edition + 2, too_many, roots, 1, &looks);
        ANSWERS(COMPRESSOR_BAD_EDITION, edition, lane_begin, edition, too_many, &lane);
        ANSWERS(COMPRESSOR_BAD_EDITION, edition + 4, lane_begin, edition + 4, too_many, &lane);
        ANSWERS(COMPRESSOR_TOO_LARGE, 0, lane_begin, edition + 2, too_many, &lane);
        DONE(0, growing_begin, edition, words, 2, &growing);
        ANSWERS(COMPRESSOR_TOO_LARGE, 0, growing_also, &growing, words, 2, roots, ROOTS);
        DROP(growing_drop, &growing);
        ANSWERS(COMPRESSOR_TOO_LARGE, 0, job_begin, edition, words, 2, roots, ROOTS, &job);
        DONE(0, heap_by_roots, edition + 2, words, 2, roots, ROOTS, &heap);
        DROP(heap_drop, &heap);
    }
    DONE(0, collect_in_place_lent, &tables, 3, words, 2, roots, ROOTS);
    largest(&end);
    ANSWERS(COMPRESSOR_TOO_LARGE, 0, end_next_by_roots, &end, roots, ROOTS, &heap);
    ANSWERS(COMPRESSOR_TOO_LARGE, 0, end_next_by_marks, &end, marks, 1, roots, ROOTS, &heap);
    DONE(0, end_next_by_marks, &end, marks, 1, roots, ROOTS - 1, &heap);
    DROP(heap_drop, &heap);
    DROP(tables_drop, &tables);
    DROP(old_return, &old);
    SAME(blocks_kept(), 0);
    free(roots);
    free(many);
}
