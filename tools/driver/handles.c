/* Handles that are empty, full, or of another kind. */
#include "driver.h"

#include <stdlib.h>

/* One handle of each kind, and what calls write to. */
typedef struct all {
    compressor_heap heap;
    compressor_plan plan, plan_share;
    compressor_crew crew;
    compressor_mutator mutator, other;
    compressor_end end;
    compressor_survey survey, survey_share;
    compressor_tables tables;
    compressor_old old;
    compressor_growing growing;
    compressor_job job, job_share;
    compressor_marking marking, marking_share;
    compressor_looks looks;
    compressor_lane lane, lane_share;
    compressor_pages pages, pages_share;
    uint64_t words[64];
    uint32_t marks[1];
    uint8_t bytes[64];
    compressor_heap_facts heap_facts;
    compressor_plan_facts plan_facts;
    compressor_mutator_facts mutator_facts;
    compressor_end_facts end_facts;
    compressor_survey_facts survey_facts;
    compressor_entry entry;
} all;

#define EMPTY(name, ...) ANSWERS(COMPRESSOR_EMPTY_HANDLE, 0, name, __VA_ARGS__)

static void ask_empty(all *a) {
    EMPTY(collect_lent, &a->tables, 9, a->words, 1, a->words + 1, 1, a->words + 2, 1);
    EMPTY(collect_in_place_lent, &a->tables, 1, a->words, 1, a->words + 1, 1);
    EMPTY(survey_by_roots_lent, &a->tables, 1, a->words, 1, a->words + 1, 1, &a->survey);
    EMPTY(survey_facts_of, &a->survey, &a->survey_facts);
    EMPTY(survey_share, &a->survey, &a->survey_share);
    EMPTY(survey_slide, &a->survey, a->words, 1, 0, a->words + 1, 1);
    EMPTY(survey_forward, &a->survey, a->words, 1);
    EMPTY(survey_forward_weak, &a->survey, a->words, 1);
    EMPTY(survey_return, &a->survey, &a->tables);
    EMPTY(watermark, &a->old);
    EMPTY(collect_all, &a->old, 9, a->words, 1, a->words + 1, 1);
    EMPTY(collect_young, &a->old, 9, a->words, 1, a->bytes, 1, a->words + 1, 1);
    EMPTY(collect_young_by, &a->old, 9, a->words, 1, a->words + 2, 1, a->words + 1, 1);
    EMPTY(collect_aging, &a->old, 9, a->words, 1, a->bytes, 1, a->words + 1, 1);
    EMPTY(old_raise, &a->old, 9, a->words, 1, 1);
    EMPTY(old_check, &a->old, 9, a->words, 1, a->bytes, 1);
    EMPTY(growing_begin_lent, &a->tables, 9, a->words, 1, &a->growing);
    EMPTY(growing_also, &a->growing, a->words, 1, a->words + 1, 1);
    EMPTY(growing_also_values, &a->growing, a->words, 1, a->words + 1, 3);
    EMPTY(growing_keeps, &a->growing, 0);
    EMPTY(growing_settle, &a->growing, &a->survey);
    EMPTY(growing_return, &a->growing, &a->tables);
    EMPTY(job_share, &a->job, &a->job_share);
    EMPTY(job_help, &a->job, 1);
    EMPTY(job_finish, &a->job, &a->survey);
    EMPTY(marking_share, &a->marking, &a->marking_share);
    EMPTY(marking_help, &a->marking, a->words, 1, 1);
    EMPTY(marking_meet, &a->marking, a->words, 1);
    EMPTY(marking_finish, &a->marking, a->words, 1, &a->survey);
    EMPTY(looks_waiting, &a->looks, a->words, 1);
    EMPTY(looks_look, &a->looks, a->words, 1);
    EMPTY(looks_again, &a->looks, 0, a->words, 1);
    EMPTY(looks_meet, &a->looks, a->words, 1);
    EMPTY(looks_finish, &a->looks, a->words, 1, &a->survey);
    EMPTY(looks_check, &a->looks, a->words, 1);
    EMPTY(lane_share, &a->lane, &a->lane_share);
    EMPTY(lane_waiting, &a->lane, a->words, 1);
    EMPTY(lane_meet, &a->lane, a->words, 1);
    EMPTY(lane_look, &a->lane, a->words, 1);
    EMPTY(lane_give, &a->lane, a->words, 1);
    EMPTY(lane_take, &a->lane, a->words, 1);
    EMPTY(lane_join, &a->lane, &a->lane_share);
    EMPTY(lane_whole, &a->lane, &a->looks);
    EMPTY(pages_begin, &a->survey, 0, &a->pages);
    EMPTY(pages_share, &a->pages, &a->pages_share);
    EMPTY(pages_claim, &a->pages, 0);
    EMPTY(pages_build, &a->pages, a->words, 1, a->words + 1, 1);
    EMPTY(pages_publish, &a->pages);
    EMPTY(pages_end, &a->pages, &a->survey);
    EMPTY(heap_facts_of, &a->heap, &a->heap_facts);
    EMPTY(heap_write, &a->heap, a->bytes, 64);
    EMPTY(heap_judge, &a->heap, a->bytes, 64);
    EMPTY(heap_plan, &a->heap, &a->plan);
    EMPTY(plan_facts_of, &a->plan, &a->plan_facts);
    EMPTY(plan_share, &a->plan, &a->plan_share);
    EMPTY(plan_forward, &a->plan, a->words, 64);
    EMPTY(plan_page, &a->plan, 0, a->words);
    EMPTY(plan_flip, &a->plan, 0, 0, &a->crew);
    EMPTY(plan_audit, &a->plan, a->bytes, 64, 9);
    EMPTY(plan_explain, &a->plan, a->bytes, 32, 9, a->bytes + 32, 32);
    EMPTY(crew_take, &a->crew, &a->mutator);
    EMPTY(crew_give, &a->crew, &a->mutator);
    EMPTY(crew_finish, &a->crew, &a->end);
    EMPTY(mutator_read_ref, &a->mutator, 0, 0);
    EMPTY(mutator_read_weak, &a->mutator, 0, 0);
    EMPTY(mutator_read_data, &a->mutator, 0, 0);
    EMPTY(mutator_header, &a->mutator, 0);
    EMPTY(mutator_write_ref, &a->mutator, 0, 0, 0);
    EMPTY(mutator_write_weak, &a->mutator, 0, 0, 0);
    EMPTY(mutator_write_data, &a->mutator, 0, 0, 0);
    EMPTY(mutator_alloc, &a->mutator, 0);
    EMPTY(mutator_touch, &a->mutator, 0);
    EMPTY(mutator_page, &a->mutator, 0, a->words);
    EMPTY(mutator_root, &a->mutator, 0);
    EMPTY(mutator_roots, &a->mutator, a->words, 0);
    EMPTY(mutator_build, &a->mutator, 0);
    EMPTY(mutator_facts_of, &a->mutator, &a->mutator_facts);
    EMPTY(mutator_meet, &a->mutator, &a->other);
    EMPTY(end_facts_of, &a->end, &a->end_facts);
    EMPTY(end_page, &a->end, 0, a->words);
    EMPTY(end_entry, &a->end, 0, 0, &a->entry);
    EMPTY(end_roots, &a->end, a->words, 0);
    EMPTY(end_builds, &a->end, 0);
    EMPTY(end_build, &a->end, 0, 0);
    EMPTY(end_next_by_marks, &a->end, a->marks, 1, a->words, 1, &a->heap);
    EMPTY(end_next_by_roots, &a->end, a->words, 1, &a->heap);
    EMPTY(end_rest, &a->end, a->words, 1, a->words + 1, 1);
    EMPTY(end_write, &a->end, a->bytes, 64);
}

static void drop_all(all *a) {
    DROP(heap_drop, &a->heap);
    DROP(plan_drop, &a->plan);
    DROP(plan_drop, &a->plan_share);
    DROP(crew_drop, &a->crew);
    DROP(mutator_drop, &a->mutator);
    DROP(mutator_drop, &a->other);
    DROP(end_drop, &a->end);
    DROP(survey_drop, &a->survey);
    DROP(survey_drop, &a->survey_share);
    DROP(tables_drop, &a->tables);
    DROP(old_return, &a->old);
    DROP(growing_drop, &a->growing);
    DROP(job_drop, &a->job);
    DROP(job_drop, &a->job_share);
    DROP(marking_drop, &a->marking);
    DROP(marking_drop, &a->marking_share);
    DROP(looks_drop, &a->looks);
    DROP(lane_drop, &a->lane);
    DROP(lane_drop, &a->lane_share);
    DROP(pages_drop, &a->pages);
    DROP(pages_drop, &a->pages_share);
}

#define FULL(which, name, ...) ANSWERS(COMPRESSOR_NOT_EMPTY, which, name, __VA_ARGS__)
#define WRONG(name, ...)                                                                    \
    do {                                                                                    \
        compressor_answer a_;                                                               \
        CALL(a_, name, __VA_ARGS__);                                                        \
        if (a_.status != COMPRESSOR_WRONG_HANDLE) answers(a_, COMPRESSOR_WRONG_HANDLE, 0, 0); \
    } while (0)

/* Each handle is filled; then whatever is to fill it is refused. */
static void ask_full(all *a, compressor_heap *heap) {
    DONE(0, heap_by_roots, 4, a->words, 3, a->words, 0, heap);
    DONE(0, heap_by_roots, 4, a->words, 3, a->words, 0, &a->heap);
    DONE(0, heap_plan, heap, &a->plan);
    DONE(0, plan_share, &a->plan, &a->plan_share);
    DONE(3, plan_flip, &a->plan, 3, 1, &a->crew);
    DONE(2, crew_take, &a->crew, &a->mutator);
    EMPTY(crew_give, &(compressor_crew)COMPRESSOR_EMPTY, &a->mutator);
    ANSWERS(COMPRESSOR_EMPTY_HANDLE, 1, mutator_meet, &a->mutator, &a->other);
    ANSWERS(COMPRESSOR_EMPTY_HANDLE, 1, crew_give, &a->crew, &a->other);
    EMPTY(mutator_meet, &a->other, &a->mutator);
    DONE(1, crew_take, &a->crew, &a->other);
    DONE(0, tables_reserve, 3, &a->tables);
    FULL(0, tables_reserve, 3, &a->tables);
    DONE(0, old_reserve, 3, &a->old);
    FULL(0, old_reserve, 3, &a->old);
    DONE(0, survey_by_roots, 4, a->words, 3, a->words, 0, &a->survey);
    DONE(0, survey_share, &a->survey, &a->survey_share);
    DONE(0, growing_begin, 4, a->words, 3, &a->growing);
    DONE(0, job_begin, 4, a->words, 3, a->words, 0, &a->job);
    DONE(0, job_share, &a->job, &a->job_share);
    DONE(0, marking_begin, 4, 3, a->words, 0, &a->marking);
    DONE(0, marking_share, &a->marking, &a->marking_share);
    DONE(0, looks_begin, 4, 3, a->words, 0, &a->looks);
    DONE(0, lane_begin, 4, 3, &a->lane);
    ANSWERS(COMPRESSOR_EMPTY_HANDLE, 1, lane_join, &a->lane, &a->lane_share);
    EMPTY(lane_join, &a->lane_share, &a->lane);
    DONE(0, lane_share, &a->lane, &a->lane_share);
    DONE(0, pages_begin, &a->survey, 1, &a->pages);
    DONE(0, pages_share, &a->pages, &a->pages_share);
    DONE(0, survey_by_roots, 4, a->words, 3, a->words, 0, &a->survey);

    FULL(0, heap_by_marks, 9, a->words, 3, a->marks, 0, a->words, 0, &a->heap);
    FULL(0, heap_by_roots, 9, a->words, 3, a->words, 0, &a->heap);
    FULL(0, heap_read, a->bytes, 3, &a->heap);
    FULL(1, plan_share, &a->plan, &a->plan_share);
    FULL(1, plan_flip, &a->plan, 0, 0, &a->crew);
    FULL(1, heap_plan, &a->heap, &a->plan);
    FULL(1, crew_take, &a->crew, &a->mutator);
    FULL(0, survey_by_roots, 9, a->words, 3, a->words, 0, &a->survey);
    FULL(0, survey_by_marks, 9, a->words, 3, a->words, 0, a->words, 0, &a->survey);
    FULL(0, survey_by_bits, 9, 3, a->words, 0, a->words, 0, a->words, 0, &a->survey);
    uint64_t lost = 7;
    FULL(0, survey_guarded, 9, a->words, 3, a->words, 0, a->words, 0, a->words, 0, &a->survey, &lost);
    FULL(1, survey_by_roots_lent, &a->tables, 9, a->words, 3, a->words, 0, &a->survey);
    FULL(1, survey_share, &a->survey, &a->survey_share);
    FULL(1, survey_return, &a->survey, &a->tables);
    FULL(0, growing_begin, 9, a->words, 3, &a->growing);
    FULL(1, growing_begin_lent, &a->tables, 9, a->words, 3, &a->growing);
    FULL(1, growing_settle, &a->growing, &a->survey);
    FULL(1, growing_return, &a->growing, &a->tables);
    FULL(0, job_begin, 9, a->words, 3, a->words, 0, &a->job);
    FULL(1, job_share, &a->job, &a->job_share);
    FULL(1, job_finish, &a->job, &a->survey);
    FULL(0, marking_begin, 9, 3, a->words, 0, &a->marking);
    FULL(1, marking_share, &a->marking, &a->marking_share);
    FULL(1, marking_finish, &a->marking, a->words, 0, &a->survey);
    FULL(0, looks_begin, 9, 3, a->words, 0, &a->looks);
    FULL(1, looks_finish, &a->looks, a->words, 0, &a->survey);
    FULL(0, lane_begin, 9, 3, &a->lane);
    FULL(1, lane_share, &a->lane, &a->lane_share);
    FULL(1, lane_whole, &a->lane, &a->looks);
    FULL(1, pages_begin, &a->survey, 0, &a->pages);
    FULL(1, pages_share, &a->pages, &a->pages_share);
    FULL(1, pages_end, &a->pages, &a->survey);
    DONE(0, heap_facts_of, &a->heap, &a->heap_facts);
    SAME(a->heap_facts.words, 3);

    /* casts, as C allows them */
    WRONG(heap_facts_of, (compressor_heap *)(void *)&a->plan, &a->heap_facts);
    WRONG(mutator_touch, (compressor_mutator *)(void *)&a->crew, 0);
    WRONG(survey_return, (compressor_survey *)(void *)&a->job, &(compressor_tables)COMPRESSOR_EMPTY);
    WRONG(growing_begin_lent, (compressor_tables *)(void *)&a->survey, 4, a->words, 3,
          &(compressor_growing)COMPRESSOR_EMPTY);
    WRONG(watermark, (compressor_old *)(void *)&a->tables);
    WRONG(collect_all, (compressor_old *)(void *)&a->tables, 4, a->words, 3, a->words + 3, 1);
    WRONG(collect_young, (compressor_old *)(void *)&a->tables, 4, a->words, 3, a->bytes, 1, a->words + 3, 1);
    WRONG(collect_young_by, (compressor_old *)(void *)&a->heap, 4, a->words, 3, a->words + 4, 1, a->words + 3, 1);
    WRONG(collect_aging, (compressor_old *)(void *)&a->tables, 4, a->words, 3, a->bytes, 1, a->words + 3, 1);
    WRONG(old_raise, (compressor_old *)(void *)&a->tables, 4, a->words, 3, 3);
    WRONG(old_check, (compressor_old *)(void *)&a->job, 4, a->words, 3, a->bytes, 1);
    WRONG(collect_in_place_lent, (compressor_tables *)(void *)&a->old, 4, a->words, 3, a->words + 3, 1);
    WRONG(growing_also, (compressor_growing *)(void *)&a->survey, a->words, 3, a->words, 1);
    WRONG(growing_also_values, (compressor_growing *)(void *)&a->job, a->words, 3, a->words, 3);
    WRONG(growing_keeps, (compressor_growing *)(void *)&a->looks, 0);
    WRONG(growing_settle, (compressor_growing *)(void *)&a->survey, &(compressor_survey)COMPRESSOR_EMPTY);
    WRONG(growing_return, (compressor_growing *)(void *)&a->survey, &(compressor_tables)COMPRESSOR_EMPTY);
    WRONG(marking_share, (compressor_marking *)(void *)&a->job, &(compressor_marking)COMPRESSOR_EMPTY);
    WRONG(marking_help, (compressor_marking *)(void *)&a->looks, a->words, 3, 1);
    WRONG(marking_meet, (compressor_marking *)(void *)&a->looks, a->words, 1);
    WRONG(marking_finish, (compressor_marking *)(void *)&a->job, a->words, 0, &(compressor_survey)COMPRESSOR_EMPTY);
    WRONG(job_finish, (compressor_job *)(void *)&a->marking, &(compressor_survey)COMPRESSOR_EMPTY);
    WRONG(looks_waiting, (compressor_looks *)(void *)&a->job, a->words, 1);
    WRONG(looks_look, (compressor_looks *)(void *)&a->job, a->words, 1);
    WRONG(looks_finish, (compressor_looks *)(void *)&a->pages, a->words, 0, &(compressor_survey)COMPRESSOR_EMPTY);
    WRONG(looks_check, (compressor_looks *)(void *)&a->lane, a->words, 3);
    WRONG(lane_share, (compressor_lane *)(void *)&a->looks, &(compressor_lane)COMPRESSOR_EMPTY);
    WRONG(lane_waiting, (compressor_lane *)(void *)&a->looks, a->words, 1);
    WRONG(lane_meet, (compressor_lane *)(void *)&a->looks, a->words, 1);
    WRONG(lane_look, (compressor_lane *)(void *)&a->job, a->words, 1);
    WRONG(lane_give, (compressor_lane *)(void *)&a->looks, a->words, 1);
    WRONG(lane_take, (compressor_lane *)(void *)&a->pages, a->words, 1);
    WRONG(lane_join, (compressor_lane *)(void *)&a->looks, &a->lane);
    WRONG(lane_whole, (compressor_lane *)(void *)&a->job, &(compressor_looks)COMPRESSOR_EMPTY);
    ANSWERS(COMPRESSOR_WRONG_HANDLE, 1, lane_join, &a->lane, (compressor_lane *)(void *)&a->looks);
    WRONG(pages_claim, (compressor_pages *)(void *)&a->survey, 0);
    WRONG(pages_begin, (compressor_survey *)(void *)&a->pages, 1, &(compressor_pages)COMPRESSOR_EMPTY);
    WRONG(pages_end, (compressor_pages *)(void *)&a->job, &(compressor_survey)COMPRESSOR_EMPTY);
    WRONG(crew_finish, (compressor_crew *)(void *)&a->plan, &a->end);
    SAME(a->heap_facts.words, 3);

    DONE(0, crew_give, &a->crew, &a->mutator);
    DONE(0, crew_give, &a->crew, &a->other);
    DONE(0, crew_finish, &a->crew, &a->end);
    FULL(1, end_next_by_roots, &a->end, a->words, 1, &a->heap);
    FULL(1, end_next_by_marks, &a->end, a->marks, 1, a->words, 1, &a->heap);
    DONE(1, plan_flip, &a->plan, 1, 0, &a->crew);
    FULL(1, crew_finish, &a->crew, &a->end);
}

void handles_round(void) {
    static const char version_line[] = "compressor " COMPRESSOR_VERSION_TEXT "\n";
    const compressor_heap none = COMPRESSOR_EMPTY;
    compressor_heap heap = none;
    all *a = (all *)zeros(1, sizeof *a);
    uint8_t *before = (uint8_t *)zeros(1, sizeof *a);
    call_begins(EXPORT_version, __FILE__, __LINE__);
    SAME(compressor_version(), COMPRESSOR_VERSION);
    call_ends();
    call_begins(EXPORT_version_text, __FILE__, __LINE__);
    IS(strncmp(compressor_version_text(), version_line, sizeof version_line - 1) == 0);
    call_ends();
    /* first all handles are empty, and nothing is written anywhere */
    a->words[1] = 5;
    memcpy(before, a, sizeof *a);
    ask_empty(a);
    drop_all(a);
    IS(memcmp(before, a, sizeof *a) == 0);
    a->words[1] = 0;
    ask_full(a, &heap);
    drop_all(a);
    ask_empty(a);
    drop_all(a);
    SAME(blocks_kept(), 0);
    free(a);
    free(before);
    check_words();
}
