/* shell.c: what the exports of this crate cannot do. A slice of Rattle has no null pointer, so that of an array of
   length 0 becomes another one here; and Rattle has no counter for the names of crews. Nothing here is proved: each
   function makes one call, with its own arguments. tools/join links it into the archive, where the exports that it
   calls are hidden. */
#include "compressor.h"

static const uint64_t none[1] = {0};
static uint64_t crews;

/* An array that is read, and one that is filled. The latter has no words where it is exchanged. */
#define IN(array, count) ((array) || (count) ? (array) : (const void *)none)
#define OUT(array, count) ((array) || (count) ? (array) : (void *)(uintptr_t)none)
#define CALL(name, parameters, arguments)           \
    compressor_answer compressor_c_##name parameters; \
    compressor_answer compressor_##name parameters { return compressor_c_##name arguments; }

CALL(collect,
     (uint32_t edition, const uint64_t *words, size_t word_count, uint64_t *roots, size_t root_count, uint64_t *to,
      size_t to_count),
     (edition, IN(words, word_count), word_count, OUT(roots, root_count), root_count, OUT(to, to_count), to_count))
CALL(collect_in_place,
     (uint32_t edition, uint64_t *words, size_t word_count, uint64_t *roots, size_t root_count),
     (edition, OUT(words, word_count), word_count, OUT(roots, root_count), root_count))
CALL(collect_pinned,
     (uint32_t edition, uint64_t *words, size_t word_count, uint64_t *roots, size_t root_count, const uint64_t *pins,
      size_t pin_count, uint64_t *runs, size_t run_words, uint64_t *run_count),
     (edition, OUT(words, word_count), word_count, OUT(roots, root_count), root_count, IN(pins, pin_count), pin_count,
      OUT(runs, run_words), run_words, run_count))
CALL(collect_lent,
     (compressor_tables *tables, uint32_t edition, const uint64_t *words, size_t word_count, uint64_t *roots,
      size_t root_count, uint64_t *to, size_t to_count),
     (tables, edition, IN(words, word_count), word_count, OUT(roots, root_count), root_count, OUT(to, to_count),
      to_count))
CALL(collect_in_place_lent,
     (compressor_tables *tables, uint32_t edition, uint64_t *words, size_t word_count, uint64_t *roots,
      size_t root_count),
     (tables, edition, OUT(words, word_count), word_count, OUT(roots, root_count), root_count))
CALL(survey_by_roots,
     (uint32_t edition, const uint64_t *words, size_t word_count, const uint64_t *roots, size_t root_count,
      compressor_survey *survey),
     (edition, IN(words, word_count), word_count, IN(roots, root_count), root_count, survey))
CALL(survey_by_marks,
     (uint32_t edition, const uint64_t *words, size_t word_count, const uint64_t *roots, size_t root_count,
      const uint64_t *marks, size_t block_count, compressor_survey *survey),
     (edition, IN(words, word_count), word_count, IN(roots, root_count), root_count, IN(marks, block_count),
      block_count, survey))
CALL(survey_by_bits,
     (uint32_t edition, uint64_t word_count, const uint64_t *roots, size_t root_count, const uint64_t *heads,
      size_t head_count, const uint64_t *live, size_t live_count, compressor_survey *survey),
     (edition, word_count, IN(roots, root_count), root_count, IN(heads, head_count), head_count,
      IN(live, live_count), live_count, survey))
CALL(survey_guarded,
     (uint32_t edition, const uint64_t *words, size_t word_count, const uint64_t *roots, size_t root_count,
      const uint64_t *ephemerons, size_t ephemeron_words, uint64_t *guarded, size_t guarded_count,
      compressor_survey *survey, uint64_t *lost),
     (edition, IN(words, word_count), word_count, IN(roots, root_count), root_count, IN(ephemerons, ephemeron_words),
      ephemeron_words, OUT(guarded, guarded_count), guarded_count, survey, lost))
CALL(survey_by_roots_lent,
     (compressor_tables *tables, uint32_t edition, const uint64_t *words, size_t word_count, const uint64_t *roots,
      size_t root_count, compressor_survey *survey),
     (tables, edition, IN(words, word_count), word_count, IN(roots, root_count), root_count, survey))
CALL(survey_slide,
     (compressor_survey *survey, const uint64_t *words, size_t word_count, uint64_t first, uint64_t *part,
      size_t part_count),
     (survey, IN(words, word_count), word_count, first, OUT(part, part_count), part_count))
CALL(survey_forward, (compressor_survey *survey, uint64_t *roots, size_t root_count),
     (survey, OUT(roots, root_count), root_count))
CALL(survey_forward_weak, (compressor_survey *survey, uint64_t *words, size_t word_count),
     (survey, OUT(words, word_count), word_count))
CALL(growing_begin, (uint32_t edition, const uint64_t *words, size_t word_count, compressor_growing *growing),
     (edition, IN(words, word_count), word_count, growing))
CALL(growing_begin_lent,
     (compressor_tables *tables, uint32_t edition, const uint64_t *words, size_t word_count,
      compressor_growing *growing),
     (tables, edition, IN(words, word_count), word_count, growing))
CALL(growing_also,
     (compressor_growing *growing, const uint64_t *words, size_t word_count, const uint64_t *roots, size_t root_count),
     (growing, IN(words, word_count), word_count, IN(roots, root_count), root_count))
CALL(growing_also_values,
     (compressor_growing *growing, const uint64_t *words, size_t word_count, const uint64_t *ephemerons,
      size_t ephemeron_words),
     (growing, IN(words, word_count), word_count, IN(ephemerons, ephemeron_words), ephemeron_words))
CALL(collect_all,
     (compressor_old *old, uint32_t edition, uint64_t *words, size_t word_count, uint64_t *roots, size_t root_count),
     (old, edition, OUT(words, word_count), word_count, OUT(roots, root_count), root_count))
CALL(collect_young,
     (compressor_old *old, uint32_t edition, uint64_t *words, size_t word_count, const uint8_t *cards,
      size_t card_count, uint64_t *roots, size_t root_count),
     (old, edition, OUT(words, word_count), word_count, IN(cards, card_count), card_count, OUT(roots, root_count),
      root_count))
CALL(collect_young_by,
     (compressor_old *old, uint32_t edition, uint64_t *words, size_t word_count, uint64_t *fields, size_t field_count,
      uint64_t *roots, size_t root_count),
     (old, edition, OUT(words, word_count), word_count, OUT(fields, field_count), field_count, OUT(roots, root_count),
      root_count))
CALL(collect_aging,
     (compressor_old *old, uint32_t edition, uint64_t *words, size_t word_count, uint8_t *cards, size_t card_count,
      uint64_t *roots, size_t root_count),
     (old, edition, OUT(words, word_count), word_count, OUT(cards, card_count), card_count, OUT(roots, root_count),
      root_count))
CALL(old_raise,
     (compressor_old *old, uint32_t edition, const uint64_t *words, size_t word_count, uint64_t end),
     (old, edition, IN(words, word_count), word_count, end))
CALL(old_check,
     (compressor_old *old, uint32_t edition, const uint64_t *words, size_t word_count, const uint8_t *cards,
      size_t card_count),
     (old, edition, IN(words, word_count), word_count, IN(cards, card_count), card_count))
CALL(looks_begin,
     (uint32_t edition, uint64_t word_count, const uint64_t *roots, size_t root_count, compressor_looks *looks),
     (edition, word_count, IN(roots, root_count), root_count, looks))
CALL(looks_waiting, (compressor_looks *looks, uint64_t *indices, size_t most), (looks, OUT(indices, most), most))
CALL(looks_look, (compressor_looks *looks, const uint64_t *rows, size_t row_words),
     (looks, IN(rows, row_words), row_words))
CALL(looks_again, (compressor_looks *looks, uint64_t index, const uint64_t *row, size_t row_words),
     (looks, index, IN(row, row_words), row_words))
CALL(looks_meet, (compressor_looks *looks, const uint64_t *values, size_t value_count),
     (looks, IN(values, value_count), value_count))
CALL(looks_finish, (compressor_looks *looks, const uint64_t *roots, size_t root_count, compressor_survey *survey),
     (looks, IN(roots, root_count), root_count, survey))
CALL(looks_check, (compressor_looks *looks, const uint64_t *words, size_t word_count),
     (looks, IN(words, word_count), word_count))
CALL(lane_waiting, (compressor_lane *lane, uint64_t *indices, size_t most), (lane, OUT(indices, most), most))
CALL(lane_meet, (compressor_lane *lane, const uint64_t *values, size_t value_count),
     (lane, IN(values, value_count), value_count))
CALL(lane_look, (compressor_lane *lane, const uint64_t *rows, size_t row_words),
     (lane, IN(rows, row_words), row_words))
CALL(lane_give, (compressor_lane *lane, uint64_t *indices, size_t most), (lane, OUT(indices, most), most))
CALL(lane_take, (compressor_lane *lane, const uint64_t *indices, size_t index_count),
     (lane, IN(indices, index_count), index_count))
CALL(pages_build,
     (compressor_pages *pages, const uint64_t *words, size_t word_count, uint64_t *page, size_t page_count),
     (pages, IN(words, word_count), word_count, OUT(page, page_count), page_count))
CALL(job_begin,
     (uint32_t edition, const uint64_t *words, size_t word_count, const uint64_t *roots, size_t root_count,
      compressor_job *job),
     (edition, IN(words, word_count), word_count, IN(roots, root_count), root_count, job))
CALL(marking_begin,
     (uint32_t edition, uint64_t word_count, const uint64_t *roots, size_t root_count, compressor_marking *marking),
     (edition, word_count, IN(roots, root_count), root_count, marking))
CALL(marking_help, (compressor_marking *marking, const uint64_t *words, size_t word_count, uint64_t who),
     (marking, IN(words, word_count), word_count, who))
CALL(marking_meet, (compressor_marking *marking, const uint64_t *values, size_t value_count),
     (marking, IN(values, value_count), value_count))
CALL(marking_finish,
     (compressor_marking *marking, const uint64_t *roots, size_t root_count, compressor_survey *survey),
     (marking, IN(roots, root_count), root_count, survey))
CALL(heap_by_marks,
     (uint32_t edition, const uint64_t *words, size_t word_count, const uint32_t *marks, size_t mark_count,
      const uint64_t *roots, size_t root_count, compressor_heap *heap),
     (edition, IN(words, word_count), word_count, IN(marks, mark_count), mark_count, IN(roots, root_count), root_count,
      heap))
CALL(heap_by_roots,
     (uint32_t edition, const uint64_t *words, size_t word_count, const uint64_t *roots, size_t root_count,
      compressor_heap *heap),
     (edition, IN(words, word_count), word_count, IN(roots, root_count), root_count, heap))
CALL(heap_read, (const uint8_t *bytes, size_t count, compressor_heap *heap), (IN(bytes, count), count, heap))
CALL(heap_write, (compressor_heap *heap, uint8_t *out, size_t count), (heap, OUT(out, count), count))
CALL(heap_judge, (compressor_heap *heap, const uint8_t *bytes, size_t count), (heap, IN(bytes, count), count))
CALL(plan_forward, (compressor_plan *plan, uint64_t *addresses, size_t count), (plan, OUT(addresses, count), count))
CALL(plan_audit, (compressor_plan *plan, const uint8_t *bytes, size_t count, uint32_t options),
     (plan, IN(bytes, count), count, options))
CALL(plan_explain,
     (compressor_plan *plan, const uint8_t *bytes, size_t count, uint32_t options, uint8_t *out, size_t out_count),
     (plan, IN(bytes, count), count, options, OUT(out, out_count), out_count))
CALL(mutator_roots, (compressor_mutator *mutator, uint64_t *out, size_t count), (mutator, OUT(out, count), count))
CALL(end_roots, (compressor_end *end, uint64_t *out, size_t count), (end, OUT(out, count), count))
CALL(end_next_by_marks,
     (compressor_end *end, const uint32_t *marks, size_t mark_count, const uint64_t *roots, size_t root_count,
      compressor_heap *heap),
     (end, IN(marks, mark_count), mark_count, IN(roots, root_count), root_count, heap))
CALL(end_next_by_roots, (compressor_end *end, const uint64_t *roots, size_t root_count, compressor_heap *heap),
     (end, IN(roots, root_count), root_count, heap))
CALL(end_rest, (compressor_end *end, uint64_t *words, size_t word_count, uint64_t *roots, size_t root_count),
     (end, OUT(words, word_count), word_count, OUT(roots, root_count), root_count))
CALL(end_write, (compressor_end *end, uint8_t *out, size_t count), (end, OUT(out, count), count))

/* No two crews have one name: the counter gives each number once. */
compressor_answer compressor_c_plan_flip(compressor_plan *plan, uint64_t name, uint32_t mutators, uint32_t fresh_pages,
                                         compressor_crew *crew);
compressor_answer compressor_plan_flip(compressor_plan *plan, uint32_t mutators, uint32_t fresh_pages,
                                       compressor_crew *crew) {
    return compressor_c_plan_flip(plan, __atomic_fetch_add(&crews, 1, __ATOMIC_RELAXED), mutators, fresh_pages, crew);
}
