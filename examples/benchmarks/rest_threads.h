/* rest_threads.h: ours at rest, by four threads: one surveys, then each slides a part into another memory, which is
   half of the budget, and forwards the roots of some mutators. With MARK_BY_THREADS all four survey too, by a job. */
#include "lent.h"

#include "helpers.h"

static uint64_t *other;
static uint64_t live_words;
static compressor_survey shares[HELPERS];
static compressor_job jobs[HELPERS];

static inline void collector_start(size_t budget_words) {
    lent_start(budget_words / 2);
    other = zeroed_words(budget_words / 2);
    helpers_start();
}

static inline void slide_part(int number) {
    size_t count;
    const uint64_t first = compressor_part(live_words, HELPERS, (uint64_t)number, &count);
    done(compressor_survey_slide(&shares[number], space.words, space.used, first, other + first, count));
    for (int k = number; k < mutator_count; k += HELPERS)
        done(compressor_survey_forward(&shares[number], mutators[k].roots,
                                       (size_t)(mutators[k].top - mutators[k].roots)));
    compressor_survey_drop(&shares[number]);
}

static inline void mark_some(int number) {
    while (done(compressor_job_help(&jobs[number], (uint64_t)number)) != COMPRESSOR_HELP_DONE) {}
    compressor_job_drop(&jobs[number]);
}

static inline uint64_t survey_by_threads(compressor_survey *survey, size_t root_count) {
    compressor_job job = COMPRESSOR_EMPTY;
    done(compressor_job_begin(EDITION, space.words, space.used, all_roots, root_count, &job));
    for (int k = 0; k < HELPERS; k++) done(compressor_job_share(&job, &jobs[k]));
    helpers_do(mark_some);
    return done(compressor_job_finish(&job, survey));
}

static inline uint64_t survey_by_one(compressor_survey *survey, size_t root_count) {
    return done(compressor_survey_by_roots_lent(&tables, EDITION, space.words, space.used, all_roots, root_count,
                                                survey));
}

static inline uint64_t collect(void) {
    compressor_survey survey = COMPRESSOR_EMPTY;
    uint64_t *const was = space.words;
#ifdef MARK_BY_THREADS
    enum { BY_JOB = 1 };
#else
    enum { BY_JOB = 0 };
#endif
    live_words = (BY_JOB ? survey_by_threads : survey_by_one)(&survey, roots_gather());
    for (int k = 0; k < HELPERS; k++) done(compressor_survey_share(&survey, &shares[k]));
    helpers_do(slide_part);
    if (BY_JOB) compressor_survey_drop(&survey);
    else done(compressor_survey_return(&survey, &tables));
    space_moved(other, live_words);
    other = was;
    return live_words;
}
