/* Threads, and what they do together besides a cycle: audits, the marking of a heap at rest, slides. */
#include "threads.h"

#include <stdlib.h>

void begin_thread(worker *w) {
    own.chance = w->chance;
    own.refuses = w->refuses;
    own.waits = 1;
}

/* Runs all of them, by chances of their own. */
void run_threads(worker *workers, void *(*work)(void *)) {
    for (uint32_t k = 0; k < THREADS; k++) {
        workers[k].number = k;
        workers[k].chance = any_word();
        workers[k].refuses = own.refuses;
        IS(pthread_create(&workers[k].thread, NULL, work, &workers[k]) == 0);
    }
    for (uint32_t k = 0; k < THREADS; k++) IS(pthread_join(workers[k].thread, NULL) == 0);
}

static void *audit(void *given) {
    worker *w = (worker *)given;
    begin_thread(w);
    DONE(w->live, plan_audit, &w->plan, w->dump->at, w->dump->count, 0);
    DROP(plan_drop, &w->plan);
    return NULL;
}

/* All judge the same dump at once, by shares of the plan. */
void audit_by_threads(cycle *c, const bytes *dump) {
    worker workers[THREADS];
    compressor_end_facts facts;
    memset(workers, 0, sizeof workers);
    DONE(0, end_facts_of, &c->end, &facts);
    for (int k = 0; k < THREADS; k++) {
        workers[k].live = facts.live_words;
        workers[k].dump = dump;
        DONE(0, plan_share, &c->plan, &workers[k].plan);
    }
    run_threads(workers, audit);
}

/* Helps until nothing is left, or stops before. */
static void *help(void *given) {
    worker *w = (worker *)given;
    const uint64_t who = one_in(4) ? 0 : w->number;
    compressor_answer a;
    begin_thread(w);
    do {
        CALL(a, job_help, &w->job, who);
        answers(a, COMPRESSOR_DONE, a.value, 0);
    } while (a.value != COMPRESSOR_HELP_DONE && !one_in(200));
    DROP(job_drop, &w->job);
    return NULL;
}

/* The same with words that are lent. */
static void *help_in_steps(void *given) {
    worker *w = (worker *)given;
    const uint64_t who = one_in(4) ? 0 : w->number, value[1] = {0};
    compressor_answer a;
    begin_thread(w);
    do {
        CALL(a, marking_help, &w->marking, w->words, w->count, who);
        answers(a, COMPRESSOR_DONE, a.value, 0);
        if (one_in(9)) {
            CALL(a, marking_meet, &w->marking, value, 1);
            if (a.status != COMPRESSOR_MARKERS_BUSY) answers(a, COMPRESSOR_DONE, 0, 0);
            a.value = COMPRESSOR_HELP_WORKED;
        }
    } while (a.value != COMPRESSOR_HELP_DONE && !one_in(200));
    DROP(marking_drop, &w->marking);
    return NULL;
}

static void *slide(void *given) {
    worker *w = (worker *)given;
    size_t count;
    const uint64_t first = compressor_part(w->live, THREADS, w->number, &count), some = below(count + 1);
    compressor_survey_facts facts;
    uint64_t weak[1] = {FROM + w->count};
    begin_thread(w);
    DONE(0, survey_facts_of, &w->survey, &facts);
    SAME(facts.live_words, w->live);
    DONE(0, survey_slide, &w->survey, w->words, w->count, first, w->to + first, some);
    DONE(0, survey_slide, &w->survey, w->words, w->count, first + some, w->to + first + some, count - some);
    DONE(1, survey_forward_weak, &w->survey, weak, 1);
    IS(weak[0] == 0);
    DROP(survey_drop, &w->survey);
    return NULL;
}

static void mark_together(graph *g, const uint64_t *words, uint64_t count, const uint64_t *roots, uint64_t live,
                          compressor_survey *survey) {
    worker workers[THREADS];
    compressor_job job = COMPRESSOR_EMPTY;
    memset(workers, 0, sizeof workers);
    DONE(0, job_begin, g->edition, words, count, roots, g->root_count, &job);
    for (int k = 0; k < THREADS; k++) DONE(0, job_share, &job, &workers[k].job);
    ANSWERS(COMPRESSOR_STILL_SHARED, 0, job_finish, &job, survey);
    run_threads(workers, help);
    DONE(live, job_finish, &job, survey);
}

/* Some roots are met after the threads. If a helper had no memory, all begins again. */
static void mark_in_steps(graph *g, const uint64_t *words, uint64_t count, const uint64_t *roots, uint64_t live,
                          compressor_survey *survey) {
    compressor_answer a;
    do {
        worker workers[THREADS];
        compressor_marking marking = COMPRESSOR_EMPTY;
        memset(workers, 0, sizeof workers);
        DONE(0, marking_begin, g->edition, count, roots, below(g->root_count + 1), &marking);
        for (int k = 0; k < THREADS; k++) {
            workers[k].words = words;
            workers[k].count = count;
            DONE(0, marking_share, &marking, &workers[k].marking);
        }
        ANSWERS(COMPRESSOR_STILL_SHARED, 0, marking_finish, &marking, roots, g->root_count, survey);
        run_threads(workers, help_in_steps);
        DONE(0, marking_meet, &marking, roots, g->root_count);
        do CALL(a, marking_help, &marking, words, count, 0);
        while (a.value != COMPRESSOR_HELP_DONE);
        CALL(a, marking_finish, &marking, roots, g->root_count, survey);
    } while (a.status == COMPRESSOR_OUT_OF_MEMORY);
    answers(a, COMPRESSOR_DONE, live, 0);
}

/* Touches all pages, from one of its own on. Some turns come to nothing, and the page waits again. */
static void *touch(void *given) {
    worker *w = (worker *)given;
    begin_thread(w);
    w->builds = 0;
    for (uint64_t k = 0; k < w->pages_count;) {
        const uint64_t page = (k + w->number * 5) % w->pages_count, first = page * w->page_words;
        const uint64_t left = w->live - first, length = left < w->page_words ? left : w->page_words;
        compressor_answer a;
        CALL(a, pages_claim, &w->pages, page);
        if (a.status == COMPRESSOR_PAGE_BUSY) continue;
        k++;
        if (a.status == COMPRESSOR_PAGE_HOME) continue;
        answers(a, COMPRESSOR_DONE, 0, 0);
        if (one_in(9)) {
            ANSWERS(COMPRESSOR_OTHER_COUNT, 0, pages_build, &w->pages, w->words, w->count - 1, w->to + first, length);
            k--;
            continue;
        }
        DONE(0, pages_build, &w->pages, w->words, w->count, w->to + first, length);
        DONE(0, pages_publish, &w->pages);
        w->builds++;
    }
    DROP(pages_drop, &w->pages);
    return NULL;
}

/* All slide the heap into `to`, page by page. The survey is there again then. */
static void touch_together(compressor_survey *survey, const worker *like, uint64_t *to) {
    worker workers[THREADS];
    compressor_pages pages = COMPRESSOR_EMPTY;
    const uint64_t size = 1 + below(100), count = (like->live + size - 1) / size;
    uint64_t built = 0;
    memset(workers, 0, sizeof workers);
    DONE(count, pages_begin, survey, size, &pages);
    for (int k = 0; k < THREADS; k++) {
        workers[k].words = like->words;
        workers[k].count = like->count;
        workers[k].live = like->live;
        workers[k].to = to;
        workers[k].page_words = size;
        workers[k].pages_count = count;
        DONE(0, pages_share, &pages, &workers[k].pages);
    }
    run_threads(workers, touch);
    for (int k = 0; k < THREADS; k++) built += workers[k].builds;
    SAME(built, count);
    DONE(0, pages_end, &pages, survey);
}

/* The heap at rest, whose words go: all mark it, and all slide it, by parts and by pages. */
void rest_by_threads(graph *g, uint64_t *words, uint64_t count) {
    worker workers[THREADS];
    compressor_survey survey = COMPRESSOR_EMPTY;
    uint64_t *roots = root_words(g, FROM), *wanted, *wanted_roots, *to, *touched, live;
    memset(workers, 0, sizeof workers);
    graph_trace(g, 0);
    live = live_words(g);
    if (one_in(4)) survey_by_growing(g->edition, words, count, roots, g->root_count, live, &survey);
    else if (g->edition < 3 || one_in(2)) mark_together(g, words, count, roots, live, &survey);
    else mark_in_steps(g, words, count, roots, live, &survey);
    graph_slide(g);
    wanted = (uint64_t *)zeros(live, sizeof *wanted);
    to = (uint64_t *)zeros(live, sizeof *to);
    graph_fill(g, FROM, wanted);
    wanted_roots = root_words(g, FROM);
    for (int k = 0; k < THREADS; k++) {
        workers[k].words = words;
        workers[k].count = count;
        workers[k].live = live;
        workers[k].to = to;
        DONE(0, survey_share, &survey, &workers[k].survey);
    }
    DONE(0, survey_forward, &survey, roots, g->root_count);
    run_threads(workers, slide);
    touched = (uint64_t *)zeros(live, sizeof *touched);
    touch_together(&survey, &workers[0], touched);
    DROP(survey_drop, &survey);
    SAME_WORDS(to, wanted, live);
    SAME_WORDS(touched, wanted, live);
    SAME_WORDS(roots, wanted_roots, g->root_count);
    free(words);
    free(roots);
    free(wanted);
    free(wanted_roots);
    free(to);
    free(touched);
}
