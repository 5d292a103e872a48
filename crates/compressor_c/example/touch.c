/* A heap at rest that slides page by page while its threads go on: four threads touch pages, each in an order of its own,
   and a page is built by whoever comes first. Each refusal is met once. In the end to-space is what one slide makes.
   Prints what was found. A call for which there was no memory is made once more, so one allocation may be refused
   anywhere. */
#include "compressor_rest.h"

#include <pthread.h>
#include <stdio.h>
#include <stdlib.h>
#include <string.h>

enum { THREADS = 4, PAIRS = 5000, WORDS = 3 * PAIRS, PAGE = 100, EDITION = 4 };

static uint64_t answered(compressor_answer a, uint32_t status, int line) {
    if (a.status == status) return a.value;
    printf("line %d: %s, value %llu\n", line, compressor_status_text(a.status), (unsigned long long)a.value);
    exit(1);
}

static void is(int so, int line) {
    if (so) return;
    printf("not so: line %d\n", line);
    exit(1);
}

#define IS(what) is(what, __LINE__)

/* The call answers this status and this value; it is made once more if there was no memory for it. */
#define ANSWERS(value_is, call, status_is)                         \
    do {                                                           \
        const uint64_t value_ = (value_is);                        \
        compressor_answer a_ = call;                               \
        if (a_.status == COMPRESSOR_OUT_OF_MEMORY) a_ = call;      \
        is(answered(a_, status_is, __LINE__) == value_, __LINE__); \
    } while (0)
#define DONE(value_is, call) ANSWERS(value_is, call, COMPRESSOR_DONE)

static uint64_t words[WORDS], to[WORDS], wanted[WORDS];
static uint64_t live, count;

/* A list of pairs of a number and the pair two further on; so every second pair is garbage. */
static uint64_t make_list(void) {
    for (uint64_t n = 0; n < PAIRS; n++) {
        uint64_t *own = words + 3 * n;
        own[0] = COMPRESSOR_HEADER(2, 0, 0, 7);
        own[1] = compressor_fixnum((int64_t)n);
        own[2] = n + 2 < PAIRS ? COMPRESSOR_FROM_SPACE + 3 * (n + 2) : 0;
    }
    return COMPRESSOR_FROM_SPACE;
}

static size_t length_of(uint64_t page) {
    const uint64_t left = live - page * PAGE;
    return left < PAGE ? (size_t)left : (size_t)PAGE;
}

/* Touches a page: 1 if this call built it. */
static int touch(compressor_pages *pages, uint64_t page) {
    compressor_answer a;
    do a = compressor_pages_claim(pages, page);
    while (a.status == COMPRESSOR_PAGE_BUSY);
    if (a.status == COMPRESSOR_PAGE_HOME) return 0;
    answered(a, COMPRESSOR_DONE, __LINE__);
    answered(compressor_pages_build(pages, words, WORDS, to + page * PAGE, length_of(page)), COMPRESSOR_DONE, __LINE__);
    answered(compressor_pages_publish(pages), COMPRESSOR_DONE, __LINE__);
    return 1;
}

typedef struct worker {
    compressor_pages pages; /* its share */
    uint64_t number;
    uint64_t built;
    pthread_t thread;
} worker;

static void *work(void *it) {
    worker *own = (worker *)it;
    for (uint64_t k = 0; k < count; k++) own->built += (uint64_t)touch(&own->pages, (k * 7 + own->number * 31) % count);
    for (uint64_t k = 0; k < count; k++) own->built += (uint64_t)touch(&own->pages, k);
    compressor_pages_drop(&own->pages);
    return NULL;
}

/* What is refused while no page but the first is home. Nothing changes by it. */
static void refuse(compressor_pages *pages, compressor_survey *survey) {
    compressor_pages other = COMPRESSOR_EMPTY;
    const uint64_t header = words[0];
    ANSWERS(0, compressor_pages_publish(pages), COMPRESSOR_NO_TURN);
    ANSWERS(0, compressor_pages_build(pages, words, WORDS, to, PAGE), COMPRESSOR_NO_TURN);
    ANSWERS(count, compressor_pages_claim(pages, count), COMPRESSOR_NO_SUCH_PAGE);
    ANSWERS(0, compressor_pages_end(pages, survey), COMPRESSOR_NOT_HOME);
    DONE(0, compressor_pages_claim(pages, 0));
    ANSWERS(0, compressor_pages_claim(pages, 1), COMPRESSOR_TURN_TAKEN);
    ANSWERS(0, compressor_pages_publish(pages), COMPRESSOR_NOT_BUILT);
    ANSWERS(0, compressor_pages_end(pages, survey), COMPRESSOR_NOT_HOME);
    DONE(0, compressor_pages_share(pages, &other));
    ANSWERS(0, compressor_pages_claim(&other, 0), COMPRESSOR_PAGE_BUSY);
    ANSWERS(PAGE, compressor_pages_build(pages, words, WORDS, to, PAGE + 1), COMPRESSOR_OTHER_LENGTH);
    ANSWERS(0, compressor_pages_build(pages, words, WORDS, to, PAGE), COMPRESSOR_NO_TURN);
    DONE(0, compressor_pages_claim(&other, 0));
    ANSWERS(0, compressor_pages_build(&other, words, WORDS - 1, to, PAGE), COMPRESSOR_OTHER_COUNT);
    DONE(0, compressor_pages_claim(pages, 0));
    words[0] = COMPRESSOR_HEADER(3, 0, 0, 7);
    ANSWERS(0, compressor_pages_build(pages, words, WORDS, to, PAGE), COMPRESSOR_CHANGED);
    words[0] = header;
    DONE(0, compressor_pages_claim(pages, 0));
    DONE(0, compressor_pages_build(pages, words, WORDS, to, PAGE));
    ANSWERS(0, compressor_pages_build(pages, words, WORDS, to, PAGE), COMPRESSOR_NO_TURN);
    DONE(0, compressor_pages_publish(pages));
    ANSWERS(0, compressor_pages_claim(&other, 0), COMPRESSOR_PAGE_HOME);
    ANSWERS(1, compressor_pages_end(pages, survey), COMPRESSOR_NOT_HOME);
    compressor_pages_drop(&other);
}

int main(void) {
    compressor_survey survey = COMPRESSOR_EMPTY, second = COMPRESSOR_EMPTY;
    compressor_tables tables = COMPRESSOR_EMPTY;
    compressor_pages pages = COMPRESSOR_EMPTY, none = COMPRESSOR_EMPTY;
    worker workers[THREADS];
    uint64_t root = make_list(), built = 0;
    live = 3 * ((PAIRS + 1) / 2);
    count = (live + PAGE - 1) / PAGE;
    DONE(0, compressor_tables_reserve(WORDS, &tables));
    DONE(live, compressor_survey_by_roots_lent(&tables, EDITION, words, WORDS, &root, 1, &survey));
    DONE(0, compressor_survey_slide(&survey, words, WORDS, 0, wanted, live));
    ANSWERS(0, compressor_pages_begin(&survey, 0, &pages), COMPRESSOR_NO_SIZE);
    DONE(0, compressor_survey_share(&survey, &second));
    DONE(count, compressor_pages_begin(&survey, PAGE, &pages));
    DONE(0, compressor_survey_forward(&second, &root, 1)); /* another share of the survey is not in the way */
    compressor_survey_drop(&second);
    IS(survey.at == NULL && pages.at != NULL && root == COMPRESSOR_FROM_SPACE);
    refuse(&pages, &survey);
    for (uint64_t k = 0; k < THREADS; k++) {
        workers[k].pages.at = NULL;
        workers[k].number = k;
        workers[k].built = 0;
        DONE(0, compressor_pages_share(&pages, &workers[k].pages));
    }
    for (int k = 0; k < THREADS; k++)
        if (pthread_create(&workers[k].thread, NULL, work, &workers[k]) != 0)
            IS(pthread_create(&workers[k].thread, NULL, work, &workers[k]) == 0);
    for (int k = 0; k < THREADS; k++) {
        IS(pthread_join(workers[k].thread, NULL) == 0);
        built += workers[k].built;
    }
    IS(built + 1 == count && memcmp(to, wanted, live * sizeof *to) == 0);
    DONE(0, compressor_pages_share(&pages, &none));
    ANSWERS(0, compressor_pages_end(&pages, &survey), COMPRESSOR_STILL_SHARED);
    compressor_pages_drop(&none);
    DONE(0, compressor_pages_end(&pages, &survey));
    IS(pages.at == NULL && survey.at != NULL);
    ANSWERS(0, compressor_pages_claim(&pages, 0), COMPRESSOR_EMPTY_HANDLE);
    DONE(WORDS, compressor_survey_return(&survey, &tables));
    compressor_tables_drop(&tables);
    printf("touch: %llu pages, each built once; to-space is what one slide makes\n", (unsigned long long)count);
    return 0;
}
