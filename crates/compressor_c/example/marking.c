/* A heap that two threads mark, over words that are lent at each call. It stands still at first; then it is written to
   between two steps, and what was written over is handed in, and what was made. An object that was not handed in is
   found by the slide. Each refusal is met once, but for MARKERS_BUSY, which wants more threads. Prints what was found.
   A call for which there was no memory is made once more, or the whole marking where that is gone; so one allocation
   may be refused anywhere. */
#include "compressor_rest.h"

#include <pthread.h>
#include <stdio.h>
#include <stdlib.h>
#include <string.h>

/* Objects have a header, two references and a data word each; the last one is made between two steps. */
enum { EDITION = 4, THREADS = 2, OBJECTS = 20000, SIZE = 4, ROOM = OBJECTS * SIZE, LAST = ROOM - SIZE };

static uint64_t answered(compressor_answer a, uint32_t status, int line) {
    if (a.status == status) return a.value;
    printf("line %d: %s, value %llu\n", line, compressor_status_text(a.status), (unsigned long long)a.value);
    exit(1);
}

static void is(int so, int line) {
    if (so) return;
    printf("not so: line %d\n", line);
    exit(1);
}

#define IS(what) is(what, __LINE__)

/* The call answers this status and this value; it is made once more if there was no memory for it. */
#define ANSWERS(value_is, call, status_is)                         \
    do {                                                           \
        const uint64_t value_ = (value_is);                        \
        compressor_answer a_ = call;                               \
        if (a_.status == COMPRESSOR_OUT_OF_MEMORY) a_ = call;      \
        is(answered(a_, status_is, __LINE__) == value_, __LINE__); \
    } while (0)
#define DONE(value_is, call) ANSWERS(value_is, call, COMPRESSOR_DONE)
/* Goes on if the step is done; else the function answers as it does. */
#define STEP(call)                                   \
    do {                                             \
        const compressor_answer s_ = call;           \
        if (s_.status != COMPRESSOR_DONE) return s_; \
    } while (0)

static uint64_t words[ROOM], to[ROOM], wanted[ROOM];

static uint64_t at(uint64_t index) { return COMPRESSOR_FROM_SPACE + index; }

/* References to any objects but the last one, by a generator of numbers; one in four is null. The first object leads to
   the second one. */
static void make(void) {
    uint64_t state = 5;
    memset(words, 0, sizeof words);
    for (uint64_t i = 0; i < LAST; i += SIZE) {
        words[i] = COMPRESSOR_HEADER(2, 0, 1, 7);
        for (uint64_t field = 1; field < 3; field++) {
            state = state * UINT64_C(6364136223846793005) + 1;
            words[i + field] = state >> 20 & 3 ? at((state >> 33) % (OBJECTS - 1) * SIZE) : 0;
        }
        words[i + 3] = i;
    }
    words[1] = at(SIZE);
}

/* What one thread has. */
typedef struct helper {
    compressor_marking marking; /* its share */
    uint64_t number;
    pthread_t thread;
} helper;

/* Helps until nothing is left. */
static void *help(void *it) {
    helper *own = (helper *)it;
    uint64_t did;
    do did = answered(compressor_marking_help(&own->marking, words, ROOM, own->number), COMPRESSOR_DONE, __LINE__);
    while (did != COMPRESSOR_HELP_DONE);
    compressor_marking_drop(&own->marking);
    return NULL;
}

/* All threads help until nothing is left. Meanwhile nobody writes to the words. */
static void help_by_threads(compressor_marking *marking) {
    helper helpers[THREADS];
    for (int k = 0; k < THREADS; k++) {
        const compressor_marking none = COMPRESSOR_EMPTY;
        helpers[k].marking = none;
        helpers[k].number = (uint64_t)k;
        DONE(0, compressor_marking_share(marking, &helpers[k].marking));
        if (pthread_create(&helpers[k].thread, NULL, help, &helpers[k]) != 0)
            IS(pthread_create(&helpers[k].thread, NULL, help, &helpers[k]) == 0);
    }
    for (int k = 0; k < THREADS; k++) IS(pthread_join(helpers[k].thread, NULL) == 0);
}

static compressor_answer begin(compressor_marking *marking) {
    const uint64_t roots[3] = {at(0), 0, compressor_fixnum(5)};
    return compressor_marking_begin(EDITION, ROOM, roots, 3, marking);
}

/* Nobody writes. */
static compressor_answer mark_at_rest(compressor_marking *marking, compressor_survey *survey) {
    const uint64_t roots[1] = {at(0)};
    make();
    STEP(begin(marking));
    help_by_threads(marking);
    return compressor_marking_finish(marking, roots, 1, survey);
}

/* After some objects were looked at, the second one is cut off from the first one, and the last one is made, to which
   the first one leads then. Both are handed in. */
static compressor_answer mark_in_steps(compressor_marking *marking, compressor_survey *survey) {
    const uint64_t roots[2] = {at(0), at(LAST)}, given[2] = {at(SIZE), at(LAST)};
    make();
    STEP(begin(marking));
    STEP(compressor_marking_help(marking, words, ROOM, 0));
    words[LAST] = COMPRESSOR_HEADER(2, 0, 1, 7);
    words[LAST + 1] = at(0);
    words[1] = at(LAST);
    STEP(compressor_marking_meet(marking, given, 2));
    help_by_threads(marking);
    return compressor_marking_finish(marking, roots, 2, survey);
}

/* The same, and the last object is not handed in. */
static compressor_answer mark_badly(compressor_marking *marking, compressor_survey *survey) {
    const uint64_t roots[1] = {at(0)};
    make();
    STEP(begin(marking));
    help_by_threads(marking);
    words[LAST] = COMPRESSOR_HEADER(2, 0, 1, 7);
    words[1] = at(LAST);
    return compressor_marking_finish(marking, roots, 1, survey);
}

/* Refused at the end: nobody helped; a root to an object that was not met; an object that ends past the words. */
static compressor_answer mark_nothing(compressor_marking *marking, compressor_survey *survey) {
    make();
    STEP(begin(marking));
    return compressor_marking_finish(marking, NULL, 0, survey);
}

static compressor_answer root_unmet(compressor_marking *marking, compressor_survey *survey) {
    const uint64_t roots[2] = {at(0), at(LAST)};
    make();
    STEP(begin(marking));
    help_by_threads(marking);
    return compressor_marking_finish(marking, roots, 2, survey);
}

static compressor_answer bad_object(compressor_marking *marking, compressor_survey *survey) {
    make();
    words[LAST - SIZE] = COMPRESSOR_HEADER(0, 0, SIZE * 2, 7);
    words[1] = at(LAST - SIZE);
    STEP(begin(marking));
    help_by_threads(marking);
    return compressor_marking_finish(marking, NULL, 0, survey);
}

typedef compressor_answer way(compressor_marking *marking, compressor_survey *survey);

/* Answers as the marking does, which is made once more if there was no memory: then its survey is empty. */
static compressor_answer tried(way *mark, compressor_survey *survey) {
    compressor_marking marking = COMPRESSOR_EMPTY;
    compressor_answer a = mark(&marking, survey);
    if (a.status == COMPRESSOR_OUT_OF_MEMORY) {
        IS(survey->at == NULL);
        compressor_marking_drop(&marking);
        a = mark(&marking, survey);
    }
    IS(marking.at == NULL); /* also where its end was refused */
    return a;
}

/* Where two threads marked, the heap slides as by a survey of one. */
static uint64_t slide_at_rest(void) {
    uint64_t root[2] = {at(0), at(0)}, live, half;
    compressor_survey survey = COMPRESSOR_EMPTY;
    compressor_answer a;
    make();
    a = compressor_collect(EDITION, words, ROOM, root, 1, wanted, ROOM);
    if (a.status == COMPRESSOR_OUT_OF_MEMORY) a = compressor_collect(EDITION, words, ROOM, root, 1, wanted, ROOM);
    live = answered(a, COMPRESSOR_DONE, __LINE__);
    half = live / 2;
    IS(answered(tried(mark_at_rest, &survey), COMPRESSOR_DONE, __LINE__) == live);
    DONE(0, compressor_survey_slide(&survey, words, ROOM, 0, to, half));
    DONE(0, compressor_survey_slide(&survey, words, ROOM, half, to + half, live - half));
    DONE(0, compressor_survey_forward(&survey, root + 1, 1));
    IS(memcmp(to, wanted, live * sizeof *to) == 0 && root[0] == root[1]);
    compressor_survey_drop(&survey);
    return live;
}

/* What lived when the marking began, and what was made meanwhile, live until the next time. */
static void slide_in_steps(uint64_t live) {
    uint64_t root[1] = {at(LAST)};
    compressor_survey survey = COMPRESSOR_EMPTY;
    IS(answered(tried(mark_in_steps, &survey), COMPRESSOR_DONE, __LINE__) == live + SIZE);
    DONE(0, compressor_survey_slide(&survey, words, ROOM, 0, to, live + SIZE));
    DONE(0, compressor_survey_forward(&survey, root, 1));
    IS(root[0] == at(live) && to[live + 1] == at(0) && to[1] == root[0]);
    compressor_survey_drop(&survey);
}

/* The slide finds what nobody handed in, and nothing has changed. */
static void slide_badly(uint64_t live) {
    compressor_survey survey = COMPRESSOR_EMPTY;
    IS(answered(tried(mark_badly, &survey), COMPRESSOR_DONE, __LINE__) == live);
    ANSWERS(1, compressor_survey_slide(&survey, words, ROOM, 0, to, live), COMPRESSOR_UNMARKED);
    compressor_survey_drop(&survey);
}

static void refuse(void) {
    const uint64_t roots[2] = {at(0), at(ROOM)}, most = compressor_max_words(EDITION);
    compressor_marking marking = COMPRESSOR_EMPTY, other = COMPRESSOR_EMPTY;
    compressor_survey survey = COMPRESSOR_EMPTY;
    ANSWERS(0, compressor_marking_help(&marking, words, ROOM, 0), COMPRESSOR_EMPTY_HANDLE);
    ANSWERS(2, compressor_marking_begin(2, ROOM, roots, 1, &marking), COMPRESSOR_BAD_EDITION);
    ANSWERS(5, compressor_marking_begin(5, ROOM, roots, 1, &marking), COMPRESSOR_BAD_EDITION);
    ANSWERS(0, compressor_marking_begin(EDITION, most + 1, roots, 1, &marking), COMPRESSOR_TOO_LARGE);
    ANSWERS(1, compressor_marking_begin(EDITION, ROOM, roots, 2, &marking), COMPRESSOR_BAD_ROOT);
    DONE(0, begin(&marking));
    DONE(0, compressor_marking_share(&marking, &other));
    ANSWERS(0, compressor_marking_help(&marking, words, ROOM - 1, 0), COMPRESSOR_WRONG_LENGTH);
    ANSWERS(1, compressor_marking_meet(&marking, roots, 2), COMPRESSOR_BAD_ROOT);
    ANSWERS(0, compressor_marking_finish(&marking, roots, 1, &survey), COMPRESSOR_STILL_SHARED);
    compressor_marking_drop(&other);
    compressor_marking_drop(&marking);
    ANSWERS(0, tried(mark_nothing, &survey), COMPRESSOR_STILL_MARKING);
    ANSWERS(1, tried(root_unmet, &survey), COMPRESSOR_BAD_ROOT);
    ANSWERS(LAST - SIZE, tried(bad_object, &survey), COMPRESSOR_BAD_OBJECT);
    IS(survey.at == NULL);
}

int main(void) {
    const uint64_t live = slide_at_rest();
    slide_in_steps(live);
    slide_badly(live);
    refuse();
    printf("marking: %llu words live of %d, as two threads mark, also in steps; what was not handed in is found\n",
           (unsigned long long)live, (int)ROOM);
    return 0;
}
