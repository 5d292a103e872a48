/* A heap that two threads mark by lanes while a third one writes to it: it makes objects, and cards say to which ones
   it wrote. At the second stop the lanes are joined, what was written to is looked at again, and the heap slides as by
   a survey of the roots. Each refusal is met once. Prints what was found. A call for which there was no memory is made
   once more, or the whole marking where a lane is gone; so one allocation may be refused anywhere. */
#include "compressor_rest.h"

#include <pthread.h>
#include <stdio.h>
#include <stdlib.h>
#include <string.h>

/* Objects have a header, two references and a data word each. The last ones are made while the heap is marked. */
enum { EDITION = 4, MARKERS = 2, OLD = 20000, NEW = 500, SIZE = 4, OLD_END = OLD * SIZE, ROOM = (OLD + NEW) * SIZE };
enum { SOME = 8, ROW = 3, CARDS = (ROOM + 63) / 64 };

static uint64_t answered(compressor_answer a, uint32_t status, int line) {
    if (a.status == status) return a.value;
    printf("line %d: %s, value %llu\n", line, compressor_status_text(a.status), (unsigned long long)a.value);
    exit(1);
}

static void is(int so, int line) {
    if (so) return;
    printf("not so: line %d\n", line);
    exit(1);
}

#define IS(what) is(what, __LINE__)

/* The call answers this status and this value; it is made once more if there was no memory for it. */
#define ANSWERS(value_is, call, status_is)                         \
    do {                                                           \
        const uint64_t value_ = (value_is);                        \
        compressor_answer a_ = call;                               \
        if (a_.status == COMPRESSOR_OUT_OF_MEMORY) a_ = call;      \
        is(answered(a_, status_is, __LINE__) == value_, __LINE__); \
    } while (0)
#define DONE(value_is, call) ANSWERS(value_is, call, COMPRESSOR_DONE)
/* Goes on if the step is done; else the function answers as it does. */
#define STEP(call)                                   \
    do {                                             \
        const compressor_answer s_ = call;           \
        if (s_.status != COMPRESSOR_DONE) return s_; \
    } while (0)

static uint64_t words[ROOM], to[ROOM], wanted[ROOM];
static unsigned char cards[CARDS];
static compressor_space space;

static uint64_t at(uint64_t index) { return COMPRESSOR_FROM_SPACE + index; }

/* References to any objects, by a generator of numbers; one in four is null. The first object leads to the second one,
   and that to none. */
static void make(void) {
    uint64_t state = 5;
    memset(words, 0, sizeof words);
    memset(cards, 0, sizeof cards);
    for (uint64_t i = 0; i < OLD_END; i += SIZE) {
        words[i] = COMPRESSOR_HEADER(2, 0, 1, 7);
        for (uint64_t field = 1; field < 3; field++) {
            state = state * UINT64_C(6364136223846793005) + 1;
            words[i + field] = state >> 20 & 3 ? at((state >> 33) % OLD * SIZE) : 0;
        }
        words[i + 3] = i;
    }
    words[1] = at(SIZE);
    words[SIZE + 1] = 0;
}

/* Makes the new objects from index `made` on, up to `end`, and lets old ones, from index i on, lead to them by
   references that were null. Answers the index behind these. */
static uint64_t write_some(uint64_t i, uint64_t made, uint64_t end) {
    for (; made < end; i += SIZE) {
        if (words[i + 1] != 0) continue;
        words[made] = COMPRESSOR_HEADER(2, 0, 1, 7);
        words[made + 1] = at(i);
        words[made + 3] = made;
        compressor_store_head_card(&space, cards, at(i), 0, at(made));
        made += SIZE;
    }
    return i;
}

/* Objects that a lane gave, and no other one has taken yet. */
static uint64_t pool[SOME];
static size_t in_pool;
static pthread_mutex_t lock = PTHREAD_MUTEX_INITIALIZER;

typedef struct marker {
    compressor_lane lane;
    compressor_answer last; /* of the last step */
    pthread_t thread;
} marker;

/* The rows of these objects, one behind the other. Answers their words. */
static uint64_t copy_rows(const uint64_t *indices, uint64_t many, uint64_t *rows) {
    uint64_t count = 0;
    for (uint64_t k = 0; k < many; k++)
        count += compressor_copy_row(&space, at(indices[k]), rows + count, SOME * ROW - count);
    return count;
}

/* Looks at some objects of a lane. Answers 1 if others wait. */
static compressor_answer look_at_some(compressor_lane *lane) {
    uint64_t indices[SOME], rows[SOME * ROW];
    const uint64_t many = compressor_lane_waiting(lane, indices, SOME).value;
    return compressor_lane_look(lane, rows, copy_rows(indices, many, rows));
}

/* Takes what is in the pool if no object waits, and puts some there if it is empty. Answers 1 if objects wait. */
static compressor_answer exchange(compressor_lane *lane, uint64_t waits) {
    uint64_t next[1];
    compressor_answer a = {COMPRESSOR_DONE, 0, waits};
    IS(pthread_mutex_lock(&lock) == 0);
    if (waits == 0 && in_pool > 0) {
        a = compressor_lane_take(lane, pool, in_pool);
        in_pool = 0;
    } else if (waits == 1 && in_pool == 0) {
        in_pool = compressor_lane_give(lane, pool, SOME).value;
        a = compressor_lane_waiting(lane, next, 1);
    }
    IS(pthread_mutex_unlock(&lock) == 0);
    return a;
}

/* One marker: until nothing waits, and nothing is in the pool. What comes there later is for the other one. */
static void *mark(void *it) {
    marker *own = (marker *)it;
    uint64_t waited;
    do {
        own->last = look_at_some(&own->lane);
        waited = own->last.value;
        if (own->last.status == COMPRESSOR_DONE) own->last = exchange(&own->lane, waited);
    } while (own->last.status == COMPRESSOR_DONE && (waited == 1 || own->last.value == 1));
    return NULL;
}

/* The first stop is over: two threads mark, and this one writes, also when they are done. */
static void mark_by_threads(marker *markers) {
    const uint64_t half = OLD_END + NEW / 2 * SIZE;
    uint64_t written;
    for (int k = 0; k < MARKERS; k++)
        if (pthread_create(&markers[k].thread, NULL, mark, &markers[k]) != 0)
            IS(pthread_create(&markers[k].thread, NULL, mark, &markers[k]) == 0);
    written = write_some(SIZE, OLD_END, half);
    for (int k = 0; k < MARKERS; k++) IS(pthread_join(markers[k].thread, NULL) == 0);
    write_some(written, half, ROOM);
}

/* The objects of each card that is not 0. One that was not met needs no look. */
static compressor_answer look_again(compressor_looks *looks) {
    uint64_t row[ROW];
    compressor_answer a;
    for (uint64_t i = 0; i < ROOM; i += SIZE) {
        if (cards[i / 64] == 0) continue;
        a = compressor_looks_again(looks, i, row, copy_rows(&i, 1, row));
        if (a.status != COMPRESSOR_NO_SUCH_OBJECT && a.status != COMPRESSOR_DONE) return a;
    }
    return compressor_looks_waiting(looks, row, 1);
}

static compressor_answer look_at_all(compressor_looks *looks) {
    uint64_t indices[SOME], rows[SOME * ROW];
    compressor_answer a;
    do {
        const uint64_t many = compressor_looks_waiting(looks, indices, SOME).value;
        a = compressor_looks_look(looks, rows, copy_rows(indices, many, rows));
    } while (a.status == COMPRESSOR_DONE && a.value == 1);
    return a;
}

/* The whole marking, with a first stop and a second one. */
static compressor_answer mark_all(marker *markers, compressor_looks *looks, compressor_survey *survey) {
    const uint64_t first[3] = {at(0), at(2 * SIZE), at(5 * SIZE)};
    make();
    in_pool = 0;
    STEP(compressor_lane_begin(EDITION, ROOM, &markers[0].lane));
    STEP(compressor_lane_share(&markers[0].lane, &markers[1].lane));
    STEP(compressor_lane_meet(&markers[0].lane, first, 3));
    in_pool = compressor_lane_give(&markers[0].lane, pool, 2).value;
    IS(in_pool == 2 && pool[0] == 2 * SIZE && pool[1] == 5 * SIZE);
    mark_by_threads(markers);
    /* the second stop */
    for (int k = 0; k < MARKERS; k++) STEP(markers[k].last);
    STEP(compressor_lane_take(&markers[0].lane, pool, in_pool));
    STEP(compressor_lane_join(&markers[0].lane, &markers[1].lane));
    IS(markers[1].lane.at == NULL);
    STEP(compressor_lane_whole(&markers[0].lane, looks));
    IS(markers[0].lane.at == NULL);
    STEP(look_again(looks));
    STEP(compressor_looks_meet(looks, first, 3));
    STEP(look_at_all(looks));
    STEP(compressor_looks_check(looks, words, ROOM));
    return compressor_looks_finish(looks, first, 3, survey);
}

/* The same, once more if there was no memory: then what is left is dropped. */
static uint64_t mark_surely(compressor_survey *survey) {
    const compressor_lane none = COMPRESSOR_EMPTY;
    compressor_looks looks = COMPRESSOR_EMPTY;
    marker markers[MARKERS];
    compressor_answer a;
    for (int k = 0; k < MARKERS; k++) markers[k].lane = none;
    a = mark_all(markers, &looks, survey);
    if (a.status == COMPRESSOR_OUT_OF_MEMORY) {
        IS(survey->at == NULL);
        for (int k = 0; k < MARKERS; k++) compressor_lane_drop(&markers[k].lane);
        compressor_looks_drop(&looks);
        a = mark_all(markers, &looks, survey);
    }
    return answered(a, COMPRESSOR_DONE, __LINE__);
}

/* Nothing was cut off, so what was met is what the roots reach in the end. */
static uint64_t slide(void) {
    uint64_t roots[3] = {at(0), at(2 * SIZE), at(5 * SIZE)}, same[3], live;
    compressor_survey survey = COMPRESSOR_EMPTY;
    live = mark_surely(&survey);
    memcpy(same, roots, sizeof same);
    DONE(0, compressor_survey_slide(&survey, words, ROOM, 0, to, live / 2));
    DONE(0, compressor_survey_slide(&survey, words, ROOM, live / 2, to + live / 2, live - live / 2));
    DONE(0, compressor_survey_forward(&survey, same, 3));
    DONE(live, compressor_collect(EDITION, words, ROOM, roots, 3, wanted, ROOM));
    IS(memcmp(to, wanted, live * sizeof *to) == 0 && memcmp(same, roots, sizeof same) == 0);
    compressor_survey_drop(&survey);
    return live;
}

/* The second object waits in a lane. */
static void begin(compressor_lane *lane) {
    const uint64_t root[1] = {at(SIZE)};
    compressor_answer a;
    DONE(0, compressor_lane_begin(EDITION, ROOM, lane));
    a = compressor_lane_meet(lane, root, 1);
    if (a.status == COMPRESSOR_OUT_OF_MEMORY) { /* then the lane is gone */
        DONE(0, compressor_lane_begin(EDITION, ROOM, lane));
        a = compressor_lane_meet(lane, root, 1);
    }
    IS(answered(a, COMPRESSOR_DONE, __LINE__) == 1);
}

static void refuse_begin(void) {
    const uint64_t most = compressor_max_words(EDITION);
    uint64_t indices[3] = {7, 7, 7};
    compressor_lane lane = COMPRESSOR_EMPTY, other = COMPRESSOR_EMPTY;
    ANSWERS(0, compressor_lane_share(&lane, &other), COMPRESSOR_EMPTY_HANDLE);
    ANSWERS(2, compressor_lane_begin(2, ROOM, &lane), COMPRESSOR_BAD_EDITION);
    ANSWERS(5, compressor_lane_begin(5, ROOM, &lane), COMPRESSOR_BAD_EDITION);
    ANSWERS(0, compressor_lane_begin(EDITION, most + 1, &lane), COMPRESSOR_TOO_LARGE);
    begin(&lane);
    ANSWERS(0, compressor_lane_begin(EDITION, ROOM, &lane), COMPRESSOR_NOT_EMPTY);
    DONE(0, compressor_lane_share(&lane, &other));
    ANSWERS(1, compressor_lane_share(&lane, &other), COMPRESSOR_NOT_EMPTY);
    compressor_lane_drop(&other);
    ANSWERS(1, compressor_lane_join(&lane, &other), COMPRESSOR_EMPTY_HANDLE);
    DONE(1, compressor_lane_waiting(&lane, indices, 2));
    IS(indices[0] == SIZE && indices[1] == 7);
    compressor_lane_drop(&lane);
}

/* Refused steps end their lane. */
static void refuse_steps(void) {
    const uint64_t row[2] = {COMPRESSOR_HEADER(0, 0, 0, 1), COMPRESSOR_HEADER(0, 0, 0, 2)};
    const uint64_t astray[2] = {0, at(ROOM)}, past[1] = {ROOM};
    compressor_lane lane = COMPRESSOR_EMPTY;
    begin(&lane);
    ANSWERS(0, compressor_lane_look(&lane, row, 2), COMPRESSOR_NO_SUCH_OBJECT);
    IS(lane.at == NULL);
    begin(&lane);
    ANSWERS(1, compressor_lane_meet(&lane, astray, 2), COMPRESSOR_BAD_ROOT);
    IS(lane.at == NULL);
    begin(&lane);
    ANSWERS(0, compressor_lane_take(&lane, past, 1), COMPRESSOR_BAD_ROOT);
    IS(lane.at == NULL);
}

/* An object that two lanes have; one that none has, since nobody took what was given; lanes of two heaps. */
static void refuse_joins(void) {
    uint64_t index[1] = {7};
    compressor_lane lane = COMPRESSOR_EMPTY, other = COMPRESSOR_EMPTY;
    compressor_looks looks = COMPRESSOR_EMPTY;
    begin(&lane);
    begin(&other); /* it is of a marking of its own, so it met the same object */
    ANSWERS(SIZE, compressor_lane_join(&lane, &other), COMPRESSOR_OVERLAP);
    IS(lane.at == NULL && other.at == NULL);
    begin(&lane);
    DONE(1, compressor_lane_give(&lane, index, 1));
    IS(index[0] == SIZE);
    ANSWERS(SIZE, compressor_lane_whole(&lane, &looks), COMPRESSOR_MISSING_OBJECT);
    IS(lane.at == NULL && looks.at == NULL);
    begin(&lane);
    DONE(0, compressor_lane_begin(EDITION, ROOM - 1, &other));
    ANSWERS(0, compressor_lane_join(&lane, &other), COMPRESSOR_OTHER_HEAP);
    IS(lane.at == NULL && other.at == NULL);
}

/* What was looked at is not so in other words. */
static void refuse_check(void) {
    const uint64_t row[1] = {COMPRESSOR_HEADER(0, 0, 3, 7)};
    compressor_lane lane = COMPRESSOR_EMPTY;
    compressor_looks looks = COMPRESSOR_EMPTY;
    begin(&lane);
    DONE(0, compressor_lane_look(&lane, row, 1));
    DONE(0, compressor_lane_whole(&lane, &looks));
    ANSWERS(0, compressor_looks_check(&looks, words, ROOM - 1), COMPRESSOR_WRONG_LENGTH);
    words[SIZE] = row[0];
    DONE(0, compressor_looks_check(&looks, words, ROOM));
    words[SIZE] = COMPRESSOR_HEADER(1, 0, 2, 7);
    words[SIZE + 1] = at(0);
    ANSWERS(SIZE + 1, compressor_looks_check(&looks, words, ROOM), COMPRESSOR_UNMARKED);
    words[SIZE] = COMPRESSOR_HEADER(0, 0, 2, 7);
    ANSWERS(2 * SIZE - 1, compressor_looks_check(&looks, words, ROOM), COMPRESSOR_NOT_A_RUN);
    words[SIZE] = COMPRESSOR_HEADER(0, 0, 4, 7);
    ANSWERS(SIZE, compressor_looks_check(&looks, words, ROOM), COMPRESSOR_CHANGED);
    compressor_looks_drop(&looks);
}

int main(void) {
    uint64_t live;
    compressor_space_in(&space, EDITION, words, ROOM, ROOM);
    live = slide();
    refuse_begin();
    refuse_steps();
    refuse_joins();
    refuse_check();
    printf("lanes: %llu words live of %d, as two threads mark while a third one writes\n", (unsigned long long)live,
           (int)ROOM);
    return 0;
}
