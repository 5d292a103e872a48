/* A heap at rest that four threads collect. They own its memory: they read and write words there, with no call. A heap
   of edition four, of pairs with small integers in them, is collected twice: in one call, and by a survey by which each
   thread slides a part and forwards a root. Then four threads help with a job, and another memory is filled by what it
   found. Prints what was found. A call for which there was no memory is made once more, so one allocation may be
   refused anywhere. */
#include "compressor_rest.h"

#include <pthread.h>
#include <stdio.h>
#include <stdlib.h>

enum { THREADS = 4, PAIRS = 20000, ROOM = 3 * PAIRS, EDITION = 4 };

static void is(int so, int line) {
    if (so) return;
    printf("not so: line %d\n", line);
    exit(1);
}

#define IS(what) is(what, __LINE__)

static uint64_t answered(compressor_answer a, uint32_t status, int line) {
    if (a.status == status) return a.value;
    printf("line %d: %s, value %llu\n", line, compressor_status_text(a.status), (unsigned long long)a.value);
    exit(1);
}

/* The call answers this status; it is made once more if there was no memory for it. The value goes into a variable. */
#define ANSWERS(variable, call, status_is)                          \
    do {                                                            \
        compressor_answer a_ = call;                                \
        if (a_.status == COMPRESSOR_OUT_OF_MEMORY) a_ = call;       \
        variable = answered(a_, status_is, __LINE__);               \
    } while (0)

/* zeros, asked for once more if there are none */
static uint64_t *zeros(size_t count) {
    uint64_t *all = (uint64_t *)calloc(count, sizeof *all);
    if (all == 0) all = (uint64_t *)calloc(count, sizeof *all);
    IS(all != 0);
    return all;
}

static compressor_space space;
static compressor_buffer buffer;

static const uint64_t pair_header = COMPRESSOR_HEADER_REFS(2, 7);

/* Headers that are constants, of each form: those that the function makes. */
enum { MOST = 0x7fffffff, HEADERS = 7 };
#define ALL(of) {of(0, 7), of(2, 0), of(65535, 7), of(65536, 7), of(131071, 7), of(131072, 16383), of(MOST, 7)}
static const uint64_t headers[3][HEADERS] = {ALL(COMPRESSOR_HEADER_REFS), ALL(COMPRESSOR_HEADER_WEAK),
                                             ALL(COMPRESSOR_HEADER_DATA)};

static void check_headers(void) {
    static const uint32_t counts[HEADERS] = {0, 2, 65535, 65536, 131071, 131072, MOST};
    static const uint32_t tags[HEADERS] = {7, 0, 7, 7, 7, 16383, 7};
    for (int k = 0; k < HEADERS; k++) {
        const uint32_t n = counts[k], tag = tags[k];
        const compressor_shape shapes[3] = {{n, 0, 0, tag}, {0, n, 0, tag}, {0, 0, n, tag}};
        for (int of = 0; of < 3; of++) {
            uint64_t header = 0;
            IS(compressor_shape_header(EDITION, shapes[of], &header) && header == headers[of][k]);
        }
    }
}

/* A pair of a number and a reference. */
static uint64_t pair(int64_t number, uint64_t rest) {
    const uint64_t made = compressor_new(&space, &buffer, pair_header, 3);
    IS(made != 0);
    compressor_store(&space, made, 0, compressor_fixnum(number));
    compressor_store(&space, made, 1, rest);
    return made;
}

/* The sum of the numbers of a list, and how many there are. */
static int64_t sum(uint64_t list, int64_t *count) {
    int64_t all = 0;
    *count = 0;
    for (; compressor_is_reference(list); list = compressor_load(&space, list, 1)) {
        all += compressor_fixnum_value(compressor_load(&space, list, 0));
        *count += 1;
    }
    return all;
}

/* Four lists of numbers, of which every second pair is dropped again. */
static void make_lists(uint64_t roots[THREADS]) {
    for (int k = 0; k < THREADS; k++) roots[k] = 0;
    for (int64_t n = 0; n < PAIRS; n++) {
        const uint64_t made = pair(n, roots[n % THREADS]);
        if (n / THREADS % 2 == 0) roots[n % THREADS] = made;
    }
}

static void check_lists(const uint64_t roots[THREADS]) {
    for (int64_t k = 0; k < THREADS; k++) {
        int64_t count;
        const int64_t all = sum(roots[k], &count), most = PAIRS / THREADS / 2;
        IS(count == most && all == most * k + 2 * THREADS * (most * (most - 1) / 2));
    }
}

/* From now on the heap lies in these words. */
static void moved(uint64_t *words, uint64_t used) {
    compressor_space_in(&space, EDITION, words, ROOM, used);
    compressor_buffer_empty(&buffer);
}

/* What one thread of a collection has. */
typedef struct part {
    compressor_survey survey; /* its share */
    compressor_job job;
    uint64_t *to;
    uint64_t live;
    uint64_t root;
    uint64_t number;
    pthread_t thread;
} part;

/* Slides a part, and forwards a root. */
static void *slide(void *it) {
    part *own = (part *)it;
    size_t count;
    const uint64_t first = compressor_part(own->live, THREADS, own->number, &count);
    answered(compressor_survey_slide(&own->survey, space.words, space.used, first, own->to + first, count),
             COMPRESSOR_DONE, __LINE__);
    answered(compressor_survey_forward(&own->survey, &own->root, 1), COMPRESSOR_DONE, __LINE__);
    compressor_survey_drop(&own->survey);
    return NULL;
}

/* Helps with a job until nothing is left. */
static void *help(void *it) {
    part *own = (part *)it;
    uint64_t did;
    do did = answered(compressor_job_help(&own->job, own->number), COMPRESSOR_DONE, __LINE__);
    while (did != COMPRESSOR_HELP_DONE);
    compressor_job_drop(&own->job);
    return NULL;
}

static void run(part parts[THREADS], void *(*work)(void *)) {
    for (int k = 0; k < THREADS; k++)
        if (pthread_create(&parts[k].thread, NULL, work, &parts[k]) != 0)
            IS(pthread_create(&parts[k].thread, NULL, work, &parts[k]) == 0);
    for (int k = 0; k < THREADS; k++) IS(pthread_join(parts[k].thread, NULL) == 0);
}

/* A collection by a survey: each thread slides a part. */
static uint64_t collect_by_parts(compressor_survey *survey, uint64_t roots[THREADS], uint64_t *to) {
    const part none = {COMPRESSOR_EMPTY, COMPRESSOR_EMPTY, NULL, 0, 0, 0, 0};
    part parts[THREADS];
    compressor_survey_facts facts;
    uint64_t value;
    ANSWERS(value, compressor_survey_facts_of(survey, &facts), COMPRESSOR_DONE);
    for (int k = 0; k < THREADS; k++) {
        parts[k] = none;
        parts[k].to = to;
        parts[k].live = facts.live_words;
        parts[k].root = roots[k];
        parts[k].number = (uint64_t)k;
        ANSWERS(value, compressor_survey_share(survey, &parts[k].survey), COMPRESSOR_DONE);
    }
    run(parts, slide);
    for (int k = 0; k < THREADS; k++) roots[k] = parts[k].root;
    IS(value == 0);
    return facts.live_words;
}

/* What a survey refuses: it stays, and so do roots and parts. */
static void refused(compressor_survey *survey, const uint64_t roots[THREADS]) {
    uint64_t part_of[2] = {5, 6}, root[2] = {roots[0], COMPRESSOR_FROM_SPACE + 1}, value;
    ANSWERS(value, compressor_survey_slide(survey, space.words, space.used, space.used, part_of, 2),
            COMPRESSOR_NO_SUCH_PART);
    ANSWERS(value, compressor_survey_slide(survey, space.words, space.used - 1, 0, part_of, 2), COMPRESSOR_OTHER_COUNT);
    IS(part_of[0] == 5 && part_of[1] == 6);
    ANSWERS(value, compressor_survey_forward(survey, root, 2), COMPRESSOR_BAD_ROOT);
    IS(value == 1 && root[0] == roots[0]);
    ANSWERS(value, compressor_survey_forward_weak(survey, root + 1, 1), COMPRESSOR_DONE);
    IS(root[1] == 0);
}

/* The marking by four threads. */
static void mark_by_job(const uint64_t roots[THREADS], compressor_survey *survey) {
    const part none = {COMPRESSOR_EMPTY, COMPRESSOR_EMPTY, NULL, 0, 0, 0, 0};
    part parts[THREADS];
    compressor_job job = COMPRESSOR_EMPTY;
    uint64_t value;
    ANSWERS(value, compressor_job_begin(EDITION, space.words, space.used, roots, THREADS, &job), COMPRESSOR_DONE);
    for (int k = 0; k < THREADS; k++) {
        parts[k] = none;
        parts[k].number = (uint64_t)k;
        ANSWERS(value, compressor_job_share(&job, &parts[k].job), COMPRESSOR_DONE);
    }
    ANSWERS(value, compressor_job_finish(&job, survey), COMPRESSOR_STILL_SHARED);
    run(parts, help);
    compressor_answer a = compressor_job_finish(&job, survey);
    if (a.status == COMPRESSOR_OUT_OF_MEMORY) /* the job is gone: the survey is made by one thread */
        ANSWERS(value, compressor_survey_by_roots(EDITION, space.words, space.used, roots, THREADS, survey),
                COMPRESSOR_DONE);
    else
        value = answered(a, COMPRESSOR_DONE, __LINE__);
    IS(value == space.used);
    ANSWERS(value, compressor_job_help(&job, 0), COMPRESSOR_EMPTY_HANDLE);
}

int main(void) {
    uint64_t *one = zeros(ROOM), *other = zeros(ROOM), roots[THREADS], live, value;
    compressor_survey survey = COMPRESSOR_EMPTY;
    compressor_tables tables = COMPRESSOR_EMPTY, again = COMPRESSOR_EMPTY;

    check_headers();
    moved(one, 0);
    make_lists(roots);
    check_lists(roots);
    const uint64_t used = space.used;
    ANSWERS(value, compressor_collect(EDITION, one, used, roots, THREADS, other, 7), COMPRESSOR_TOO_SHORT);
    ANSWERS(live, compressor_collect(EDITION, one, used, roots, THREADS, other, ROOM), COMPRESSOR_DONE);
    IS(live == value && live == 3 * PAIRS / 2);
    moved(other, live);
    check_lists(roots);

    /* two lists are dropped, and the survey has tables that were made before */
    roots[2] = roots[3] = 0;
    ANSWERS(value, compressor_tables_reserve(ROOM, &tables), COMPRESSOR_DONE);
    ANSWERS(live, compressor_survey_by_roots_lent(&tables, EDITION, other, space.used, roots, THREADS, &survey),
            COMPRESSOR_DONE);
    refused(&survey, roots);
    ANSWERS(value, compressor_collect_in_place_lent(&tables, EDITION, one, 0, roots, 0), COMPRESSOR_EMPTY_HANDLE);
    IS(collect_by_parts(&survey, roots, one) == live && live == 3 * PAIRS / 4);
    ANSWERS(value, compressor_survey_return(&survey, &tables), COMPRESSOR_DONE);
    IS(value == ROOM);
    moved(one, live);

    /* four threads mark, and each slides a part */
    mark_by_job(roots, &survey);
    IS(collect_by_parts(&survey, roots, other) == live);
    compressor_survey_drop(&survey);
    moved(other, live);

    /* a list is dropped, within the memory, by marks of the runtime's own, and by the same tables */
    uint64_t *marks = zeros((live + 63) / 64), *bits = zeros((live + 63) / 64);
    for (int k = 0; k < 2; k++)
        for (uint64_t at = roots[k]; compressor_is_reference(at); at = compressor_load(&space, at, 1)) {
            IS(compressor_mark(marks, at));
            compressor_mark_live(bits, at, compressor_shape_words(compressor_shape_at(&space, at)));
        }
    ANSWERS(value, compressor_survey_by_bits(EDITION, live, roots, THREADS, marks, (live + 63) / 64, bits,
                                             (live + 63) / 64, &survey), COMPRESSOR_DONE);
    IS(value == live && collect_by_parts(&survey, roots, one) == live);
    compressor_survey_drop(&survey);
    moved(one, live);
    ANSWERS(value, compressor_survey_by_marks(EDITION, one, live, roots, THREADS, marks, (live + 63) / 64, &survey),
            COMPRESSOR_DONE);
    IS(value == live && collect_by_parts(&survey, roots, other) == live);
    moved(other, live);
    free(marks);
    free(bits);
    ANSWERS(value, compressor_survey_return(&survey, &tables), COMPRESSOR_NOT_EMPTY);
    ANSWERS(value, compressor_survey_return(&survey, &again), COMPRESSOR_DONE);
    IS(value == 0);
    ANSWERS(value, compressor_collect_lent(&again, EDITION, other, live, roots, THREADS, one, ROOM),
            COMPRESSOR_SHORT_TABLES);
    compressor_tables_drop(&again);
    roots[1] = 0;
    ANSWERS(value, compressor_collect_in_place_lent(&tables, EDITION, other, live, roots, THREADS), COMPRESSOR_DONE);
    IS(value == live / 2);
    moved(other, value);
    ANSWERS(value, compressor_collect_in_place(EDITION, other, space.used, roots, THREADS), COMPRESSOR_DONE);
    IS(value == space.used);
    ANSWERS(value, compressor_collect_lent(&tables, EDITION, other, space.used, roots, THREADS, one, ROOM),
            COMPRESSOR_DONE);
    moved(one, value);
    compressor_tables_drop(&tables);

    int64_t count;
    const int64_t all = sum(roots[0], &count);
    printf("of %llu words %llu were live, then %llu, then %llu: a list of %lld numbers, whose sum is %lld\n",
           (unsigned long long)used, (unsigned long long)(3 * PAIRS / 2), (unsigned long long)live,
           (unsigned long long)value, (long long)count, (long long)all);
    free(one);
    free(other);
    return 0;
}
