/* finalize.c: finalizers in order, and short and long weak words, by a survey that grows.

   A finalizer runs once nothing holds its object but others that wait for theirs, and before those of the objects to
   which its own leads: a writer is flushed before its file is closed. A short weak word is null by then; a long one
   still leads there, until the object is gone. */
#include "compressor_rest.h"

#include <stdio.h>
#include <stdlib.h>

enum { EDITION = 4, ROOM = 1 << 21, MOST = 16, SIZE = 3, MANY = (1 << 20) + 1 };

typedef struct list {
    uint64_t at[MOST];
    size_t count;
} list;

static list roots, ephemerons, waiting, ready, short_words, long_words;
static uint64_t memory[2][ROOM];
static compressor_space space;
static compressor_buffer buffer;

static void is(int so, int line) {
    if (so) return;
    printf("not so: line %d\n", line);
    exit(1);
}
#define IS(what) is(what, __LINE__)

static uint64_t done(compressor_answer a, int line) {
    if (a.status != COMPRESSOR_DONE)
        printf("%s, value %llu: ", compressor_status_text(a.status), (unsigned long long)a.value);
    is(a.status == COMPRESSOR_DONE, line);
    return a.value;
}
#define DONE(call) done(call, __LINE__)

/* Goes on if the step is done; else the function answers as it does. */
#define STEP(call)                                   \
    do {                                             \
        const compressor_answer s_ = call;           \
        if (s_.status != COMPRESSOR_DONE) return s_; \
    } while (0)

static void put(list *to, uint64_t value) {
    IS(to->count < MOST);
    to->at[to->count++] = value;
}

/* An object with a name, which leads to another one. */
static uint64_t object(int64_t name, uint64_t other) {
    const uint64_t made = compressor_new(&space, &buffer, COMPRESSOR_HEADER(2, 0, 0, 1), SIZE);
    IS(made != 0);
    compressor_store(&space, made, 0, compressor_fixnum(name));
    compressor_store(&space, made, 1, other);
    return made;
}
static int is_named(uint64_t it, int64_t name) {
    return compressor_is_reference(it) && compressor_load(&space, it, 0) == compressor_fixnum(name);
}
static uint64_t finalized(int64_t name, uint64_t other) {
    const uint64_t made = object(name, other);
    put(&waiting, made);
    return made;
}

static compressor_answer survey_by(compressor_growing *growing, compressor_survey *survey) {
    STEP(compressor_growing_begin(EDITION, space.words, space.used, growing));
    STEP(compressor_growing_also(growing, space.words, space.used, roots.at, roots.count));
    STEP(compressor_growing_also(growing, space.words, space.used, ready.at, ready.count));
    STEP(compressor_growing_also_values(growing, space.words, space.used, ephemerons.at, ephemerons.count));
    STEP(compressor_clear_short(growing, short_words.at, short_words.count));
    const compressor_answer a = compressor_finalize_in_order(growing, &space, ephemerons.at, ephemerons.count,
                                                             waiting.at, waiting.count, ready.at + ready.count);
    STEP(a);
    waiting.count -= a.value;
    ready.count += a.value;
    return compressor_growing_settle(growing, survey);
}

/* Collects, and says how many objects live. A survey for which there was no memory is made once more: a short word that
   was cleared would be cleared again, and an object that is ready has left those that wait. */
static uint64_t collect(void) {
    uint64_t *to = memory[space.words == memory[0]];
    compressor_growing growing = COMPRESSOR_EMPTY;
    compressor_survey survey = COMPRESSOR_EMPTY;
    compressor_answer a = survey_by(&growing, &survey);
    if (a.status == COMPRESSOR_OUT_OF_MEMORY) {
        compressor_growing_drop(&growing);
        a = survey_by(&growing, &survey);
    }
    const uint64_t live = DONE(a);
    DONE(compressor_survey_slide(&survey, space.words, space.used, 0, to, live));
    DONE(compressor_survey_forward(&survey, roots.at, roots.count));
    DONE(compressor_survey_forward(&survey, waiting.at, waiting.count));
    DONE(compressor_survey_forward(&survey, ready.at, ready.count));
    DONE(compressor_survey_forward(&survey, short_words.at, short_words.count));
    DONE(compressor_survey_forward_weak(&survey, long_words.at, long_words.count));
    DONE(compressor_survey_forward_weak(&survey, ephemerons.at, ephemerons.count));
    compressor_survey_drop(&survey);
    compressor_space_in(&space, EDITION, to, ROOM, live);
    compressor_buffer_empty(&buffer);
    return live / SIZE;
}

/* A writer leads to a buffer, and that to a file. */
static void in_order(void) {
    finalized(1, finalized(2, finalized(3, 0)));
    put(&short_words, waiting.at[0]); /* the file */
    put(&long_words, waiting.at[0]);
    put(&roots, waiting.at[2]);
    IS(collect() == 3 && ready.count == 0 && waiting.count == 3 && is_named(short_words.at[0], 3));
    roots.count = 0;
    for (int64_t name = 1; name <= 3; name++) {
        IS(collect() == 4 - (uint64_t)name && waiting.count == 3 - (size_t)name);
        IS(ready.count == 1 && is_named(ready.at[0], name));
        /* only the others that wait hold it: a short word does not count them */
        IS(short_words.at[0] == 0 && is_named(long_words.at[0], 3));
        /* until its finalizer ran it lives, and others wait for it */
        IS(collect() == 4 - (uint64_t)name && ready.count == 1 && is_named(long_words.at[0], 3));
        ready.count = 0;
    }
    IS(collect() == 0 && long_words.at[0] == 0);
    short_words.count = long_words.count = 0;
}

/* Those that nothing orders are ready together; in a ring none ever is. */
static void together(void) {
    const uint64_t shared = object(9, 0), last = finalized(5, 0);
    finalized(1, shared);
    finalized(2, shared);
    compressor_store(&space, last, 1, finalized(4, last));
    put(&waiting, waiting.at[1]);
    IS(collect() == 5 && waiting.count == 2 && is_named(waiting.at[0], 5) && is_named(waiting.at[1], 4));
    IS(ready.count == 3 && is_named(ready.at[0], 1) && is_named(ready.at[1], 2));
    IS(ready.at[2] == ready.at[0]); /* it waited twice */
    ready.count = 0;
    IS(collect() == 2 && ready.count == 0 && waiting.count == 2);
    waiting.count = 0;
    IS(collect() == 0);
}

/* A finalizer makes its object live on: it waits no more, unless it is put there again. */
static void back(void) {
    put(&long_words, finalized(6, 0));
    IS(collect() == 1 && ready.count == 1 && waiting.count == 0);
    put(&roots, ready.at[0]);
    ready.count = 0;
    IS(collect() == 1 && ready.count == 0 && long_words.at[0] == roots.at[0]);
    put(&waiting, roots.at[0]);
    roots.count = 0;
    IS(collect() == 1 && ready.count == 1 && is_named(ready.at[0], 6));
    ready.count = long_words.count = 0;
    IS(collect() == 0);
}

static void ephemeron(uint64_t key, uint64_t value) {
    put(&ephemerons, key);
    put(&ephemerons, key);
    put(&ephemerons, value);
}

/* What waits leads to a key, whose value waits too; and that one is a key in its turn. */
static void by_ephemeron(void) {
    const uint64_t key = object(7, 0), value = finalized(2, 0);
    ephemeron(key, value);
    ephemeron(value, object(8, 0));
    finalized(1, key);
    IS(collect() == 4 && ready.count == 1 && is_named(ready.at[0], 1) && waiting.count == 1);
    ready.count = 0;
    IS(collect() == 2 && ready.count == 1 && is_named(ready.at[0], 2));
    IS(ephemerons.at[0] == 0 && ephemerons.at[3] == ready.at[0] && is_named(ephemerons.at[5], 8));
    ready.count = ephemerons.count = 0;
    IS(collect() == 0);
}

/* An object that leads to more than there may be roots of a call. */
static void large(void) {
    const compressor_shape shape = {MANY, 0, 0, 1};
    uint64_t header = 0;
    IS(compressor_shape_header(EDITION, shape, &header));
    put(&waiting, compressor_new(&space, &buffer, header, (uint64_t)MANY + 1));
    compressor_store(&space, waiting.at[0], MANY - 1, finalized(2, 0));
    collect();
    IS(waiting.count == 1 && ready.count == 1 && is_named(compressor_load(&space, ready.at[0], MANY - 1), 2));
    ready.count = 0;
    IS(collect() == 1 && ready.count == 1 && is_named(ready.at[0], 2));
    ready.count = 0;
    IS(collect() == 0);
}

/* A word that leads to no object, or to half of one. What waits stays as it is. */
static void refusals(void) {
    const uint64_t good = object(1, 0), short_one = COMPRESSOR_FROM_SPACE + space.used - 1;
    const uint64_t wrong[2] = {COMPRESSOR_FROM_SPACE + space.used, short_one};
    space.words[space.used - 1] = COMPRESSOR_HEADER(1, 0, 0, 1);
    for (size_t k = 0; k < 2; k++) {
        uint64_t words[3] = {good, 0, wrong[k]}, out[3];
        compressor_growing growing = COMPRESSOR_EMPTY;
        compressor_tables tables = COMPRESSOR_EMPTY; /* with these, no call takes memory */
        compressor_answer a = compressor_tables_reserve(space.used, &tables);
        if (a.status == COMPRESSOR_OUT_OF_MEMORY) a = compressor_tables_reserve(space.used, &tables);
        DONE(a);
        DONE(compressor_growing_begin_lent(&tables, EDITION, space.words, space.used, &growing));
        a = compressor_finalize_in_order(&growing, &space, NULL, 0, words, 3, out);
        IS(a.status == COMPRESSOR_BAD_ROOT && a.value == 2 && words[0] == good && words[2] == wrong[k]);
        IS(DONE(compressor_clear_short(&growing, words, 3)) == 2 && words[0] == 0 && words[2] == 0);
        words[0] = good;
        compressor_growing_drop(&growing);
        a = compressor_clear_short(&growing, words, 3);
        IS(a.status == COMPRESSOR_EMPTY_HANDLE && words[0] == good);
    }
}

int main(void) {
    compressor_space_in(&space, EDITION, memory[0], ROOM, 0);
    in_order();
    together();
    back();
    by_ephemeron();
    large();
    refusals();
    puts("finalizers in order: all right");
    return 0;
}
