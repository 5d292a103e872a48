/* growing.c: a runtime asks what is kept while a survey grows, in an order of its own: roots in two arrays; ephemerons
   in a table beside the heap; a guardian, to which each lost object is shown once; and finalizers in order, where an
   object is ready once no other one that waits leads to it. All of it by tables that are lent, and by none; ephemerons
   by one call, and by rounds of the runtime's own. Each refusal is met once. A call for which there was no memory is
   made once more, or the whole survey where it is over; so one allocation may be refused anywhere. */
#include "compressor_rest.h"

#include <stdio.h>
#include <stdlib.h>

enum { EDITION = 4, ROOM = 1 << 14, MOST = 512, SIZE = 3, CHAIN = 50 };

static uint64_t answered(compressor_answer a, uint32_t status, int line) {
    if (a.status == status) return a.value;
    printf("line %d: %s, value %llu\n", line, compressor_status_text(a.status), (unsigned long long)a.value);
    exit(1);
}

static void is(int so, int line) {
    if (so) return;
    printf("not so: line %d\n", line);
    exit(1);
}

#define IS(what) is(what, __LINE__)

/* The call answers this status and this value; it is made once more if there was no memory for it. */
#define ANSWERS(value_is, call, status_is)                         \
    do {                                                           \
        const uint64_t value_ = (value_is);                        \
        compressor_answer a_ = call;                               \
        if (a_.status == COMPRESSOR_OUT_OF_MEMORY) a_ = call;      \
        is(answered(a_, status_is, __LINE__) == value_, __LINE__); \
    } while (0)
#define DONE(value_is, call) ANSWERS(value_is, call, COMPRESSOR_DONE)
/* Goes on if the step is done; else the function answers as it does. */
#define STEP(call)                                   \
    do {                                             \
        const compressor_answer s_ = call;           \
        if (s_.status != COMPRESSOR_DONE) return s_; \
    } while (0)

typedef struct list {
    uint64_t at[MOST];
    size_t count;
} list;

/* What the runtime knows of. An ephemeron is key, key and value: its table never dies. */
typedef struct state {
    list globals, stack, ephemerons, guarded, lost, waiting, ready;
} state;

static state now;
static uint64_t memory[2][ROOM];
static compressor_space space;
static compressor_buffer buffer;
static int is_lent, by_rounds;
static unsigned rounds;

static void put(list *to, uint64_t value) {
    IS(to->count < MOST);
    to->at[to->count++] = value;
}

static uint64_t pair(uint64_t first, uint64_t rest) {
    const uint64_t made = compressor_new(&space, &buffer, COMPRESSOR_HEADER(2, 0, 0, 1), SIZE);
    IS(made != 0);
    compressor_store(&space, made, 0, first);
    compressor_store(&space, made, 1, rest);
    return made;
}

static void ephemeron(uint64_t key, uint64_t value) {
    put(&now.ephemerons, key);
    put(&now.ephemerons, key);
    put(&now.ephemerons, value);
}

static int keeps(compressor_growing *growing, uint64_t value) {
    return answered(compressor_growing_keeps(growing, value), COMPRESSOR_DONE, __LINE__) == 1;
}

static compressor_answer also(compressor_growing *growing, const list *roots) {
    return compressor_growing_also(growing, space.words, space.used, roots->at, roots->count);
}

/* Keeps the values whose keys are kept, and those whose are kept then. */
static compressor_answer keep_values(compressor_growing *growing, const list *ephemerons) {
    if (!by_rounds)
        return compressor_growing_also_values(growing, space.words, space.used, ephemerons->at, ephemerons->count);
    for (;;) {
        list values = {{0}, 0};
        for (size_t k = 0; k < ephemerons->count; k += 3)
            if (keeps(growing, ephemerons->at[k]) && !keeps(growing, ephemerons->at[k + 2]))
                put(&values, ephemerons->at[k + 2]);
        const compressor_answer a = also(growing, &values);
        rounds++;
        if (a.status != COMPRESSOR_DONE || values.count == 0) return a;
    }
}

static void sort_by_kept(compressor_growing *growing, const list *from, list *kept, list *others) {
    for (size_t k = 0; k < from->count; k++) put(keeps(growing, from->at[k]) ? kept : others, from->at[k]);
}

/* What is guarded and not kept is lost, and kept once more, with all that it reaches. */
static compressor_answer find_lost(compressor_growing *growing, state *s) {
    list left = {{0}, 0}, lost = {{0}, 0};
    sort_by_kept(growing, &s->guarded, &left, &lost);
    for (size_t k = 0; k < lost.count; k++) put(&s->lost, lost.at[k]);
    s->guarded = left;
    STEP(also(growing, &lost));
    return keep_values(growing, &s->ephemerons);
}

/* Of the objects with finalizers that nothing keeps, what they lead to is kept, and not they themselves: so those that
   are still not kept are ready. Objects that lead to themselves never are. */
static compressor_answer find_ready(compressor_growing *growing, state *s) {
    list left = {{0}, 0}, dying = {{0}, 0}, ready = {{0}, 0};
    sort_by_kept(growing, &s->waiting, &left, &dying);
    for (size_t k = 0; k < dying.count; k++)
        STEP(compressor_growing_also(growing, space.words, space.used, compressor_at(&space, dying.at[k]) + 1, 2));
    STEP(keep_values(growing, &s->ephemerons));
    sort_by_kept(growing, &dying, &left, &ready);
    for (size_t k = 0; k < ready.count; k++) put(&s->ready, ready.at[k]);
    s->waiting = left;
    STEP(also(growing, &ready));
    return keep_values(growing, &s->ephemerons);
}

/* The survey of all of it, and what the runtime knows of then. */
static compressor_answer survey_by(compressor_growing *growing, state *s, compressor_survey *survey) {
    list left = {{0}, 0};
    STEP(also(growing, &s->globals));
    STEP(also(growing, &s->stack));
    STEP(also(growing, &s->lost));
    STEP(also(growing, &s->ready));
    STEP(keep_values(growing, &s->ephemerons));
    STEP(find_lost(growing, s));
    STEP(find_ready(growing, s));
    for (size_t k = 0; k < s->ephemerons.count; k += 3) /* those whose keys died go */
        for (size_t j = k; j < k + 3 && keeps(growing, s->ephemerons.at[k]); j++) put(&left, s->ephemerons.at[j]);
    s->ephemerons = left;
    return compressor_growing_settle(growing, survey);
}

static void forward(compressor_survey *survey, list *values) {
    DONE(0, compressor_survey_forward(survey, values->at, values->count));
}

static void collect(void) {
    uint64_t *to = memory[space.words == memory[0]];
    compressor_growing growing = COMPRESSOR_EMPTY;
    compressor_survey survey = COMPRESSOR_EMPTY;
    compressor_tables tables = COMPRESSOR_EMPTY;
    compressor_answer a;
    state s;
    if (is_lent) DONE(0, compressor_tables_reserve(ROOM, &tables));
    do {
        s = now;
        if (is_lent) DONE(0, compressor_growing_begin_lent(&tables, EDITION, space.words, space.used, &growing));
        else DONE(0, compressor_growing_begin(EDITION, space.words, space.used, &growing));
        a = survey_by(&growing, &s, &survey);
        if (a.status == COMPRESSOR_DONE) break;
        answered(a, COMPRESSOR_OUT_OF_MEMORY, __LINE__);
        DONE(is_lent ? ROOM : 0, compressor_growing_return(&growing, &tables)); /* it is over */
        if (!is_lent) compressor_tables_drop(&tables);
    } while (1);
    now = s;
    DONE(0, compressor_survey_slide(&survey, space.words, space.used, 0, to, a.value));
    forward(&survey, &now.globals);
    forward(&survey, &now.stack);
    forward(&survey, &now.ephemerons);
    forward(&survey, &now.guarded);
    forward(&survey, &now.lost);
    forward(&survey, &now.waiting);
    forward(&survey, &now.ready);
    if (is_lent) DONE(ROOM, compressor_survey_return(&survey, &tables));
    compressor_survey_drop(&survey);
    compressor_tables_drop(&tables);
    compressor_space_in(&space, EDITION, to, ROOM, a.value);
    compressor_buffer_empty(&buffer);
}

/* Objects are live, of SIZE words each. */
static void lives(uint64_t objects) {
    collect();
    IS(space.used == objects * SIZE);
}

static void run(void) {
    memset(&now, 0, sizeof now);
    rounds = 0;
    compressor_space_in(&space, EDITION, memory[0], ROOM, 0);
    compressor_buffer_empty(&buffer);

    /* ephemerons: a value that leads to its own key; an immediate as key; and a chain whose last key stands first. It
       lives as long as its first key does */
    uint64_t key = pair(0, 0);
    ephemeron(key, pair(key, 0));
    ephemeron(compressor_fixnum(7), pair(0, 0));
    lives(1);
    IS(now.ephemerons.count == 3);
    uint64_t keys[CHAIN + 1];
    for (size_t k = 0; k <= CHAIN; k++) keys[k] = pair(compressor_fixnum((int64_t)k), 0);
    for (size_t k = CHAIN; k-- > 0;) ephemeron(keys[k], keys[k + 1]);
    put(&now.stack, keys[0]);
    lives(1 + CHAIN + 1);
    IS(compressor_load(&space, now.ephemerons.at[5], 0) == compressor_fixnum(CHAIN));
    now.stack.count = 0;
    lives(1);
    now.ephemerons.count = 0;
    lives(0);

    /* a guardian: an object that nothing keeps is seen once more, whole, and its value too */
    put(&now.globals, pair(0, 0));
    const uint64_t box = pair(compressor_fixnum(42), pair(0, 0));
    put(&now.guarded, box);
    put(&now.guarded, now.globals.at[0]);
    ephemeron(box, pair(compressor_fixnum(43), 0));
    lives(1 + 3);
    IS(now.lost.count == 1 && now.guarded.count == 1 && now.guarded.at[0] == now.globals.at[0]);
    IS(compressor_load(&space, now.lost.at[0], 0) == compressor_fixnum(42));
    IS(compressor_load(&space, now.ephemerons.at[2], 0) == compressor_fixnum(43));
    now.lost.count = 0;
    lives(1);
    now.guarded.count = 0;

    /* finalizers in order, beside one that leads to itself */
    uint64_t last = 0;
    for (int64_t k = 4; k-- > 0;) put(&now.waiting, last = pair(compressor_fixnum(k), last));
    const uint64_t ring = pair(compressor_fixnum(9), 0);
    compressor_store(&space, ring, 1, ring);
    put(&now.waiting, ring);
    for (int64_t k = 0; k < 4; k++) {
        lives(1 + 1 + 4 - (uint64_t)k);
        IS(now.ready.count == 1 && compressor_load(&space, now.ready.at[0], 0) == compressor_fixnum(k));
        now.ready.count = 0;
    }
    lives(1 + 1);
    IS(now.waiting.count == 1 && now.ready.count == 0);
}

/* What is refused, and what it leaves. */
static void refusals(void) {
    compressor_growing growing = COMPRESSOR_EMPTY;
    compressor_survey survey = COMPRESSOR_EMPTY, full = COMPRESSOR_EMPTY;
    compressor_tables tables = COMPRESSOR_EMPTY;
    uint64_t *words = memory[0], to[ROOM];
    const uint64_t header = COMPRESSOR_HEADER(2, 0, 0, 1), first = COMPRESSOR_FROM_SPACE, second = first + SIZE;
    const uint64_t used = 2 * SIZE, astray[2] = {0, first + used};
    words[0] = words[SIZE] = header;
    words[1] = words[2] = words[SIZE + 1] = words[SIZE + 2] = 0;
    ANSWERS(9, compressor_growing_begin(9, words, used, &growing), COMPRESSOR_BAD_EDITION);
    DONE(0, compressor_tables_reserve(used - 1, &tables));
    ANSWERS(used - 1, compressor_growing_begin_lent(&tables, EDITION, words, used, &growing), COMPRESSOR_SHORT_TABLES);
    compressor_tables_drop(&tables);
    DONE(0, compressor_tables_reserve(used, &tables));
    DONE(0, compressor_growing_begin_lent(&tables, EDITION, words, used, &growing));
    ANSWERS(0, compressor_growing_begin_lent(&tables, EDITION, words, used, &growing), COMPRESSOR_EMPTY_HANDLE);
    ANSWERS(0, compressor_growing_begin(EDITION, words, used, &growing), COMPRESSOR_NOT_EMPTY);
    /* another number of words: nothing was done, and it goes on */
    ANSWERS(0, compressor_growing_also(&growing, words, used - 1, &first, 1), COMPRESSOR_WRONG_LENGTH);
    ANSWERS(0, compressor_growing_also_values(&growing, words, used + 1, &first, 0), COMPRESSOR_WRONG_LENGTH);
    IS(keeps(&growing, 0) && keeps(&growing, compressor_fixnum(5)) && !keeps(&growing, first));
    DONE(1, compressor_growing_also(&growing, words, used, &first, 1));
    DONE(1, compressor_growing_also(&growing, words, used, &first, 1));
    IS(keeps(&growing, first) && !keeps(&growing, second) && !keeps(&growing, first + 1));
    DONE(0, compressor_survey_by_roots(EDITION, words, used, &first, 0, &full));
    ANSWERS(1, compressor_growing_settle(&growing, &full), COMPRESSOR_NOT_EMPTY);
    /* a fault: it is over, and its tables come back */
    ANSWERS(1, compressor_growing_also(&growing, words, used, astray, 2), COMPRESSOR_BAD_ROOT);
    ANSWERS(0, compressor_growing_also(&growing, words, used, &first, 1), COMPRESSOR_WRONG_HANDLE);
    ANSWERS(0, compressor_growing_keeps(&growing, first), COMPRESSOR_WRONG_HANDLE);
    ANSWERS(0, compressor_growing_settle(&growing, &survey), COMPRESSOR_WRONG_HANDLE);
    DONE(used, compressor_growing_return(&growing, &tables));
    ANSWERS(0, compressor_growing_return(&growing, &tables), COMPRESSOR_EMPTY_HANDLE);
    /* an object that was kept has other words afterwards: the slide finds it, and the rest is as the words are now */
    DONE(0, compressor_growing_begin_lent(&tables, EDITION, words, used, &growing));
    DONE(1, compressor_growing_also(&growing, words, used, &first, 1));
    words[0] = COMPRESSOR_HEADER(1, 0, 0, 1);
    DONE(2, compressor_growing_also(&growing, words, used, &second, 1));
    do { /* where there is no memory for the handle, it is over, as after a fault */
        const compressor_answer a = compressor_growing_settle(&growing, &survey);
        if (a.status == COMPRESSOR_DONE) break;
        answered(a, COMPRESSOR_OUT_OF_MEMORY, __LINE__);
        DONE(used, compressor_growing_return(&growing, &tables));
        words[0] = header;
        DONE(0, compressor_growing_begin_lent(&tables, EDITION, words, used, &growing));
        DONE(1, compressor_growing_also(&growing, words, used, &first, 1));
        words[0] = COMPRESSOR_HEADER(1, 0, 0, 1);
        DONE(2, compressor_growing_also(&growing, words, used, &second, 1));
    } while (1);
    ANSWERS(0, compressor_survey_slide(&survey, words, used, 0, to, used), COMPRESSOR_CHANGED);
    words[0] = header;
    DONE(0, compressor_survey_slide(&survey, words, used, 0, to, used));
    IS(memcmp(words, to, used * sizeof *words) == 0);
    compressor_survey_drop(&survey);
    compressor_survey_drop(&full);
    compressor_growing_drop(&growing);
}

int main(void) {
    for (is_lent = 0; is_lent < 2; is_lent++)
        for (by_rounds = 0; by_rounds < 2; by_rounds++) run();
    refusals();
    printf("a survey that grows: all right; ephemerons by %u rounds of the runtime's own\n", rounds);
    return 0;
}
