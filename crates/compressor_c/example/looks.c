/* A heap that is marked by looks while it is written to: what was written to is looked at again, and the heap slides to
   where it was worked out by hand. A look that was left out is found by the slide. Each refusal is met once. Prints
   what was found. A call for which there was no memory is made once more, or the whole marking where that is gone; so
   one allocation may be refused anywhere. */
#include "compressor_rest.h"

#include <stdio.h>
#include <stdlib.h>
#include <string.h>

enum { EDITION = 4, ROOM = 32 };

static uint64_t answered(compressor_answer a, uint32_t status, int line) {
    if (a.status == status) return a.value;
    printf("line %d: %s, value %llu\n", line, compressor_status_text(a.status), (unsigned long long)a.value);
    exit(1);
}

static void is(int so, int line) {
    if (so) return;
    printf("not so: line %d\n", line);
    exit(1);
}

#define IS(what) is(what, __LINE__)

/* The call answers this status and this value; it is made once more if there was no memory for it. */
#define ANSWERS(value_is, call, status_is)                         \
    do {                                                           \
        const uint64_t value_ = (value_is);                        \
        compressor_answer a_ = call;                               \
        if (a_.status == COMPRESSOR_OUT_OF_MEMORY) a_ = call;      \
        is(answered(a_, status_is, __LINE__) == value_, __LINE__); \
    } while (0)
#define DONE(value_is, call) ANSWERS(value_is, call, COMPRESSOR_DONE)
/* Goes on if the step is done; else the function answers as it does. */
#define STEP(call)                                        \
    do {                                                  \
        const compressor_answer s_ = call;                \
        if (s_.status != COMPRESSOR_DONE) return s_;      \
    } while (0)

/* Where the objects are: a has 2 references and a data word, b a weak word, c a reference, d nothing; e, which is made
   meanwhile, has a reference. */
enum { A = 1, B = 6, C = 9, D = 12, E = 14 };

static uint64_t words[ROOM];
static compressor_space space;

static uint64_t at(uint64_t index) { return COMPRESSOR_FROM_SPACE + index; }

static void make(void) {
    memset(words, 0, sizeof words);
    words[A] = COMPRESSOR_HEADER(2, 0, 1, 1);
    words[A + 1] = at(C);
    words[A + 2] = compressor_fixnum(5);
    words[A + 3] = 55;
    words[B] = COMPRESSOR_HEADER(0, 1, 0, 2);
    words[B + 1] = at(D);
    words[C] = COMPRESSOR_HEADER(1, 0, 0, 3);
    words[C + 1] = at(D);
    words[D] = COMPRESSOR_HEADER(0, 0, 0, 4);
}

/* d is cut off from c; e is made, which leads to c, and a leads to e. */
static void write_between(void) {
    words[C + 1] = 0;
    words[E] = COMPRESSOR_HEADER(1, 0, 0, 5);
    words[E + 1] = at(C);
    words[A + 2] = at(E);
    words[A + 3] = 56;
}

/* A marking from a and b on, which wait. */
static compressor_answer begin(compressor_looks *looks) {
    const uint64_t roots[3] = {at(A), 0, at(B)};
    return compressor_looks_begin(EDITION, ROOM, roots, 3, looks);
}

/* Looks at what waits until none does; these rows have at most 3 words. */
static compressor_answer look(compressor_looks *looks) {
    uint64_t indices[2], rows[6];
    compressor_answer a;
    do {
        uint64_t count = 0;
        a = compressor_looks_waiting(looks, indices, 2);
        for (uint64_t k = 0; k < a.value; k++)
            count += compressor_copy_row(&space, at(indices[k]), rows + count, 6 - count);
        a = compressor_looks_look(looks, rows, count);
    } while (a.status == COMPRESSOR_DONE && a.value == 1);
    return a;
}

static compressor_answer again(compressor_looks *looks, uint64_t index) {
    uint64_t row[3];
    const uint64_t count = compressor_copy_row(&space, at(index), row, 3);
    return compressor_looks_again(looks, index, row, count);
}

/* The whole marking, with writes in between. */
static compressor_answer mark(compressor_looks *looks, compressor_survey *survey) {
    const uint64_t roots[2] = {at(E), at(A)};
    make();
    STEP(begin(looks));
    STEP(look(looks));
    write_between();
    /* the second stop: a and c were written to */
    STEP(again(looks, A));
    STEP(again(looks, C));
    STEP(compressor_looks_meet(looks, roots, 2));
    ANSWERS(E, compressor_looks_finish(looks, roots, 2, survey), COMPRESSOR_STILL_WAITING);
    STEP(look(looks));
    return compressor_looks_finish(looks, roots, 2, survey);
}

/* The same without the second look at a, whose reference to e is so not known. */
static compressor_answer mark_badly(compressor_looks *looks, compressor_survey *survey) {
    const uint64_t roots[1] = {at(A)};
    make();
    STEP(begin(looks));
    STEP(look(looks));
    write_between();
    STEP(again(looks, C));
    return compressor_looks_finish(looks, roots, 1, survey);
}

typedef compressor_answer marking(compressor_looks *looks, compressor_survey *survey);

/* Answers as the marking does, which is made once more if there was no memory: then nothing is kept. */
static compressor_answer tried(marking *make_it) {
    compressor_looks looks = COMPRESSOR_EMPTY;
    compressor_survey survey = COMPRESSOR_EMPTY;
    compressor_answer a = make_it(&looks, &survey);
    if (a.status == COMPRESSOR_OUT_OF_MEMORY) {
        IS(looks.at == NULL && survey.at == NULL);
        a = make_it(&looks, &survey);
    }
    IS(looks.at == NULL); /* also where a step was refused */
    compressor_survey_drop(&survey);
    return a;
}

static void survey_surely(marking *make_it, uint64_t live, compressor_survey *survey) {
    compressor_looks looks = COMPRESSOR_EMPTY;
    compressor_answer a = make_it(&looks, survey);
    if (a.status == COMPRESSOR_OUT_OF_MEMORY) {
        IS(looks.at == NULL && survey->at == NULL);
        a = make_it(&looks, survey);
    }
    IS(answered(a, COMPRESSOR_DONE, __LINE__) == live && looks.at == NULL && survey->at != NULL);
}

/* a, b, c, d and e have 4, 2, 2, 1 and 2 words. b and d, which nothing leads to any more, live until the next time. */
static void slide_by_hand(void) {
    const uint64_t wanted[11] = {COMPRESSOR_HEADER(2, 0, 1, 1), at(6), at(9), 56,
                                 COMPRESSOR_HEADER(0, 1, 0, 2), at(8),
                                 COMPRESSOR_HEADER(1, 0, 0, 3), 0,
                                 COMPRESSOR_HEADER(0, 0, 0, 4),
                                 COMPRESSOR_HEADER(1, 0, 0, 5), at(6)};
    uint64_t to[11], roots[2] = {at(E), at(A)};
    compressor_survey survey = COMPRESSOR_EMPTY;
    survey_surely(mark, 11, &survey);
    DONE(0, compressor_survey_slide(&survey, words, ROOM, 0, to, 5));
    DONE(0, compressor_survey_slide(&survey, words, ROOM, 5, to + 5, 6));
    DONE(0, compressor_survey_forward(&survey, roots, 2));
    IS(memcmp(to, wanted, sizeof wanted) == 0 && roots[0] == at(9) && roots[1] == at(0));
    compressor_survey_drop(&survey);
}

/* The slide finds what no look found, and nothing has changed. */
static void slide_badly(void) {
    uint64_t to[9];
    compressor_survey survey = COMPRESSOR_EMPTY;
    survey_surely(mark_badly, 9, &survey);
    ANSWERS(A + 2, compressor_survey_slide(&survey, words, ROOM, 0, to, 9), COMPRESSOR_UNMARKED);
    compressor_survey_drop(&survey);
}

static void refuse_begin(void) {
    const uint64_t roots[2] = {at(ROOM - 1), at(ROOM)}, most = compressor_max_words(EDITION);
    compressor_looks looks = COMPRESSOR_EMPTY;
    ANSWERS(2, compressor_looks_begin(2, ROOM, roots, 1, &looks), COMPRESSOR_BAD_EDITION);
    ANSWERS(5, compressor_looks_begin(5, ROOM, roots, 1, &looks), COMPRESSOR_BAD_EDITION);
    ANSWERS(0, compressor_looks_begin(EDITION, most + 1, roots, 1, &looks), COMPRESSOR_TOO_LARGE);
    ANSWERS(1, compressor_looks_begin(EDITION, ROOM, roots, 2, &looks), COMPRESSOR_BAD_ROOT);
    ANSWERS(0, compressor_looks_waiting(&looks, NULL, 0), COMPRESSOR_EMPTY_HANDLE);
}

/* What is refused of rows, while a and b wait. */
#define REFUSED(name, ...)                                                             \
    static compressor_answer name(compressor_looks *looks, compressor_survey *survey) { \
        const uint64_t rows[] = {__VA_ARGS__};                                         \
        (void)survey;                                                                  \
        STEP(begin(looks));                                                            \
        return compressor_looks_look(looks, rows, sizeof rows / sizeof *rows);         \
    }
REFUSED(half, COMPRESSOR_HEADER(2, 0, 1, 1), 0)
REFUSED(too_long, UINT64_C(1) << 62 | UINT64_C(0x1ffff) << 31 | 0x7fffffff)
REFUSED(past_end, COMPRESSOR_HEADER(1, 0, ROOM, 1), 0)
REFUSED(overlap, COMPRESSOR_HEADER(1, 0, 4, 1), 0, COMPRESSOR_HEADER(0, 0, 0, 2))
REFUSED(bad_reference, COMPRESSOR_HEADER(1, 1, 0, 1), COMPRESSOR_FROM_SPACE + ROOM, 0)
REFUSED(bad_weak, COMPRESSOR_HEADER(1, 1, 0, 1), 0, 7)
REFUSED(too_many, COMPRESSOR_HEADER(0, 0, 0, 1), COMPRESSOR_HEADER(0, 0, 0, 2), COMPRESSOR_HEADER(0, 0, 0, 3))

static compressor_answer astray(compressor_looks *looks, compressor_survey *survey) {
    const uint64_t values[3] = {0, at(D), at(ROOM)};
    (void)survey;
    STEP(begin(looks));
    return compressor_looks_meet(looks, values, 3);
}

static compressor_answer root_unmet(compressor_looks *looks, compressor_survey *survey) {
    const uint64_t roots[2] = {0, at(A)};
    STEP(compressor_looks_begin(EDITION, ROOM, roots, 1, looks));
    return compressor_looks_finish(looks, roots, 2, survey);
}

static void refuse_steps(void) {
    make();
    ANSWERS(3, tried(half), COMPRESSOR_TOO_SHORT);
    ANSWERS(A, tried(too_long), COMPRESSOR_OBJECT_TOO_LONG);
    ANSWERS(A, tried(past_end), COMPRESSOR_OBJECT_PAST_END);
    ANSWERS(B, tried(overlap), COMPRESSOR_OVERLAP);
    ANSWERS(A + 1, tried(bad_reference), COMPRESSOR_BAD_REFERENCE);
    ANSWERS(A + 2, tried(bad_weak), COMPRESSOR_BAD_WEAK);
    ANSWERS(0, tried(too_many), COMPRESSOR_NO_SUCH_OBJECT);
    ANSWERS(2, tried(astray), COMPRESSOR_BAD_ROOT);
    ANSWERS(1, tried(root_unmet), COMPRESSOR_BAD_ROOT);
}

/* What waits, in the order in which it was met. Where nothing was met, no look is needed. */
static void ask_waiting(void) {
    const uint64_t row[1] = {COMPRESSOR_HEADER(0, 0, 0, 1)};
    uint64_t indices[3] = {7, 7, 7};
    compressor_looks looks = COMPRESSOR_EMPTY;
    DONE(1, begin(&looks));
    DONE(0, compressor_looks_waiting(&looks, NULL, 0));
    DONE(1, compressor_looks_waiting(&looks, indices, 1));
    IS(indices[0] == A && indices[1] == 7);
    ANSWERS(C, compressor_looks_again(&looks, C, row, 1), COMPRESSOR_NO_SUCH_OBJECT);
    ANSWERS(ROOM, compressor_looks_again(&looks, ROOM, row, 1), COMPRESSOR_NO_SUCH_OBJECT);
    DONE(2, compressor_looks_waiting(&looks, indices, 3));
    IS(indices[0] == A && indices[1] == B && indices[2] == 7);
    compressor_looks_drop(&looks);
}

int main(void) {
    compressor_space_in(&space, EDITION, words, ROOM, E);
    slide_by_hand();
    slide_badly();
    refuse_begin();
    refuse_steps();
    ask_waiting();
    puts("looks: 5 objects, two of them looked at again; a look that was left out is found by the slide");
    return 0;
}
