/* A marking by looks: objects are handed in as they were before threads wrote to them, with null in place of some
   references, and some roots are not there yet. What was handed in so is looked at again, and all roots are met; then
   what was looked at is what the roots reach. It begins by lanes now and then. */
#include "driver.h"

#include <stdlib.h>

uint64_t copy_row(marking *m, uint64_t index, uint64_t first) {
    const uint64_t words = compressor_copy_row(&m->space, FROM + index, m->rows + first, m->room - first);
    const compressor_shape shape = compressor_shape_of(m->space.edition, m->space.words[index]);
    if (words > m->room - first) return 0;
    if (!m->is_stopped && words > 1 && shape.refs > 0 && one_in(3)) {
        m->rows[first + 1 + below(shape.refs)] = 0;
        m->old[m->old_count++] = index;
    }
    return words;
}

/* The answer of a step that is done says whether an object waits. */
static compressor_answer says_waiting(marking *m, compressor_answer a) {
    uint64_t next[1];
    if (a.status == COMPRESSOR_DONE) {
        answers(a, COMPRESSOR_DONE, a.value, 0);
        DONE(a.value, looks_waiting, &m->looks, next, 1);
    }
    return a;
}

/* Looks at some of the objects that wait. None waits if `waits` is 0 then. */
static compressor_answer look_at_some(marking *m, uint64_t *waits) {
    uint64_t indices[9], words = 0, many = 0;
    const size_t most = 1 + below(8);
    compressor_answer a;
    indices[most] = 7;
    CALL(a, looks_waiting, &m->looks, indices, most);
    answers(a, COMPRESSOR_DONE, a.value, 0);
    IS(a.value <= most && indices[most] == 7);
    *waits = a.value;
    while (many < *waits) {
        uint64_t row;
        IS(indices[many] < m->space.room && (!m->heads || compressor_is_marked(m->heads, FROM + indices[many])));
        row = copy_row(m, indices[many], words);
        if (row == 0) break;
        words += row;
        many++;
    }
    CALL(a, looks_look, &m->looks, m->rows, words);
    return says_waiting(m, a);
}

static compressor_answer look_at_all(marking *m) {
    compressor_answer a;
    uint64_t waits;
    do a = look_at_some(m, &waits);
    while (a.status == COMPRESSOR_DONE && waits > 0);
    return a;
}

/* At the second stop: what was handed in as it was before is looked at again, and others, whether they were met or not;
   then all roots are met. */
static compressor_answer meet_all(marking *m) {
    compressor_answer a = {COMPRESSOR_DONE, 0, 0};
    uint64_t words;
    m->is_stopped = 1;
    for (uint64_t k = 0; k < m->old_count; k++) {
        words = copy_row(m, m->old[k], 0);
        CALL(a, looks_again, &m->looks, m->old[k], m->rows, words);
        if (says_waiting(m, a).status != COMPRESSOR_DONE) return a;
    }
    for (uint64_t i = 0; m->heads && i < m->space.room; i += 1 + below(m->space.room)) {
        words = copy_row(m, i, 0);
        if (compressor_is_marked(m->heads, FROM + i)) {
            CALL(a, looks_again, &m->looks, i, m->rows, words);
            if (a.status == COMPRESSOR_NO_SUCH_OBJECT) answers(a, COMPRESSOR_NO_SUCH_OBJECT, i, 0);
            else if (says_waiting(m, a).status != COMPRESSOR_DONE) return a;
        } else {
            ANSWERS(COMPRESSOR_NO_SUCH_OBJECT, i, looks_again, &m->looks, i, m->rows, words);
        }
    }
    CALL(a, looks_meet, &m->looks, m->roots, m->root_count);
    return says_waiting(m, a);
}

/* While objects wait it does not end. */
static void refuse_end(marking *m, compressor_survey *survey) {
    compressor_answer a;
    uint64_t next[1] = {5};
    DONE(0, looks_waiting, &m->looks, next, 0);
    CALL(a, looks_waiting, &m->looks, next, 1);
    answers(a, COMPRESSOR_DONE, a.value, 0);
    if (a.value == 1)
        ANSWERS(COMPRESSOR_STILL_WAITING, next[0], looks_finish, &m->looks, m->roots, m->root_count, survey);
    else IS(next[0] == 5);
}

/* Whether no other object is met by this one's row. */
static int is_leaf(const marking *m, uint64_t index) {
    return compressor_shape_of(m->space.edition, m->space.words[index]).refs == 0;
}

/* What was looked at is so in the words; in others it is not. */
static void check(marking *m) {
    const uint64_t count = m->space.room;
    DONE(0, looks_check, &m->looks, m->space.words, count);
    if (count > 0) ANSWERS(COMPRESSOR_WRONG_LENGTH, 0, looks_check, &m->looks, m->space.words, count - 1);
    for (uint64_t i = below(count + 1); i < count; i++) {
        uint64_t was;
        if (!compressor_is_marked(m->heads, FROM + i) || is_leaf(m, i)) continue;
        was = m->space.words[i + 1];
        m->space.words[i + 1] = FROM + count;
        ANSWERS(COMPRESSOR_UNMARKED, i + 1, looks_check, &m->looks, m->space.words, count);
        m->space.words[i + 1] = was;
        return;
    }
}

static compressor_answer mark(marking *m, compressor_survey *survey) {
    compressor_answer a;
    uint64_t waits;
    m->is_stopped = 0;
    m->old_count = 0;
    if (one_in(2)) a = begin_by_lanes(m);
    else CALL(a, looks_begin, m->space.edition, m->space.room, m->roots, below(m->root_count + 1), &m->looks);
    if (a.status == COMPRESSOR_DONE) says_waiting(m, a);
    for (uint64_t times = below(30); a.status == COMPRESSOR_DONE && times > 0; times--) a = look_at_some(m, &waits);
    if (a.status == COMPRESSOR_DONE) a = meet_all(m);
    if (a.status != COMPRESSOR_DONE) return a;
    refuse_end(m, survey);
    if (one_in(8)) own.refuse_next = 1;
    a = look_at_all(m);
    if (a.status != COMPRESSOR_DONE) return a;
    if (m->heads && one_in(2)) check(m);
    if (one_in(3)) own.refuse_next = 1 + below(4);
    CALL(a, looks_finish, &m->looks, m->roots, m->root_count, survey);
    return a;
}

/* A step that ends a marking of which this object waits. */
static void refuse_step(marking *m, uint64_t index, uint64_t how) {
    const uint64_t root[1] = {FROM + index}, astray[2] = {0, FROM + m->space.room};
    compressor_survey survey = COMPRESSOR_EMPTY;
    uint64_t words;
    m->is_stopped = 1;
    words = copy_row(m, index, 0);
    DONE(how != 3, looks_begin, m->space.edition, m->space.room, root, how == 3 ? 0 : 1, &m->looks);
    if (how == 0) ANSWERS(COMPRESSOR_TOO_SHORT, words, looks_look, &m->looks, m->rows, words - 1);
    if (how == 1) ANSWERS(COMPRESSOR_TOO_SHORT, words, looks_again, &m->looks, index, m->rows, words - 1);
    if (how == 2) ANSWERS(COMPRESSOR_BAD_ROOT, 1, looks_meet, &m->looks, astray, 2);
    if (how == 3) ANSWERS(COMPRESSOR_BAD_ROOT, 0, looks_finish, &m->looks, root, 1, &survey);
    if (how == 4) {
        m->rows[words] = 0;
        ANSWERS(COMPRESSOR_NO_SUCH_OBJECT, 0, looks_look, &m->looks, m->rows, words + 1);
    }
    ANSWERS(COMPRESSOR_EMPTY_HANDLE, 0, looks_waiting, &m->looks, m->rows, 1);
}

/* Steps that are refused, of a live object whose row has more words than the header, or none. */
static void refuse_steps(marking *m) {
    for (uint64_t i = 0; i < m->space.room; i++) {
        if (!compressor_is_marked(m->heads, FROM + i) || !one_in(3)) continue;
        if (copy_row(m, i, 0) > 1) refuse_step(m, i, below(2));
        refuse_step(m, i, is_leaf(m, i) ? 2 + below(3) : 2 + below(2));
        refuse_lanes(m, i);
        return;
    }
}

compressor_answer survey_by_looks(uint32_t edition, uint64_t *words, uint64_t count, const uint64_t *roots,
                                  size_t root_count, const uint64_t *heads, compressor_survey *survey) {
    marking all = {{0}, COMPRESSOR_EMPTY, roots, root_count, heads, NULL, count + 2, NULL, 0, 1}, *m = &all;
    compressor_answer a;
    if (edition < 3) {
        ANSWERS(COMPRESSOR_BAD_EDITION, edition, looks_begin, edition, count, roots, root_count, &m->looks);
        CALL(a, survey_by_roots, edition, words, count, roots, root_count, survey);
        return a;
    }
    compressor_space_in(&m->space, edition, words, count, count);
    m->rows = (uint64_t *)zeros(m->room, sizeof *m->rows);
    m->old = (uint64_t *)zeros(count + 1, sizeof *m->old);
    if (heads) refuse_steps(m);
    a = mark(m, survey);
    while (a.status == COMPRESSOR_OUT_OF_MEMORY) { /* then the marking is gone, and the survey is empty */
        ANSWERS(COMPRESSOR_EMPTY_HANDLE, 0, looks_meet, &m->looks, roots, root_count);
        ANSWERS(COMPRESSOR_EMPTY_HANDLE, 0, survey_share, survey, &(compressor_survey)COMPRESSOR_EMPTY);
        a = mark(m, survey);
    }
    own.refuse_next = 0;
    ANSWERS(COMPRESSOR_EMPTY_HANDLE, 0, looks_finish, &m->looks, roots, root_count, survey);
    free(m->rows);
    free(m->old);
    return a;
}
