/* A marking by looks that begins by lanes: each looks at some of the objects that wait there, and gives some away,
   which any lane takes then. The model knows what waits in each lane after give, take and join, and that no object is
   looked at in two lanes. */
#include "driver.h"

#include <stdlib.h>
#include <string.h>

enum { LANES = 4 };

typedef struct lanes {
    marking *m;
    compressor_lane lane[LANES];
    uint64_t count;
    uint64_t *given, given_count; /* what a lane gave, and no other one has taken yet */
    uint64_t *before, *after;     /* what waits */
    unsigned char *seen;          /* for each word 1 if the object there was looked at */
} lanes;

/* All objects that wait in a lane. Answers how many. */
static uint64_t ask(const lanes *l, compressor_lane *lane, uint64_t *indices) {
    compressor_answer a;
    CALL(a, lane_waiting, lane, indices, l->m->space.room);
    answers(a, COMPRESSOR_DONE, a.value, 0);
    for (uint64_t k = 0; k < a.value; k++) IS(indices[k] < l->m->space.room && !l->seen[indices[k]]);
    return a.value;
}

/* The answer of a step that is done says whether an object waits. */
static compressor_answer says_waiting(const lanes *l, compressor_lane *lane, compressor_answer a) {
    if (a.status == COMPRESSOR_DONE) answers(a, COMPRESSOR_DONE, ask(l, lane, l->after) > 0, 0);
    return a;
}

static compressor_answer meet(lanes *l, compressor_lane *lane) {
    compressor_answer a;
    if (one_in(16)) own.refuse_next = 1;
    CALL(a, lane_meet, lane, l->m->roots, below(l->m->root_count + 1));
    return says_waiting(l, lane, a);
}

static compressor_answer look(lanes *l, compressor_lane *lane) {
    const uint64_t waits = ask(l, lane, l->before), most = below(9);
    uint64_t words = 0;
    compressor_answer a;
    for (uint64_t k = 0; k < waits && k < most; k++) {
        const uint64_t i = l->before[k], row = copy_row(l->m, i, words);
        if (row == 0) break;
        IS(!l->m->heads || compressor_is_marked(l->m->heads, FROM + i));
        l->seen[i] = 1;
        words += row;
    }
    if (one_in(16)) own.refuse_next = 1;
    CALL(a, lane_look, lane, l->m->rows, words);
    return says_waiting(l, lane, a);
}

/* The last ones go, in their order. */
static void give_away(lanes *l, compressor_lane *lane) {
    const uint64_t waits = ask(l, lane, l->before), most = below(9), many = waits < most ? waits : most;
    uint64_t indices[9];
    indices[many] = 7;
    DONE(many, lane_give, lane, indices, most);
    SAME_WORDS(indices, l->before + waits - many, many);
    IS(many == most || indices[many] == 7);
    SAME(ask(l, lane, l->after), waits - many);
    SAME_WORDS(l->after, l->before, waits - many);
    memcpy(l->given + l->given_count, indices, many * sizeof *indices);
    l->given_count += many;
}

/* They wait behind the others then. */
static compressor_answer take_given(lanes *l, compressor_lane *lane, uint64_t many) {
    const uint64_t waits = ask(l, lane, l->before), left = l->given_count - many;
    compressor_answer a;
    if (one_in(16)) own.refuse_next = 1;
    CALL(a, lane_take, lane, l->given + left, many);
    if (says_waiting(l, lane, a).status != COMPRESSOR_DONE) return a;
    SAME(ask(l, lane, l->after), waits + many);
    SAME_WORDS(l->after, l->before, waits);
    SAME_WORDS(l->after + waits, l->given + left, many);
    l->given_count = left;
    return a;
}

static compressor_answer act_by(lanes *l, compressor_lane *lane) {
    compressor_answer a = {COMPRESSOR_DONE, 0, 0};
    switch (below(6)) {
        case 0: return meet(l, lane);
        case 1: give_away(l, lane); return a;
        case 2: return take_given(l, lane, below(l->given_count + 1));
        default: return look(l, lane);
    }
}

/* What waits in the first lane waits before what waits in the other one. */
static compressor_answer join(lanes *l, compressor_lane *lane, compressor_lane *other) {
    const uint64_t first = ask(l, lane, l->before), more = ask(l, other, l->before + first);
    compressor_answer a;
    if (one_in(16)) own.refuse_next = 1;
    CALL(a, lane_join, lane, other);
    ANSWERS(COMPRESSOR_EMPTY_HANDLE, 0, lane_waiting, other, l->after, 1);
    if (says_waiting(l, lane, a).status != COMPRESSOR_DONE) return a;
    SAME(ask(l, lane, l->after), first + more);
    SAME_WORDS(l->after, l->before, first + more);
    return a;
}

/* All lanes are one, which is in the first handle then. */
static compressor_answer join_all(lanes *l) {
    compressor_answer a = {COMPRESSOR_DONE, 0, 0};
    while (l->count > 1 && a.status == COMPRESSOR_DONE) {
        const uint64_t k = below(l->count - 1);
        a = join(l, &l->lane[k], &l->lane[l->count - 1]);
        l->count--;
    }
    return a;
}

/* What was not taken is missing, and the marking is gone. */
static void miss(lanes *l) {
    uint64_t least = l->given[0];
    for (uint64_t k = 1; k < l->given_count; k++)
        if (l->given[k] < least) least = l->given[k];
    ANSWERS(COMPRESSOR_MISSING_OBJECT, least, lane_whole, &l->lane[0], &l->m->looks);
    ANSWERS(COMPRESSOR_EMPTY_HANDLE, 0, lane_waiting, &l->lane[0], l->after, 1);
    ANSWERS(COMPRESSOR_EMPTY_HANDLE, 0, looks_waiting, &l->m->looks, l->after, 1);
}

static compressor_answer again_by_looks(marking *m) {
    compressor_answer a;
    m->old_count = 0;
    CALL(a, looks_begin, m->space.edition, m->space.room, m->roots, 0, &m->looks);
    return a;
}

static compressor_answer mark(lanes *l) {
    marking *m = l->m;
    compressor_answer a;
    uint64_t waits;
    DONE(0, lane_begin, m->space.edition, m->space.room, &l->lane[0]);
    for (l->count = 1; l->count < LANES && !one_in(4); l->count++)
        DONE(0, lane_share, &l->lane[below(l->count)], &l->lane[l->count]);
    for (uint64_t times = below(60); times > 0; times--) {
        a = act_by(l, &l->lane[below(l->count)]);
        if (a.status != COMPRESSOR_DONE) return a;
    }
    if (l->given_count == 0 || !one_in(8)) {
        a = take_given(l, &l->lane[below(l->count)], l->given_count);
        if (a.status != COMPRESSOR_DONE) return a;
    }
    a = join_all(l);
    if (a.status == COMPRESSOR_OVERLAP && !m->heads) { /* of two lanes: a word, and looks find the object */
        IS(a.value < m->space.room);
        return again_by_looks(m);
    }
    if (a.status != COMPRESSOR_DONE) return a;
    if (l->given_count > 0) {
        miss(l);
        return again_by_looks(m);
    }
    waits = ask(l, &l->lane[0], l->before);
    CALL(a, lane_whole, &l->lane[0], &m->looks);
    answers(a, COMPRESSOR_DONE, waits > 0, 0);
    DONE(waits, looks_waiting, &m->looks, l->after, m->space.room);
    SAME_WORDS(l->after, l->before, waits);
    return a;
}

compressor_answer begin_by_lanes(marking *m) {
    const size_t room = m->space.room + 1;
    lanes all = {0}, *l = &all;
    compressor_answer a;
    l->m = m;
    l->given = (uint64_t *)zeros(room, sizeof *l->given);
    l->before = (uint64_t *)zeros(room, sizeof *l->before);
    l->after = (uint64_t *)zeros(room, sizeof *l->after);
    l->seen = (unsigned char *)zeros(room, sizeof *l->seen);
    a = mark(l);
    own.refuse_next = 0;
    for (int k = 0; k < LANES; k++) DROP(lane_drop, &l->lane[k]);
    free(l->given);
    free(l->before);
    free(l->after);
    free(l->seen);
    return a;
}

/* Both lanes take what one of them gave. */
static void take_twice(compressor_lane *lane, compressor_lane *other, uint64_t index) {
    uint64_t given[1];
    DONE(1, lane_give, lane, given, 1);
    SAME(given[0], index);
    DONE(1, lane_take, other, given, 1);
    DONE(1, lane_take, other, given, 1); /* it waits there already */
    DONE(1, lane_waiting, other, given, 1);
    DONE(1, lane_take, lane, given, 1);
    ANSWERS(COMPRESSOR_OVERLAP, index, lane_join, lane, other);
    ANSWERS(COMPRESSOR_EMPTY_HANDLE, 0, lane_waiting, other, given, 1);
}

void refuse_lanes(marking *m, uint64_t index) {
    const uint64_t root[1] = {FROM + index}, astray[2] = {0, FROM + m->space.room}, past[2] = {index, m->space.room};
    const uint64_t words = copy_row(m, index, 0), how = below(6);
    compressor_lane lane = COMPRESSOR_EMPTY, other = COMPRESSOR_EMPTY;
    DONE(0, lane_begin, m->space.edition, m->space.room, &lane);
    DONE(0, lane_share, &lane, &other);
    DONE(1, lane_meet, &lane, root, 1);
    DONE(0, lane_meet, &other, root, 1); /* it waits in the other lane */
    if (how == 0 && words > 1) ANSWERS(COMPRESSOR_TOO_SHORT, words, lane_look, &lane, m->rows, words - 1);
    else if (how == 1) ANSWERS(COMPRESSOR_BAD_ROOT, 1, lane_take, &lane, past, 2);
    else if (how == 2) ANSWERS(COMPRESSOR_BAD_ROOT, 1, lane_meet, &lane, astray, 2);
    else if (how == 3) ANSWERS(COMPRESSOR_NO_SUCH_OBJECT, 0, lane_look, &other, m->rows, words);
    else if (how == 4) take_twice(&lane, &other, index);
    else {
        DROP(lane_drop, &other);
        DONE(0, lane_begin, m->space.edition == 3 ? 4 : 3, m->space.room, &other);
        ANSWERS(COMPRESSOR_OTHER_HEAP, 0, lane_join, &lane, &other);
    }
    ANSWERS(COMPRESSOR_EMPTY_HANDLE, 0, lane_waiting, how == 3 ? &other : &lane, m->rows, 1);
    DROP(lane_drop, &lane);
    DROP(lane_drop, &other);
}
