/* weak_heap.c: ephemerons, and guardians that see an object once more, over a heap at rest.

   The heap's objects do not say which of them are ephemerons or guards: they are listed here, in memory of the program,
   by their addresses, which keep nothing. Of each collection the survey is told

   - of an ephemeron: itself, key, value: the value is held as soon as the first two are;
   - of a guard, which has a guardian and an object by weak words, that the guard itself is guarded, and two ephemerons:
     - object, object, guard: as long as its object is held, the guard is not lost;
     - guardian, guard, object: a guard that is lost, and so lives once more, brings its object back if there is a
       guardian. So whose guardian died, or is reached from the object alone, dies as other objects do.

   After the slide each lost guard goes to the end of its guardian's list, and keeps its object by a reference. */
#include "collector.h"

#include <stdlib.h>

/* reference fields, and behind them weak words */
enum { EPHEMERON_NEXT, EPHEMERON_REFS, KEY = 0, VALUE, EPHEMERON_WEAK,
       GUARD_OBJECT = 0, GUARD_NEXT, GUARD_REFS, GUARDIAN = 0, OBJECT, GUARD_WEAK };

typedef struct list {
    uint64_t *at;
    size_t count, room;
} list;

static list ephemerons, guards; /* addresses */
static list held;               /* what the survey is told: three words for each ephemeron */
static uint64_t lost;           /* guards, the first ones of their list after a survey */

/* Room for so many; 0 if there is no memory. */
static int has_room(list *l, size_t count) {
    uint64_t *more;
    if (count <= l->room) return 1;
    more = (uint64_t *)realloc(l->at, 2 * count * sizeof *more);
    if (!more) return 0;
    l->at = more;
    l->room = 2 * count;
    return 1;
}

/* Lists the object: so a collection needs no memory for its lists. */
static void add(evaluator *e, list *to, slot object) {
    int done;
    pthread_mutex_lock(&heap.lock);
    done = has_room(to, to->count + 1) && has_room(&held, 3 * (ephemerons.count + 2 * guards.count + 2));
    if (done) to->at[to->count++] = e->stack[object];
    pthread_mutex_unlock(&heap.lock);
    if (!done) heap_fail(e, "OutOfMemory", "");
}

void heap_wants_weak(evaluator *e) {
    if (!heap.options.by->weak) heap_fail(e, "NoEphemerons", heap.options.by->name);
}

static void make(evaluator *e, slot to, compressor_shape shape) {
    heap_wants_weak(e);
    heap_make(e, to, shape);
}

void heap_new_ephemeron(evaluator *e, slot to, slot key, slot value, uint32_t kind) {
    const compressor_shape shape = {EPHEMERON_REFS, EPHEMERON_WEAK, 0, kind};
    make(e, to, shape);
    heap.options.by->set_weak(e, to, KEY, key);
    heap.options.by->set_weak(e, to, VALUE, value);
    add(e, &ephemerons, to);
}

void heap_ephemeron(evaluator *e, slot ephemeron, slot key, slot value) {
    heap.options.by->weak(e, key, ephemeron, KEY);
    heap.options.by->weak(e, value, ephemeron, VALUE);
}

void heap_set_value(evaluator *e, slot ephemeron, slot value) {
    heap.options.by->set_weak(e, ephemeron, VALUE, value);
}

void heap_guard(evaluator *e, slot guardian, slot object, uint32_t guard) {
    const compressor_shape shape = {GUARD_REFS, GUARD_WEAK, 0, guard};
    slot made = heap_push(e);
    make(e, made, shape);
    heap.options.by->set_weak(e, made, GUARDIAN, guardian);
    heap.options.by->set_weak(e, made, OBJECT, object);
    if (compressor_is_reference(e->stack[object])) add(e, &guards, made);
    heap_pop(e, made);
}

int heap_next(evaluator *e, slot to, slot guardian) {
    slot guard = heap_push(e), next = heap_push(e);
    int is_there;
    pthread_mutex_lock(&heap.lock); /* each object goes to one evaluator */
    heap_ref(e, guard, guardian, GUARDIAN_FIRST);
    is_there = !heap_is_null(e, guard);
    if (is_there) {
        heap_ref(e, next, guard, GUARD_NEXT);
        heap_set_ref(e, guardian, GUARDIAN_FIRST, next);
        if (heap_is_null(e, next)) heap_set_ref(e, guardian, GUARDIAN_LAST, next);
        heap_ref(e, to, guard, GUARD_OBJECT);
    }
    pthread_mutex_unlock(&heap.lock);
    heap_pop(e, guard);
    return is_there;
}

/* The collection. */

int heap_has_weak(void) {
    return ephemerons.count + guards.count > 0;
}

/* Reference field or, behind them, weak word number k of the object at this address. */
static uint64_t *field(uint64_t *words, uint64_t object, uint32_t k) {
    return &words[object - COMPRESSOR_FROM_SPACE + 1 + k];
}

static void tell(uint64_t holder, uint64_t key, uint64_t value) {
    held.at[held.count++] = holder;
    held.at[held.count++] = key;
    held.at[held.count++] = value;
}

compressor_answer heap_survey_weak(const uint64_t *words, uint64_t used, compressor_survey *survey) {
    size_t k;
    held.count = 0;
    for (k = 0; k < ephemerons.count; k++) {
        const uint64_t *weak = words + (ephemerons.at[k] - COMPRESSOR_FROM_SPACE) + 1 + EPHEMERON_REFS;
        tell(ephemerons.at[k], weak[KEY], weak[VALUE]);
    }
    for (k = 0; k < guards.count; k++) {
        const uint64_t *weak = words + (guards.at[k] - COMPRESSOR_FROM_SPACE) + 1 + GUARD_REFS;
        tell(weak[OBJECT], weak[OBJECT], guards.at[k]);
        tell(weak[GUARDIAN], guards.at[k], weak[OBJECT]);
    }
    return compressor_survey_guarded(EDITION, words, used, heap.roots, heap.root_count, held.at, held.count, guards.at,
                                     guards.count, survey, &lost);
}

size_t heap_weak_roots(compressor_survey *survey, uint64_t *before, uint64_t *after) {
    size_t k, count = 0;
    if (!survey) return held.count / 3 + guards.count;
    for (k = 0; k < held.count; k += 3) {
        uint64_t own[2] = {held.at[k], held.at[k + 1]};
        compressor_survey_forward_weak(survey, own, 2);
        if (own[0] != 0 && own[1] != 0) before[count++] = held.at[k + 2];
    }
    for (k = 0; k < guards.count; k++) before[count++] = guards.at[k];
    for (k = 0; k < count; k++) after[k] = before[k];
    compressor_survey_forward_weak(survey, after, count);
    return count;
}

/* Keeps the ephemerons whose keys live on the list. One that lives itself, and whose key died, becomes empty. */
static void settle_ephemerons(compressor_survey *survey, uint64_t *words) {
    const compressor_answer a = compressor_survey_forward_weak(survey, ephemerons.at, ephemerons.count);
    size_t k, left = 0;
    if (a.status != COMPRESSOR_DONE) heap_broken("compressor_survey_forward_weak", a);
    for (k = 0; k < ephemerons.count; k++) {
        const uint64_t at = ephemerons.at[k];
        if (at == 0) continue;
        if (*field(words, at, EPHEMERON_REFS + KEY) == 0) *field(words, at, EPHEMERON_REFS + VALUE) = 0;
        else ephemerons.at[left++] = at;
    }
    ephemerons.count = left;
}

/* Puts a lost guard at the end of its guardian's list. */
static void hand_over(uint64_t *words, uint64_t guard, uint64_t guardian) {
    uint64_t *last = field(words, guardian, GUARDIAN_LAST);
    *field(words, guard, GUARD_OBJECT) = *field(words, guard, GUARD_REFS + OBJECT);
    if (*last == 0) *field(words, guardian, GUARDIAN_FIRST) = guard;
    else *field(words, *last, GUARD_NEXT) = guard;
    *last = guard;
}

/* Each guard lives. Those stay on the list that are not lost, and have a guardian. */
static void settle_guards(compressor_survey *survey, uint64_t *words) {
    const compressor_answer a = compressor_survey_forward(survey, guards.at, guards.count);
    size_t k, left = 0;
    if (a.status != COMPRESSOR_DONE) heap_broken("compressor_survey_forward", a);
    for (k = 0; k < guards.count; k++) {
        const uint64_t at = guards.at[k], guardian = *field(words, at, GUARD_REFS + GUARDIAN);
        if (guardian == 0) continue;
        if (k < lost) hand_over(words, at, guardian);
        else guards.at[left++] = at;
    }
    guards.count = left;
}

void heap_settle_weak(compressor_survey *survey, uint64_t *words) {
    settle_ephemerons(survey, words);
    settle_guards(survey, words);
}

void heap_drop_weak(void) {
    free(ephemerons.at);
    free(guards.at);
    free(held.at);
}
