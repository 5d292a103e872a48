/* collect.c: a collection, while all threads stand still. If there was a marking, the survey is by its bits, and looks
   at no word of the heap: the slide asks of each object what a survey asks, and no root is changed before all parts
   have slid. If survey or slide is refused, as where a root or a reference leads to an object that is not marked, the
   collection goes on by the roots. By marks the survey itself asks. */
#include "stops.h"

static uint32_t part_count;

/* A call that takes memory is made once more without. */
#define TWICE(answer, call)                                                 \
    do {                                                                    \
        (answer) = (call);                                                  \
        if ((answer).status == COMPRESSOR_OUT_OF_MEMORY) (answer) = (call); \
    } while (0)

/* A refusal that only a fault of this program explains. */
static void broken(const char *call, compressor_answer a) {
    char text[160];
    snprintf(text, sizeof text, "HeapBroken(%s: %s, %llu)", call, compressor_status_text(a.status),
             (unsigned long long)a.value);
    heap_fail(text);
}

static void time_part(int part, uint64_t *began) {
    const uint64_t at = heap_thread_time();
    times_add(&heap.parts[part], at - *began);
    *began = at;
}

/* All roots in a row: those of the threads, and then the shared ones. */
static void gather(void) {
    size_t count = 0;
    for (uint32_t k = 0; k < heap.chosen.threads; k++)
        for (const ref *at = heap.mutators[k].stack; at < heap.mutators[k].top; at++) heap.roots[count++] = *at;
    for (int k = 0; k < SHARED_ROOTS; k++) heap.roots[count++] = heap_shared[k];
    heap.root_count = count;
}

static void scatter(void) {
    size_t count = 0;
    for (uint32_t k = 0; k < heap.chosen.threads; k++)
        for (ref *at = heap.mutators[k].stack; at < heap.mutators[k].top; at++) *at = heap.roots[count++];
    for (int k = 0; k < SHARED_ROOTS; k++) heap_shared[k] = heap.roots[count++];
}

/* All objects get other addresses: to_rest those that the library wants. All that was kept has been looked at. */
static void turn(int to_rest) {
    gather();
    const compressor_answer a = compressor_space_turn(&heap_space, to_rest, heap.roots, heap.root_count);
    if (a.status != COMPRESSOR_DONE) broken("turn", a);
    scatter();
}

static void threads_mark(int is_marking) {
    for (uint32_t k = 0; k < heap.chosen.threads && !heap.chosen.is_by_looks; k++)
        if (heap.mutators[k].is_running) work_marks(&heap.mutators[k].kept, is_marking);
    heap.is_marking = is_marking;
}

void collect_mark(void) {
    gather();
    /* its number is that of the stops that there are then */
    if (!heap.chosen.is_by_looks) marking_begin(&heap.kept, heap.roots, heap.root_count, heap.stops + 1);
    else heap.gave_up += !looking_begin(heap.roots, heap.root_count, heap.stops + 1);
    threads_mark(1);
    heap.used_at_start = heap_space.used;
    heap_space.limit = heap.chosen.words;
}

/* Ends the marking: whether its bits are good. What was not handed on is dropped: the objects move now. */
static int end_marking(void) {
    int is_good;
    if (!heap.is_marking) return 0;
    heap.late += compressor_space_due(&heap_space) != 0;
    heap.meanwhile = heap_space.used - heap.used_at_start;
    if (heap.chosen.is_by_looks) { /* the survey ends it */
        threads_mark(0);
        return 1;
    }
    for (uint32_t k = 0; k < heap.chosen.threads; k++)
        if (heap.mutators[k].is_running) work_hand_on(&heap.mutators[k].kept);
    is_good = marking_finish(&heap.kept);
    for (uint32_t k = 0; k < heap.chosen.threads; k++) work_drop(&heap.mutators[k].kept);
    threads_mark(0);
    heap.gave_up += !is_good;
    return is_good;
}

/* Counts a refusal, and says of the first one what it is of. */
static void tell_refusal(compressor_answer a) {
    heap.refusals[a.status % STATUSES]++;
    if (*heap.refusal != 0) return;
    const ref object = a.status == COMPRESSOR_BAD_ROOT ? 0 : compressor_object_around(&heap_space, a.value);
    char where[64] = "";
    if (object != 0)
        snprintf(where, sizeof where, ", word %llu of an object with the tag %u",
                 (unsigned long long)(COMPRESSOR_FROM_SPACE + a.value - object),
                 COMPRESSOR_TAG_OF(*compressor_at(&heap_space, object)));
    snprintf(heap.refusal, sizeof heap.refusal, "%s %llu%s", compressor_status_text(a.status),
             (unsigned long long)a.value, where);
}

static compressor_answer survey_by_marking(void) {
    const size_t blocks = (heap_space.used + 63) / 64;
    heap.surveyed = heap.chosen.is_by_looks ? heap_space.room : heap_space.used;
    if (heap.chosen.is_by_looks) return looking_finish(heap.roots, heap.root_count, &heap.survey);
    if (heap.chosen.is_by_marks)
        return compressor_survey_by_marks(EDITION, heap_space.words, heap_space.used, heap.roots, heap.root_count,
                                          marking_marks(), blocks, &heap.survey);
    return compressor_survey_by_bits(EDITION, heap_space.used, heap.roots, heap.root_count, marking_marks(), blocks,
                                     marking_live(), blocks, &heap.survey);
}

/* Whether the survey by the marking is made. If it is refused, that is counted. */
static int is_surveyed_by_marking(void) {
    compressor_answer a;
    TWICE(a, survey_by_marking());
    if (a.status != COMPRESSOR_DONE && a.status != COMPRESSOR_OUT_OF_MEMORY) tell_refusal(a);
    if (a.status != COMPRESSOR_DONE) return 0;
    heap.live = a.value;
    heap.by_marking++;
    return 1;
}

/* Whether the survey by roots is made: there may be no memory. */
static int is_surveyed_by_roots(void) {
    compressor_answer a;
    heap.surveyed = heap_space.used;
    TWICE(a, compressor_survey_by_roots_lent(&heap.tables, EDITION, heap_space.words, heap_space.used, heap.roots,
                                             heap.root_count, &heap.survey));
    if (a.status == COMPRESSOR_OUT_OF_MEMORY) return 0;
    if (a.status != COMPRESSOR_DONE) broken("by roots", a);
    heap.live = a.value;
    heap.has_tables = 1;
    heap.by_roots++;
    return 1;
}

/* The survey goes, and so do shares. */
static void drop_survey(void) {
    for (uint32_t k = 0; k < heap.chosen.threads; k++) compressor_survey_drop(&heap.mutators[k].share);
    if (!heap.has_tables) compressor_survey_drop(&heap.survey);
    else if (compressor_survey_return(&heap.survey, &heap.tables).status != COMPRESSOR_DONE) heap_fail("SurveyKept");
    heap.has_tables = 0;
}

/* A share for each thread: 0 if there is no memory. */
static int hand_out(void) {
    compressor_answer a;
    part_count = 0;
    for (uint32_t k = 0; k < heap.chosen.threads; k++) {
        if (!heap.mutators[k].is_running) continue;
        TWICE(a, compressor_survey_share(&heap.survey, &heap.mutators[k].share));
        if (a.status == COMPRESSOR_OUT_OF_MEMORY) return 0;
        if (a.status != COMPRESSOR_DONE) broken("share", a);
        heap.mutators[k].part = part_count++;
    }
    return 1;
}

/* Where the next marking begins: so early that by the words of the last one it ends in time, with as many to spare. */
static uint64_t limit_of_start(void) {
    const uint64_t all = heap.chosen.words, left = all > heap.live ? all - heap.live : 0;
    const uint64_t early = 2 * heap.meanwhile, least = left / 4, most = left - left / 8;
    return all - (early < least ? least : early > most ? most : early);
}

/* The heap is in the other memory. */
static void change_places(void) {
    uint64_t *const was = heap_space.words;
    const uint64_t all = heap.chosen.words;
    compressor_space_in(&heap_space, EDITION, heap.other, heap.room, heap.live);
    heap.other = was;
    heap.slid += heap.live;
    heap_space.limit = heap.chosen.is_concurrent ? limit_of_start() : all;
    for (uint32_t k = 0; k < heap.chosen.threads; k++) compressor_buffer_empty(&heap.mutators[k].buffer);
    if (heap.chosen.turns) turn(0);
    if (heap.live >= all - all / 16) heap_fail("HeapFull");
}

/* The whole collection by one call, which takes no memory. */
static void collect_alone(void) {
    const compressor_answer a =
        compressor_collect_lent(&heap.tables, EDITION, heap_space.words, heap_space.used, heap.roots,
                                heap.root_count, heap.other, heap.room);
    if (a.status != COMPRESSOR_DONE) broken("alone", a);
    heap.alone++;
    heap.live = a.value;
    scatter();
    change_places();
}

/* Surveys, by the marking if it is good, and hands out shares: 1, or all is collected here. */
static int survey(int is_marked) {
    uint64_t began = heap_thread_time();
    int is_shared = (is_marked && is_surveyed_by_marking()) || is_surveyed_by_roots();
    if (is_shared && !hand_out()) {
        drop_survey();
        is_shared = 0;
    }
    time_part(SURVEY, &began);
    if (!is_shared) collect_alone();
    return is_shared;
}

int collect_survey(void) {
    uint64_t began = heap_thread_time();
    const int was_marking = heap.is_marking, is_marked = end_marking();
    const uint64_t used = heap_space.used;
    if (heap.chosen.turns) turn(1);
    gather();
    time_part(DRAIN, &began);
    const int is_shared = survey(is_marked);
    if (was_marking && !heap.chosen.is_by_looks) marking_clear(used);
    return is_shared;
}

void collect_slide(mutator *m) {
    size_t count;
    const uint64_t first = compressor_part(heap.live, part_count, m->part, &count);
    m->slid = compressor_survey_slide(&m->share, heap_space.words, heap.surveyed, first, heap.other + first, count);
    compressor_survey_drop(&m->share);
}

/* Whether all parts have slid. By bits one may be refused, and that is counted. */
static int all_slid(void) {
    int all = 1;
    for (uint32_t k = 0; k < heap.chosen.threads; k++) {
        const compressor_answer a = heap.mutators[k].slid;
        if (!heap.mutators[k].is_running || a.status == COMPRESSOR_DONE) continue;
        if (heap.has_tables || heap.chosen.is_by_marks) broken("slide", a);
        tell_refusal(a);
        all = 0;
    }
    return all;
}

int collect_moved(void) {
    if (!all_slid()) { /* words and roots are as they were */
        drop_survey();
        heap.by_marking--;
        return survey(0);
    }
    const compressor_answer a = compressor_survey_forward(&heap.survey, heap.roots, heap.root_count);
    if (a.status != COMPRESSOR_DONE) broken("forward", a);
    scatter();
    drop_survey();
    change_places();
    return 0;
}
