/* collect.c: collections. All threads stand still for a survey, by the roots, or by the bits of a marking beside them.
   Then the roots are forwarded, the slide begins, and they go on: each page is built by whoever touches it, by workers,
   and by threads that take words for new objects. A marking begins when all pages are home. */
#ifndef _GNU_SOURCE
#define _GNU_SOURCE
#endif
#include "stops.h"
#include "touch.h"

#include <malloc.h>
#include <unistd.h>

/* A call that takes memory is made once more without. */
#define TWICE(answer, call)                                                 \
    do {                                                                    \
        (answer) = (call);                                                  \
        if ((answer).status == COMPRESSOR_OUT_OF_MEMORY) (answer) = (call); \
    } while (0)

static struct {
    compressor_tables tables;
    compressor_survey old;        /* of a slide that has ended, until a marker drops it */
    int is_sliding;               /* from a collection to the end of its slide */
    int has_tables;               /* the survey of this slide has them */
    uint64_t share;               /* pages that are built by a thread that takes words */
    uint64_t roots[MOST_THREADS * STACK_SLOTS + SHARED_ROOTS], before[MOST_THREADS * STACK_SLOTS + SHARED_ROOTS];
    size_t root_count;
    /* a fault of this runtime */
    uint64_t changed_at, changed_from, sum;
    int has_changed, is_told;
} own;

/* A refusal that only a fault of this program explains. */
static uint64_t done(const char *call, compressor_answer a) {
    char text[160];
    if (a.status == COMPRESSOR_DONE) return a.value;
    snprintf(text, sizeof text, "HeapBroken(%s: %s, %llu)", call, compressor_status_text(a.status),
             (unsigned long long)a.value);
    heap_fail(text);
}

static void time_part(int part, uint64_t *began) {
    const uint64_t at = heap_thread_time();
    times_add(part, at - *began);
    *began = at;
}

/* A fault: one word of from-space is changed while pages wait. */

static uint64_t words_sum(const uint64_t *words, uint64_t count) {
    uint64_t sum = 0;
    for (uint64_t k = 0; k < count; k++) sum = (sum << 7 | sum >> 57) ^ words[k] * UINT64_C(0x9e3779b97f4a7c15);
    return sum;
}

/* The header, or the first reference, of a root's object whose page is not home. */
static void change_words(uint64_t *from) {
    if (own.has_changed) return;
    for (size_t k = 0; k < own.root_count; k++) {
        const uint64_t at = own.before[k] - COMPRESSOR_FROM_SPACE + (heap.chosen.change == REFERENCE);
        const uint64_t to = own.roots[k] - COMPRESSOR_FROM_SPACE + (heap.chosen.change == REFERENCE);
        if (own.roots[k] == 0 || compressor_shape_of(EDITION, from[own.before[k] - COMPRESSOR_FROM_SPACE]).refs == 0)
            continue;
        if (touch_is_home(to / touch.page_words)) continue;
        own.sum = words_sum(from, touch.used);
        own.changed_at = at;
        own.changed_from = from[at];
        own.has_changed = 1;
        from[at] = heap.chosen.change == HEADER ? from[at] + COMPRESSOR_HEADER(0, 0, 1, 0) : own.before[k] + 1;
        return;
    }
}

/* Says which page was refused, and ends: with the word as it was, from-space is as it was surveyed. Other threads that
   are refused it too wait for the end. Called in handlers: of traps that the program's own loads and stores raise, so
   within no call of the C library. */
static void refused(uint64_t page, compressor_answer a) {
    uint64_t *const from = (uint64_t *)(uintptr_t)touch.from;
    char text[200];
    int length, is_whole;
    while (__atomic_exchange_n(&own.is_told, 1, __ATOMIC_ACQ_REL)) pause();
    if (own.has_changed) from[own.changed_at] = own.changed_from;
    is_whole = own.has_changed && words_sum(from, touch.used) == own.sum;
    length = snprintf(text, sizeof text, "first_touch: Refused(page %llu: %s, word %llu)\n%s", (unsigned long long)page,
                      compressor_status_text(a.status), (unsigned long long)a.value,
                      is_whole ? "from-space is whole, but for that word\n" : "");
    _exit(write(2, text, (size_t)length) == length ? 1 : 3);
}

/* All roots in a row: those of the threads, and then the shared ones. */
static void gather(void) {
    size_t count = 0;
    for (uint32_t k = 0; k < heap.chosen.threads; k++)
        for (const ref *at = heap.mutators[k].stack; at < heap.mutators[k].top; at++) own.roots[count++] = *at;
    for (int k = 0; k < SHARED_ROOTS; k++) own.roots[count++] = heap_shared[k];
    own.root_count = count;
    memcpy(own.before, own.roots, sizeof own.roots);
}
static void scatter(void) {
    size_t count = 0;
    for (uint32_t k = 0; k < heap.chosen.threads; k++)
        for (ref *at = heap.mutators[k].stack; at < heap.mutators[k].top; at++) *at = own.roots[count++];
    for (int k = 0; k < SHARED_ROOTS; k++) heap_shared[k] = own.roots[count++];
}

/* A slide ends. What it had of memory goes beside the threads, or the tables come back. */

void collect_finish(void) {
    if (!own.is_sliding) return;
    compressor_survey_drop(&own.old);
    done("end", touch_end(&own.old));
    if (own.has_tables) done("return", compressor_survey_return(&own.old, &own.tables));
    own.is_sliding = own.has_tables = 0;
}

void collect_ready(void) {
    const uint64_t blocks = __atomic_load_n(&heap_space.used, __ATOMIC_RELAXED) / 64;
    uint64_t words = 0;
    compressor_survey_drop(&own.old);
    if (touch.way == TOUCH_INLINE) return;
    for (uint64_t k = 0; k < blocks; k++)
        words += (uint64_t)__builtin_popcountll(__atomic_load_n(&marking_live()[k], __ATOMIC_RELAXED));
    touch_ready(words);
}

/* A marking */

static void threads_mark(int is_marking) {
    for (uint32_t k = 0; k < heap.chosen.threads; k++)
        if (heap.mutators[k].is_running) work_marks(&heap.mutators[k].kept, is_marking);
    heap.is_marking = is_marking;
}

/* In a stop all pages are home already. */
static void finish(void) {
    uint64_t began = heap_thread_time();
    if (own.is_sliding) heap.late += touch.left;
    collect_finish();
    time_part(FINISH, &began);
}

void collect_mark(void) {
    const uint64_t used = heap_space.used;
    finish();
    gather();
    marking_begin(&heap.kept, own.roots, own.root_count, heap.stops + 1); /* so many stops there are then */
    threads_mark(1);
    heap.used_at_start = heap_space.used;
    heap.share = used / ((heap.words - used) / (2 * COMPRESSOR_CHUNK) + 1) + 1;
    heap_space.limit = heap.words;
}

/* Ends it: whether its bits are good. What was not handed on is dropped: the objects move now. */
static int end_marking(void) {
    int is_good;
    if (!heap.is_marking) return 0;
    heap.late_marks += compressor_space_due(&heap_space) != 0;
    heap.meanwhile = heap_space.used - heap.used_at_start;
    for (uint32_t k = 0; k < heap.chosen.threads; k++)
        if (heap.mutators[k].is_running) work_hand_on(&heap.mutators[k].kept);
    is_good = marking_finish(&heap.kept);
    for (uint32_t k = 0; k < heap.chosen.threads; k++) work_drop(&heap.mutators[k].kept);
    threads_mark(0);
    return is_good;
}

/* Where the next marking begins: so early that by the words of the last one it ends in time, with as many to spare. */
static uint64_t limit_of_start(uint64_t live) {
    const uint64_t left = heap.words > live ? heap.words - live : 0;
    const uint64_t early = 2 * heap.meanwhile, least = left / 4, most = left - left / 4;
    return heap.words - (early < least ? least : early > most ? most : early);
}

/* A collection */

/* The heap has so many words, and lies where the slide puts it. All pages are to be home when half of the words until
   the next stop are used. */
static void go_on_there(uint64_t live) {
    const uint64_t limit = heap.chosen.marks_beside ? limit_of_start(live) : heap.words;
    const uint64_t words = limit > live ? limit - live : 0, chunks = words / (2 * COMPRESSOR_CHUNK);
    own.share = chunks != 0 ? touch.left / chunks + 1 : touch.left;
    compressor_space_in(&heap_space, EDITION, touch_words(), heap_space.room, live);
    heap_space.limit = limit;
    for (uint32_t k = 0; k < heap.chosen.threads; k++) compressor_buffer_empty(&heap.mutators[k].buffer);
    if (live > heap.words - heap.words / 16) heap_fail("HeapFull");
    if (live > heap.most_live) heap.most_live = live;
    heap.collections++;
}

static compressor_answer survey_by_roots(compressor_survey *survey) {
    return compressor_survey_by_roots_lent(&own.tables, EDITION, heap_space.words, heap_space.used, own.roots,
                                           own.root_count, survey);
}

/* No word of the heap is looked at: each page asks when it is built. */
static compressor_answer survey_by_bits(compressor_survey *survey) {
    const size_t blocks = (heap_space.used + 63) / 64;
    return compressor_survey_by_bits(EDITION, heap_space.used, own.roots, own.root_count, marking_marks(), blocks,
                                     marking_live(), blocks, survey);
}

/* By the bits, if they are good, or by the roots. OUT_OF_MEMORY: there is none for either. */
static compressor_answer survey_by(int is_marked, compressor_survey *survey) {
    compressor_answer a = {COMPRESSOR_OUT_OF_MEMORY, 0, 0};
    if (is_marked) TWICE(a, survey_by_bits(survey));
    heap.by_bits += a.status == COMPRESSOR_DONE;
    if (a.status == COMPRESSOR_DONE) return a;
    heap.refused += a.status != COMPRESSOR_OUT_OF_MEMORY;
    TWICE(a, survey_by_roots(survey));
    own.has_tables = a.status == COMPRESSOR_DONE;
    return a;
}

/* The whole collection by one call, which takes no memory. */
static void collect_alone(void) {
    touch_moved();
    const uint64_t live =
        done("alone", compressor_collect_lent(&own.tables, EDITION, heap_space.words, heap_space.used, own.roots,
                                              own.root_count, touch_words(), heap_space.room));
    scatter();
    heap.at_once++;
    go_on_there(live);
}

uint64_t collect(void) {
    compressor_survey survey = COMPRESSOR_EMPTY;
    uint64_t *const from = heap_space.words;
    const uint64_t used = heap_space.used;
    const int was_marking = heap.is_marking;
    if (!was_marking) finish();
    uint64_t began = heap_thread_time();
    const int is_marked = end_marking();
    if (was_marking) time_part(DRAIN, &began);
    gather();
    const compressor_answer a = survey_by(is_marked, &survey);
    if (was_marking) marking_clear(used);
    if (a.status == COMPRESSOR_OUT_OF_MEMORY) {
        collect_alone();
        return 0;
    }
    const uint64_t live = done("survey", a);
    done("forward", compressor_survey_forward(&survey, own.roots, own.root_count));
    scatter();
    time_part(SURVEY, &began);
    const uint64_t missing = touch_begin(&survey, used, live, heap.chosen.way == ONCE);
    own.is_sliding = 1;
    heap.missing += missing;
    heap.at_once += touch.count == 0 || (missing == 0 && touch.count > 1);
    go_on_there(live);
    if (missing != 0 && heap.chosen.change != NOTHING) change_words(from);
    time_part(BEGIN, &began);
    return missing;
}

/* Threads */

void collect_enter(uint32_t number) { touch_enter(number); }
uint64_t collect_step(uint64_t most) { return touch_step(most); }

/* Who takes words for new objects builds some pages first: so all are home long before the next stop. Or it marks: so
   the marking ends long before the heap is full, also where markers get no processor. */
ref heap_new_slowly(mutator *m, uint64_t header, uint64_t words) {
    if (m->buffer.last - m->buffer.at < words) { /* it takes more of the room */
        if (!touch_all_home()) touch_step(own.share);
        if (m->kept.live != NULL) work_step(&m->kept, heap.share);
    }
    const ref object = compressor_new_slowly(&heap_space, &m->buffer, header, words);
    if (object == 0) heap_fail("StepTooLarge");
    return object;
}

/* Start and end */

/* Memory that a survey takes in a stop is what the one before gave back, or was touched here, and not fresh from the
   system, whose faults take as long as the survey by bits. */
static void keep_memory(size_t room) {
    const size_t bytes = room / 2; /* as many as a survey takes */
#ifdef M_ARENA_MAX
    mallopt(M_ARENA_MAX, 1);
    mallopt(M_MMAP_THRESHOLD, 32 << 20);
    mallopt(M_TRIM_THRESHOLD, 1 << 30);
#endif
    void *const touched = malloc(bytes);
    if (touched != NULL) memset(touched, 1, bytes);
    free(touched);
}

const char *collect_open(size_t room) {
    const touch_way ways[] = {TOUCH_INLINE, TOUCH_INLINE, TOUCH_MPROTECT, TOUCH_USERFAULTFD};
    const char *error;
    compressor_answer a;
    memset(&own, 0, sizeof own);
    if (heap.chosen.marks_beside) keep_memory(room);
    error = touch_open(ways[heap.chosen.way], room, heap.chosen.page_words, heap.chosen.threads + heap.chosen.workers,
                       &heap_touch, refused);
    if (error != NULL) return error;
    compressor_space_in(&heap_space, EDITION, touch_words(), room, 0);
    heap_space.limit = heap.chosen.marks_beside ? heap.words / 2 : heap.words;
    TWICE(a, compressor_tables_reserve(room, &own.tables));
    return a.status == COMPRESSOR_DONE ? NULL : "OutOfMemory";
}

void collect_close(void) {
    compressor_survey_drop(&own.old);
    compressor_tables_drop(&own.tables);
    touch_close();
}

slide_way heap_way(void) {
    if (heap.chosen.way == USERFAULTFD && touch.way == TOUCH_MPROTECT) return MPROTECT;
    return heap.chosen.way;
}

uint64_t collect_page_words(void) { return touch.page_words; }
