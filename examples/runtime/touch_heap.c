/* touch_heap.c: a heap at rest that is marked beside its evaluators, and slides while they go on: each page of to-space
   is built by whoever touches it first. touch.h of ../first_touch has the two memories and the pages, marking.c of
   ../concurrent the marks: a runtime copies these beside this file.

   Of a cycle:
   1. An evaluator that takes room for new objects, and finds that the rest of the cycle's may be wanted while all is
      marked, wants a stop (heap.c). There the last slide ends, and the roots go to the marker.
   2. The evaluators go on. A store keeps the reference that it writes over, a new object is marked, and who takes room
      marks as much as is due for it: so the marking ends where the marker gets no processor.
   3. Once nothing waits any more there is a stop. What the evaluators have kept goes to the marker, and they go on; at
      the next stop, or at this one if nothing was kept, or if all of the room is used, the heap is surveyed by the bits,
      the roots are forwarded, and the slide begins.
   4. The evaluators go on. Whoever touches a page that is not home builds it; who takes room builds some.

   Where there is no room the roots are marked in the stop: what died while all was marked would live on. Without memory
   for the bits' survey it is the same, and one call slides all where there is none for pages. */
#ifndef _GNU_SOURCE
#define _GNU_SOURCE
#endif
#include "collector.h"

#include "../concurrent/marking.h"
#include "../first_touch/touch.h"

enum { MARKERS = 1, PAGE = 512 }; /* words of a page */

/* How a first touch is noticed: touch.h has other ways. */
#ifndef TOUCH_BY
#define TOUCH_BY TOUCH_INLINE
#endif

static struct {
    compressor_space space;
    compressor_touch met;
    compressor_tables tables;
    compressor_survey old;          /* of a slide that has ended, until the marker drops it */
    work kept[MOST_EVALUATORS];     /* what each evaluator wrote over */
    work met_here;                  /* roots, and what is looked at in a stop */
    uint64_t fresh, early;          /* words for new objects in a cycle; those of them that are for its marking */
    uint64_t left;                  /* words behind the live ones, after the last collection */
    uint64_t markings;              /* their number */
    uint64_t used_at_start;         /* words, of the marking */
    int is_marking, has_handed_on;
    int is_sliding, has_tables;     /* the survey of this slide has them */
    int is_full;                    /* somebody found no room */
    uint64_t by_bits, again, refused, missing, late, at_once; /* statistics */
} own;

enum { START, HAND_ON, COLLECT, PARTS };
static part parts[PARTS] = {{"begin a marking", 0, 0}, {"hand on", 0, 0}, {"collect", 0, 0}};

/* A call that takes memory is made once more without. */
#define TWICE(answer, call)                                                 \
    do {                                                                    \
        (answer) = (call);                                                  \
        if ((answer).status == COMPRESSOR_OUT_OF_MEMORY) (answer) = (call); \
    } while (0)

static void expect_done(const char *call, compressor_answer a) {
    if (a.status != COMPRESSOR_DONE) heap_broken(call, a);
}

/* A page leads to what was not marked, or somebody wrote to from-space: a fault of this file. */
static void refused(uint64_t page, compressor_answer a) {
    (void)page;
    heap_broken("compressor_pages_build", a);
}

/* The words of a memory: those that may be live, new objects, and what is made until all have stopped. */
static uint64_t all_words(void) {
    return heap.options.limit + 2 * own.fresh;
}

/* So many words are objects, where the slide puts them. */
static const char *deal(uint64_t live) {
    uint32_t k;
    compressor_space_in(&own.space, EDITION, touch_words(), all_words(), live);
    own.space.limit = live + own.fresh - own.early;
    own.left = own.space.room - live;
    for (k = 0; k < heap.options.evaluators; k++) compressor_buffer_empty(&heap.evaluators[k].buffer);
    return heap_keeps(live);
}

static const char *arrive(evaluator *e) {
    touch_enter(e->number); /* nothing slides before each of them has stopped once */
    return NULL;
}

static int help(void) {
    return 0;
}

static void wake(void) {}

/* The slide ends: what is not home yet is built here. */
static void end_slide(void) {
    if (!own.is_sliding) return;
    compressor_survey_drop(&own.old);
    expect_done("compressor_pages_end", touch_end(&own.old));
    if (own.has_tables) expect_done("compressor_survey_return", compressor_survey_return(&own.old, &own.tables));
    own.is_sliding = own.has_tables = 0;
}

/* The marking. */

static void all_mark(int is_marking) {
    uint32_t k;
    for (k = 0; k < heap.options.evaluators; k++) work_marks(&own.kept[k], is_marking);
    own.is_marking = heap.is_within = is_marking;
}

static void begin_marking(void) {
    const uint64_t room = own.space.room, end = own.space.used + own.early;
    end_slide();
    marking_begin(&own.met_here, heap.roots, heap.root_count, ++own.markings);
    all_mark(1);
    own.has_handed_on = 0;
    own.used_at_start = own.space.used;
    own.space.limit = end < room ? end : room;
}

/* Called by whoever marks, without the lock: nothing waits any more in this marking, which may have ended. */
static void is_marked(uint64_t number) {
    pthread_mutex_lock(&heap.lock);
    if (own.is_marking && number == own.markings) {
        compressor_survey_drop(&own.old);
        heap_want_stop();
    }
    pthread_mutex_unlock(&heap.lock);
}

/* What the evaluators have kept goes to whoever marks. Answers how many objects that is. */
static uint64_t hand_on(void) {
    uint64_t count = 0;
    uint32_t k;
    for (k = 0; k < heap.options.evaluators; k++) {
        count += (uint64_t)(own.kept[k].barrier.next - own.kept[k].own->objects);
        work_hand_on(&own.kept[k]);
    }
    return count;
}

/* Whether its bits are good. The next one begins so early that it ends in time, with as many words to spare. */
static int end_marking(void) {
    const uint64_t twice = 2 * (own.space.used - own.used_at_start), least = own.fresh / 4, most = own.fresh - least;
    uint32_t k;
    int is_good;
    own.early = twice < least ? least : twice > most ? most : twice;
    hand_on();
    is_good = marking_finish(&own.met_here);
    for (k = 0; k < heap.options.evaluators; k++) work_drop(&own.kept[k]); /* what had no memory to be handed on */
    all_mark(0);
    return is_good;
}

/* The collection. */

/* No word of the heap is looked at: each page asks when it is built. */
static compressor_answer survey_by_bits(compressor_survey *survey) {
    const size_t blocks = (own.space.used + 63) / 64;
    return compressor_survey_by_bits(EDITION, own.space.used, heap.roots, heap.root_count, marking_marks(), blocks,
                                     marking_live(), blocks, survey);
}

/* By the bits, if there are any; else, or if that keeps more than may live, by the roots. */
static compressor_answer survey_by(int has_bits, compressor_survey *survey) {
    compressor_answer a = {COMPRESSOR_OUT_OF_MEMORY, 0, 0};
    if (has_bits) TWICE(a, survey_by_bits(survey));
    if (a.status == COMPRESSOR_DONE && a.value <= heap.options.limit) {
        own.by_bits++;
        return a;
    }
    own.refused += a.status != COMPRESSOR_DONE && a.status != COMPRESSOR_OUT_OF_MEMORY;
    compressor_survey_drop(survey);
    TWICE(a, compressor_survey_by_roots_lent(&own.tables, EDITION, own.space.words, own.space.used, heap.roots,
                                             heap.root_count, survey));
    own.has_tables = a.status == COMPRESSOR_DONE;
    return a;
}

/* By one call, which takes no memory. */
static const char *collect_at_once(void) {
    compressor_answer a;
    touch_moved();
    a = compressor_collect_lent(&own.tables, EDITION, own.space.words, own.space.used, heap.roots, heap.root_count,
                                touch_words(), own.space.room);
    expect_done("compressor_collect_lent", a);
    own.at_once++;
    return deal(a.value);
}

static const char *collect(int by_roots) {
    compressor_survey survey = COMPRESSOR_EMPTY;
    const uint64_t used = own.space.used;
    const int was_marking = own.is_marking, has_bits = was_marking && end_marking() && !by_roots;
    compressor_answer a;
    end_slide(); /* a marking began after its end */
    a = survey_by(has_bits, &survey);
    if (was_marking) marking_clear(used);
    if (a.status == COMPRESSOR_OUT_OF_MEMORY) return collect_at_once();
    expect_done("compressor_survey_by_roots_lent", a);
    expect_done("compressor_survey_forward", compressor_survey_forward(&survey, heap.roots, heap.root_count));
    own.missing += touch_begin(&survey, used, a.value, 0);
    own.at_once += touch.count == 0;
    own.is_sliding = 1;
    return deal(a.value);
}

static const char *turn(void) {
    const uint64_t since = heap_now();
    const int is_full = own.is_full, is_due = compressor_space_due(&own.space);
    const char *fault;
    own.is_full = 0;
    if (own.is_sliding) own.late += touch.left;
    if (!is_full && !own.is_marking) {
        begin_marking();
        heap_time(&parts[START], since);
        return NULL;
    }
    if (!is_full && !is_due && !own.has_handed_on && hand_on() != 0) {
        own.has_handed_on = 1;
        own.again++;
        marking_again(own.markings);
        heap_time(&parts[HAND_ON], since);
        return NULL;
    }
    fault = collect(is_full);
    heap_time(&parts[COLLECT], since);
    return fault;
}

/* Start and end. */

static const char *start(const uint64_t *words, size_t word_count) {
    const uint32_t n = heap.options.evaluators;
    const char *fault;
    uint32_t k;
    own.fresh = (uint64_t)n * heap.options.pages * COMPRESSOR_PAGE_WORDS;
    own.early = own.fresh / 2;
    if (word_count > heap.options.limit) return "OutOfMemory";
    fault = touch_open(TOUCH_BY, all_words(), PAGE, n, &own.met, refused);
    if (fault) return fault;
    if (compressor_tables_reserve(all_words(), &own.tables).status != COMPRESSOR_DONE) return "OutOfMemory";
    fault = deal(word_count);
    if (fault) return fault;
    memcpy(own.space.words, words, word_count * sizeof *words);
    for (k = 0; k < n; k++)
        if (!work_begin(&own.kept[k])) return "OutOfMemory";
    if (!work_begin(&own.met_here)) return "OutOfMemory";
    return marking_start(&own.space, all_words(), 1, MARKERS, is_marked);
}

static const char *end(void) {
    uint32_t k;
    for (k = 0; k < MOST_EVALUATORS; k++) work_end(&own.kept[k]);
    work_end(&own.met_here);
    marking_end();
    end_slide();
    compressor_survey_drop(&own.old);
    compressor_tables_drop(&own.tables);
    if (touch.met) touch_close();
    return NULL;
}

static void tell(FILE *to) {
    uint64_t slowest = 0;
    uint32_t k;
    for (k = 0; k < heap.options.evaluators; k++) heap_raise(&slowest, heap.evaluators[k].slowest_call);
    heap_tell_parts(to, parts, PARTS);
    fprintf(to, "collections by bits %llu, refused ones %llu, by one call %llu\n", (unsigned long long)own.by_bits,
            (unsigned long long)own.refused, (unsigned long long)own.at_once);
    fprintf(to, "stops that handed on %llu\n", (unsigned long long)own.again);
    fprintf(to, "pages not home after a stop %llu, and at the next one %llu\n", (unsigned long long)own.missing,
            (unsigned long long)own.late);
    fprintf(to, "slowest call of an evaluator %.1f us\n", heap_micro(slowest));
}

/* Objects. */

/* Who took so many words builds pages, or marks: so all are home, or marked, when half of the words up to the next stop
   were taken. */
static void pay_for(evaluator *e, uint64_t words) {
    const uint64_t since = heap_now();
    if (!touch_all_home()) touch_step(touch.count * words / ((own.fresh - own.early) / 2 + 1) + 1);
    if (own.is_marking) work_step(&own.kept[e->number], own.used_at_start * words / (own.early / 2 + 1) + 1);
    heap_raise(&e->slowest_call, heap_now() - since);
}

static uint64_t used_now(void) {
    return __atomic_load_n(&own.space.used, __ATOMIC_RELAXED);
}

/* Its buffer has not so many words that are zeroed. */
static uint64_t make_slowly(evaluator *e, uint64_t header, uint64_t words) {
    for (;;) {
        uint64_t before, made;
        if (e->buffer.last - e->buffer.at < words && compressor_space_due(&own.space)) heap_meet(e);
        before = used_now();
        made = compressor_new_slowly(&own.space, &e->buffer, header, words);
        if (made != 0) {
            if (used_now() != before) pay_for(e, used_now() - before);
            return made;
        }
        __atomic_store_n(&own.is_full, 1, __ATOMIC_RELAXED);
        heap_collect(e);
        if (words > own.left) heap_fail(e, "OutOfMemory", "");
    }
}

static void make(evaluator *e, slot to, compressor_shape shape) {
    const uint64_t header = heap_shape_header(shape), words = compressor_shape_words(shape);
    const int has_room = e->buffer.end - e->buffer.at >= words;
    const uint64_t made = has_room ? compressor_new(&own.space, &e->buffer, header, words)
                                   : make_slowly(e, header, words);
    work_new(&own.space, &own.kept[e->number], made, words);
    e->stack[to] = made;
}

/* The word at this address, whose page is home then. */
static uint64_t load(uint64_t address) {
    compressor_touch_word(&own.met, address);
    return __atomic_load_n(compressor_at(&own.space, address), __ATOMIC_ACQUIRE);
}

static uint32_t kind_of(evaluator *e, slot object) {
    return COMPRESSOR_TAG_OF(load(e->stack[object]));
}

static void ref(evaluator *e, slot to, slot object, uint32_t field) {
    e->stack[to] = load(e->stack[object] + 1 + field);
}

static void set_ref(evaluator *e, slot object, uint32_t field, slot value) {
    compressor_touch_word(&own.met, e->stack[object] + 1 + field);
    compressor_store_barrier(&own.space, &own.kept[e->number].barrier, e->stack[object], field, e->stack[value]);
}

/* The place of a data word, counted behind the header. */
static uint64_t place_of(uint64_t object, uint32_t field) {
    return (uint64_t)compressor_shape_of(EDITION, load(object)).refs + field;
}

static uint64_t word(evaluator *e, slot object, uint32_t field) {
    const uint64_t at = e->stack[object];
    return load(at + 1 + place_of(at, field));
}

static void set_word(evaluator *e, slot object, uint32_t field, uint64_t value) {
    const uint64_t at = e->stack[object], k = place_of(at, field);
    compressor_touch_word(&own.met, at + 1 + k);
    compressor_store_release(&own.space, at, k, value);
}

const collector collector_by_touch = {"touch", (uint64_t)1 << 31, start, arrive, turn, help, wake, end, tell, make,
                                      kind_of, ref, set_ref, word, set_word, NULL, NULL};
