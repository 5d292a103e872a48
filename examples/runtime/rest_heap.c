/* rest_heap.c: a heap at rest. It lies in memory of the program, which reads, writes and allocates there with no call.

   Of a cycle:
   1. An evaluator whose buffer has no room wants a stop (heap.c).
   2. The last one to arrive makes the one call that collects, within the memory. The tables for it were made at the
      start, so it allocates nothing. Of a large heap, and of one with ephemerons or guardians (weak_heap.c), it makes
      the survey alone; then all slide it into a second memory, each a part, and the two memories change places.
   3. It deals each evaluator a new buffer, of zeroed words behind the live ones. What lies behind all buffers is for
      objects of more than MOST_WORDS words, each of which has words of its own.

   An evaluator makes objects in its own buffer. It stores a reference by release, and loads it by acquire: so whoever
   finds an object finds its header and its fields.

   With -DYOUNG what a collection left is old, and stays in the next ones: a store marks the card of its word. Where the
   rule of compressor_rest.h says so, or there is no room, all is collected. With -DAGING an object is old once it
   survived two. While there are ephemerons or guardians all is collected, and what was old is not known after that. */
#include "collector.h"

#include <stdlib.h>
#include <string.h>

enum { LARGE = 50000 }; /* live words of a heap that all evaluators slide */

#if defined(AGING)
enum { IS_YOUNG = 1 };
static const enum compressor_ages ages = COMPRESSOR_AGING;
#elif defined(YOUNG)
enum { IS_YOUNG = 1 };
static const enum compressor_ages ages = COMPRESSOR_YOUNG;
#else
enum { IS_YOUNG = 0 };
static const enum compressor_ages ages = COMPRESSOR_ALL;
#endif

static struct {
    compressor_space space;
    compressor_tables tables;
    uint64_t *words;
    uint64_t *second; /* memory; null until one is wanted, if there is one evaluator */
    uint64_t left;    /* words behind all buffers, after the last collection */
    /* of a turn that all make: parts of the live words and of the roots, by a survey and its shares */
    compressor_survey surveys[MOST_EVALUATORS];
    uint64_t live;
    uint32_t parts, begun, done;
    uint64_t turns_of_all;
    /* with -DYOUNG or -DAGING */
    compressor_old old;
    unsigned char *cards;
    int wants_all; /* the next collection is one of all: there is no room, or the tables know of another memory */
    uint64_t young_turns;
} rest;

static part collection = {"collection", 0, 0};

/* The words of a buffer. */
static uint64_t buffer_words(void) {
    return (uint64_t)heap.options.pages * COMPRESSOR_PAGE_WORDS;
}

/* The words of a memory: those that may be live, and all buffers. */
static uint64_t all_words(void) {
    return heap.options.limit + heap.options.evaluators * buffer_words();
}

/* So many words of the memory are objects. Behind them each evaluator gets a buffer. */
static const char *deal(uint64_t live) {
    const uint64_t words = buffer_words();
    const char *fault = heap_keeps(live);
    uint32_t k;
    if (fault) return fault;
    compressor_space_in(&rest.space, EDITION, rest.words, all_words(), live);
    for (k = 0; k < heap.options.evaluators; k++) {
        compressor_buffer *own = &heap.evaluators[k].buffer;
        uint64_t taken = 0;
        own->at = compressor_space_take(&rest.space, words, words, &taken);
        if (own->at == 0) return "OutOfMemory"; /* an edition has no more words */
        own->end = own->last = own->at + taken;
    }
    rest.left = rest.space.room - rest.space.used;
    return NULL;
}

static const char *start(const uint64_t *words, size_t word_count) {
    const compressor_answer a = compressor_tables_reserve(all_words(), &rest.tables);
    if (a.status != COMPRESSOR_DONE) return "OutOfMemory";
    rest.words = (uint64_t *)calloc(all_words(), sizeof *rest.words);
    if (!rest.words || word_count > heap.options.limit) return "OutOfMemory";
    if (IS_YOUNG) {
        rest.cards = (unsigned char *)calloc(compressor_cards_of(all_words()), 1);
        if (!rest.cards || compressor_old_reserve(all_words(), &rest.old).status != COMPRESSOR_DONE)
            return "OutOfMemory";
    }
    if (heap.options.evaluators > 1) {
        rest.second = (uint64_t *)calloc(all_words(), sizeof *rest.second);
        if (!rest.second) return "OutOfMemory";
    }
    memcpy(rest.words, words, word_count * sizeof *words);
    return deal(word_count);
}

static const char *arrive(evaluator *e) {
    (void)e;
    return NULL;
}

/* The turn. */

/* Slides a part of the live words, and forwards a part of the roots. */
static void do_part(uint32_t k) {
    size_t count;
    uint64_t first = compressor_part(rest.live, rest.parts, k, &count);
    compressor_answer a = compressor_survey_slide(&rest.surveys[k], rest.words, rest.space.used, first,
                                                  rest.second + first, count);
    if (a.status != COMPRESSOR_DONE) heap_broken("compressor_survey_slide", a);
    first = compressor_part(heap.root_count, rest.parts, k, &count);
    a = compressor_survey_forward(&rest.surveys[k], heap.roots + first, count);
    if (a.status != COMPRESSOR_DONE) heap_broken("compressor_survey_forward", a);
}

static int help(void) {
    uint32_t k = rest.begun;
    if (k == rest.parts) return 0;
    rest.begun++;
    pthread_mutex_unlock(&heap.lock);
    do_part(k);
    pthread_mutex_lock(&heap.lock);
    if (++rest.done == rest.parts) pthread_cond_broadcast(&heap.changed);
    return 1;
}

/* Slides so many words, by the survey and its shares. Without memory for a share there are fewer parts. Whoever is free
   does the next part: nobody waits for one who has not begun. */
static void slide_by_all(uint64_t live) {
    uint64_t *old = rest.words;
    uint32_t parts = 1, k;
    while (parts < heap.options.evaluators &&
           compressor_survey_share(&rest.surveys[0], &rest.surveys[parts]).status == COMPRESSOR_DONE)
        parts++;
    rest.live = live;
    rest.begun = rest.done = 0;
    rest.parts = parts;
    pthread_cond_broadcast(&heap.changed);
    while (help()) continue;
    while (rest.done < parts) pthread_cond_wait(&heap.changed, &heap.lock);
    for (k = 1; k < parts; k++) compressor_survey_drop(&rest.surveys[k]);
    rest.words = rest.second;
    rest.second = old;
}

/* Answers 0, and does nothing, if there is no memory for the survey, some 200 bytes. */
static int collect_by_all(void) {
    compressor_answer a = compressor_survey_by_roots_lent(&rest.tables, EDITION, rest.words, rest.space.used,
                                                          heap.roots, heap.root_count, &rest.surveys[0]);
    if (a.status == COMPRESSOR_OUT_OF_MEMORY) return 0;
    if (a.status != COMPRESSOR_DONE) heap_broken("compressor_survey_by_roots_lent", a);
    slide_by_all(a.value);
    a = compressor_survey_return(&rest.surveys[0], &rest.tables);
    if (a.status != COMPRESSOR_DONE) heap_broken("compressor_survey_return", a);
    rest.turns_of_all++;
    return 1;
}

/* With ephemerons or guards the survey takes memory of its own, and its slide the second memory. */
static const char *collect_weak(void) {
    const char *fault;
    compressor_answer a;
    if (!rest.second) rest.second = (uint64_t *)calloc(all_words(), sizeof *rest.second);
    if (!rest.second) return "OutOfMemory";
    a = heap_survey_weak(rest.words, rest.space.used, &rest.surveys[0]);
    if (a.status == COMPRESSOR_OUT_OF_MEMORY) return "OutOfMemory";
    if (a.status != COMPRESSOR_DONE) heap_broken("compressor_survey_guarded", a);
    fault = heap_judge_before(rest.words, rest.space.used, &rest.surveys[0]);
    slide_by_all(a.value);
    if (!fault) fault = heap_judge_after(rest.words, rest.live);
    heap_settle_weak(&rest.surveys[0], rest.words);
    compressor_survey_drop(&rest.surveys[0]);
    rest.wants_all = 1;
    return fault;
}

static void collect_in_place(void) {
    const compressor_answer a = compressor_collect_in_place_lent(&rest.tables, EDITION, rest.words, rest.space.used,
                                                                 heap.roots, heap.root_count);
    if (a.status != COMPRESSOR_DONE) heap_broken("compressor_collect_in_place_lent", a);
    rest.live = a.value;
}

static const char *collect_old(enum compressor_ages which) {
    compressor_answer a;
    const char *fault = NULL;
    /* of a collection that keeps what died old the judge would say that it kept too much */
    if (which == COMPRESSOR_ALL) fault = heap_judge_before(rest.words, rest.space.used, NULL);
    if (fault) return fault;
    a = compressor_space_collect(&rest.space, &rest.old, which, rest.cards, heap.roots, heap.root_count);
    if (a.status != COMPRESSOR_DONE) heap_broken("compressor_space_collect", a);
    rest.live = a.value;
    if (which == COMPRESSOR_ALL) return heap_judge_after(rest.words, rest.live);
    rest.young_turns++;
    return NULL;
}

/* What died old is dropped before the program is said to have no memory. */
static const char *collect_by_age(void) {
    const int wants_all = rest.wants_all || compressor_space_wants_all(&rest.space, &rest.old, rest.cards, 0);
    const char *fault = collect_old(wants_all ? COMPRESSOR_ALL : ages);
    rest.wants_all = 0;
    return !fault && rest.live > heap.options.limit ? collect_old(COMPRESSOR_ALL) : fault;
}

static const char *collect(void) {
    const char *fault;
    if (IS_YOUNG) return collect_by_age();
    fault = heap_judge_before(rest.words, rest.space.used, NULL);
    if (fault) return fault;
    if (heap.options.evaluators == 1 || heap.live <= LARGE || !collect_by_all()) collect_in_place();
    return heap_judge_after(rest.words, rest.live);
}

static const char *turn(void) {
    const uint64_t since = heap_now();
    const char *fault = heap_has_weak() ? collect_weak() : collect();
    if (!fault) fault = deal(rest.live);
    heap_time(&collection, since);
    return fault;
}

static void wake(void) {}

static const char *end(void) {
    heap_drop_weak();
    compressor_tables_drop(&rest.tables);
    compressor_old_return(&rest.old);
    free(rest.cards);
    free(rest.words);
    free(rest.second);
    return NULL;
}

static void tell(FILE *to) {
    heap_tell_parts(to, &collection, 1);
    fprintf(to, "collections by all evaluators %llu\n", (unsigned long long)rest.turns_of_all);
    if (IS_YOUNG) fprintf(to, "collections of what is young %llu\n", (unsigned long long)rest.young_turns);
}

/* Objects. */

/* An object with words of its own. Others may be faster to take what a collection leaves. */
static uint64_t make_large(evaluator *e, uint64_t header, uint64_t words) {
    uint64_t made, taken = 0;
    while ((made = compressor_space_take(&rest.space, words, words, &taken)) == 0) {
        __atomic_store_n(&rest.wants_all, 1, __ATOMIC_RELAXED);
        heap_collect(e);
        if (words > rest.left) heap_fail(e, "OutOfMemory", "");
    }
    *compressor_at(&rest.space, made) = header;
    return made;
}

static void make(evaluator *e, slot to, compressor_shape shape) {
    const uint64_t header = heap_shape_header(shape), words = compressor_shape_words(shape);
    if (words > MOST_WORDS) {
        e->stack[to] = make_large(e, header, words);
        return;
    }
    /* a new buffer has room for any other object */
    while (e->buffer.end - e->buffer.at < words) heap_collect(e);
    e->stack[to] = compressor_new(&rest.space, &e->buffer, header, words);
}

static uint32_t kind_of(evaluator *e, slot object) {
    return COMPRESSOR_TAG_OF(*compressor_at(&rest.space, e->stack[object]));
}

static void ref(evaluator *e, slot to, slot object, uint32_t field) {
    e->stack[to] = compressor_load_acquire(&rest.space, e->stack[object], field);
}

static void store(uint64_t object, uint64_t k, uint64_t value) {
    if (IS_YOUNG) compressor_store_card(&rest.space, rest.cards, object, k, value);
    else compressor_store_release(&rest.space, object, k, value);
}

static void set_ref(evaluator *e, slot object, uint32_t field, slot value) {
    store(e->stack[object], field, e->stack[value]);
}

/* Where weak word or data word `field` of an object is, counted behind its header: no object has both. */
static uint64_t place_of(uint64_t object, uint32_t field) {
    return (uint64_t)compressor_shape_at(&rest.space, object).refs + field;
}

static uint64_t word(evaluator *e, slot object, uint32_t field) {
    const uint64_t at = e->stack[object];
    return compressor_load_acquire(&rest.space, at, place_of(at, field));
}

static void set_word(evaluator *e, slot object, uint32_t field, uint64_t value) {
    const uint64_t at = e->stack[object];
    compressor_store_release(&rest.space, at, place_of(at, field), value);
}

static void weak(evaluator *e, slot to, slot object, uint32_t field) {
    e->stack[to] = word(e, object, field);
}

static void set_weak(evaluator *e, slot object, uint32_t field, slot value) {
    const uint64_t at = e->stack[object];
    store(at, place_of(at, field), e->stack[value]);
}

/* An edition's most words of an object: whether there is so much room is another question. */
const collector collector_at_rest = {"rest", (uint64_t)1 << 31, start, arrive, turn, help, wake, end, tell, make,
                                     kind_of, ref, set_ref, word, set_word, weak, set_weak};
