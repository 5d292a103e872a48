/* Three cycles by C: four threads read, write, make objects and sweep while the heap is compacted. Then a heap of
   edition three, with a large object. Prints what is wrong, or one line. A call for which there was no memory is made
   once more, so one allocation may be refused anywhere. It is standard C (C11), and C++ (C++17) as it stands. */
#include "compressor.h"

#include <pthread.h>
#include <stdio.h>
#include <stdlib.h>
#include <string.h>

#define FROM_SPACE COMPRESSOR_FROM_SPACE
#define TO_SPACE COMPRESSOR_TO_SPACE
#define THREADS 4
#define NODES 20000 /* every second one is marked */
#define LIVE (NODES / 2)
#define MADE 60
#define MANY 70000 /* references of the large object */

static void fail(const char *what, compressor_answer a) {
    printf("%s: %s, value %llu\n", what, compressor_status_text(a.status), (unsigned long long)a.value);
    exit(1);
}

/* Whether a call is made again: while a page is busy, and once if there is no memory. */
static int again(compressor_answer a, int *refusals) {
    return a.status == COMPRESSOR_BUSY || (a.status == COMPRESSOR_OUT_OF_MEMORY && (*refusals)++ == 0);
}

/* The call is made until it is settled, and what it answers goes into the variable. */
#define CALL(variable, call)                       \
    do {                                           \
        int refusals_ = 0;                         \
        do (variable) = (call);                    \
        while (again((variable), &refusals_));     \
    } while (0)

/* The call is done, and its value goes into the variable. */
#define GET(variable, call)                                     \
    do {                                                        \
        compressor_answer got_;                                 \
        CALL(got_, call);                                       \
        if (got_.status != COMPRESSOR_DONE) fail(#call, got_);  \
        (variable) = got_.value;                                \
    } while (0)

/* The call is done. */
#define DO(call)                                                \
    do {                                                        \
        compressor_answer did_;                                 \
        CALL(did_, call);                                       \
        if (did_.status != COMPRESSOR_DONE) fail(#call, did_);  \
    } while (0)

/* The call answers this status with this value. */
#define ANSWERS(call, is, number)                                                           \
    do {                                                                                    \
        compressor_answer told_;                                                            \
        CALL(told_, call);                                                                  \
        if (told_.status != (is) || told_.value != (number)) fail(#call, told_);            \
    } while (0)

#define IS(what)                               \
    do {                                       \
        if (!(what)) {                         \
            printf("not so: %s\n", #what);     \
            exit(1);                           \
        }                                      \
    } while (0)

/* zeros, asked for once more if there are none */
static void *zeros(size_t count, size_t size) {
    void *all = calloc(count, size);
    if (all == 0) all = calloc(count, size);
    IS(all != 0);
    return all;
}

/* The header word of an object of edition one, with these counts. */
static uint64_t header_of(uint32_t refs, uint32_t data, uint32_t tag) {
    const compressor_shape shape = {refs, 0, data, tag};
    uint64_t header = 0;
    IS(compressor_shape_header(1, shape, &header));
    return header;
}

struct worker {
    compressor_mutator mutator;
    uint64_t built;
    uint64_t sum;
};

/* Root 0 leads to the list, root 1 + k to the anchor of mutator k. */
static void *work(void *given) {
    struct worker *w = (struct worker *)given;
    compressor_mutator *m = &w->mutator;
    compressor_mutator_facts facts;
    uint64_t at, anchor, before = 0;
    DO(compressor_mutator_facts_of(m, &facts));
    IS(facts.mutators == THREADS && facts.number < THREADS && facts.edition == 1 && facts.roots == 1 + THREADS);
    for (uint64_t p = facts.number; p < facts.compacted_pages; p += THREADS) {
        uint64_t built;
        GET(built, compressor_mutator_touch(m, p));
        w->built += built;
    }
    GET(at, compressor_mutator_root(m, 0));
    for (uint64_t i = 0; at != 0; i++) {
        uint64_t value;
        GET(value, compressor_mutator_read_data(m, at, 0));
        if (i % THREADS == facts.number) {
            w->sum += value;
            DO(compressor_mutator_write_data(m, at, 0, value + 1));
        }
        GET(at, compressor_mutator_read_ref(m, at, 0));
    }
    for (uint64_t i = 0; i < MADE; i++) {
        uint64_t made;
        GET(made, compressor_mutator_alloc(m, header_of(1, 1, 7)));
        DO(compressor_mutator_write_data(m, made, 0, 1000000ull * facts.number + i));
        DO(compressor_mutator_write_ref(m, made, 0, before));
        before = made;
    }
    GET(anchor, compressor_mutator_root(m, 1 + facts.number));
    DO(compressor_mutator_write_ref(m, anchor, 0, before));
    return 0;
}

/* The words of a finished heap; zeros for a page that nobody built. */
static uint64_t *words_of(compressor_end *end, uint64_t pages) {
    uint64_t *all = (uint64_t *)zeros(pages, 64 * sizeof *all);
    for (uint64_t p = 0; p < pages; p++) {
        compressor_answer a;
        CALL(a, compressor_end_page(end, p, all + 64 * p));
        if (a.status != COMPRESSOR_DONE && a.status != COMPRESSOR_NOT_BUILT) fail("compressor_end_page", a);
    }
    return all;
}

static int below(const void *a, const void *b) {
    uint32_t x = *(const uint32_t *)a, y = *(const uint32_t *)b;
    return (x > y) - (x < y);
}

/* The first heap: nodes of a reference and a data word, then the anchors, of one reference each. */
static void make_heap(compressor_heap *heap) {
    size_t count = 3 * NODES + 2 * THREADS;
    uint64_t *words = (uint64_t *)zeros(count, sizeof *words);
    uint32_t *marks = (uint32_t *)zeros(LIVE + THREADS, sizeof *marks);
    uint64_t roots[1 + THREADS];
    for (size_t i = 0; i < NODES; i++) {
        words[3 * i] = header_of(1, 1, 0);
        words[3 * i + 1] = i + 2 < NODES ? FROM_SPACE + 3ull * (i + 2) : 0;
        words[3 * i + 2] = i;
        if (i % 2 == 1) marks[i / 2] = (uint32_t)(3 * i);
    }
    roots[0] = FROM_SPACE + 3;
    for (size_t k = 0; k < THREADS; k++) {
        words[3 * NODES + 2 * k] = header_of(1, 0, 0);
        marks[LIVE + k] = (uint32_t)(3 * NODES + 2 * k);
        roots[1 + k] = FROM_SPACE + 3ull * NODES + 2 * k;
    }
    size_t marked = LIVE + THREADS, rooted = 1 + THREADS;
    compressor_plan plan = COMPRESSOR_EMPTY;
    ANSWERS(compressor_heap_plan(heap, &plan), COMPRESSOR_EMPTY_HANDLE, 0);
    ANSWERS(compressor_heap_by_marks(9, words, count, marks, marked, roots, rooted, heap), COMPRESSOR_BAD_EDITION, 9);
    ANSWERS(compressor_heap_by_roots(0, words, count, roots, rooted, heap), COMPRESSOR_BAD_EDITION, 0);
    ANSWERS(compressor_heap_by_marks(1, words, count - 1, marks, marked, roots, rooted, heap),
            COMPRESSOR_OBJECT_PAST_END, count - 2);
    DO(compressor_heap_by_marks(1, words, count, marks, marked, roots, rooted, heap));
    ANSWERS(compressor_heap_by_marks(1, words, count, marks, marked, roots, rooted, heap), COMPRESSOR_NOT_EMPTY, 0);
    ANSWERS(compressor_heap_by_roots(1, words, count, roots, rooted, heap), COMPRESSOR_NOT_EMPTY, 0);
    free(words);
    free(marks);
}

/* Each worker's thread; answers how many pages they built. */
static uint64_t run_threads(struct worker *workers) {
    pthread_t threads[THREADS];
    uint64_t built = 0, sum = 0;
    for (int k = 0; k < THREADS; k++) {
        int refused = pthread_create(&threads[k], 0, work, &workers[k]);
        if (refused) refused = pthread_create(&threads[k], 0, work, &workers[k]);
        IS(!refused);
    }
    for (int k = 0; k < THREADS; k++) {
        pthread_join(threads[k], 0);
        built += workers[k].built;
        sum += workers[k].sum;
    }
    IS(sum == (uint64_t)LIVE * LIVE); /* the odd numbers below NODES */
    return built;
}

/* What one has made another knows after they met. */
static void meet_all(struct worker *workers) {
    compressor_mutator *m = &workers[0].mutator;
    for (int k = 1; k < THREADS; k++) DO(compressor_mutator_meet(m, &workers[k].mutator));
    for (uint64_t k = 0; k < THREADS; k++) {
        uint64_t anchor, at;
        GET(anchor, compressor_mutator_root(m, 1 + k));
        GET(at, compressor_mutator_read_ref(m, anchor, 0));
        for (uint64_t i = MADE; i-- > 0;) {
            ANSWERS(compressor_mutator_read_data(m, at, 0), COMPRESSOR_DONE, 1000000 * k + i);
            GET(at, compressor_mutator_read_ref(m, at, 0));
        }
        IS(at == 0);
    }
}

static void ask_too_much(compressor_mutator *m) {
    ANSWERS(compressor_mutator_read_ref(m, 0, 0), COMPRESSOR_NULL_OBJECT, 0);
    ANSWERS(compressor_mutator_read_data(m, TO_SPACE, 1), COMPRESSOR_NO_SUCH_FIELD, 1);
    ANSWERS(compressor_mutator_read_data(m, TO_SPACE, 65536), COMPRESSOR_NO_SUCH_FIELD, 65536);
    ANSWERS(compressor_mutator_write_ref(m, TO_SPACE, 0, TO_SPACE + 1), COMPRESSOR_NOT_A_START, TO_SPACE + 1);
    ANSWERS(compressor_mutator_alloc(m, header_of(65535, 2, 0)), COMPRESSOR_OBJECT_TOO_LARGE, 65538);
    ANSWERS(compressor_mutator_alloc(m, header_of(0, 64, 0)), COMPRESSOR_OBJECT_TOO_LARGE, 65);
    ANSWERS(compressor_mutator_touch(m, 1u << 20), COMPRESSOR_NO_SUCH_PAGE, 1u << 20);
}

/* The crew with all mutators of the workers, finished. A stranger of another crew is refused. */
static uint64_t finish_all(compressor_crew *crew, struct worker *workers, compressor_crew *other, compressor_end *end) {
    compressor_mutator stranger = COMPRESSOR_EMPTY;
    DO(compressor_crew_take(other, &stranger));
    ANSWERS(compressor_mutator_meet(&workers[0].mutator, &stranger), COMPRESSOR_OTHER_CREW, 0);
    ANSWERS(compressor_crew_give(crew, &stranger), COMPRESSOR_OTHER_CREW, 0);
    ANSWERS(compressor_crew_finish(crew, end), COMPRESSOR_MUTATOR_MISSING, 0);
    for (int k = 0; k < THREADS; k++) DO(compressor_crew_give(crew, &workers[k].mutator));
    ANSWERS(compressor_crew_give(crew, &workers[0].mutator), COMPRESSOR_EMPTY_HANDLE, 1);
    ANSWERS(compressor_crew_give(crew, &stranger), COMPRESSOR_OTHER_CREW, 0);
    DO(compressor_crew_give(other, &stranger));
    compressor_crew_drop(other);
    compressor_end_facts facts;
    uint64_t live;
    GET(live, compressor_crew_finish(crew, end));
    IS(live == 3ull * LIVE + 2 * THREADS + 3ull * THREADS * MADE);
    ANSWERS(compressor_crew_finish(crew, end), COMPRESSOR_EMPTY_HANDLE, 0);
    DO(compressor_end_facts_of(end, &facts));
    IS(facts.live_words == live && facts.mutators == THREADS && facts.rest_words == 64 * facts.pages);
    return live;
}

/* The list with all numbers one greater; the indices of its nodes, of the anchors and of the made objects go to kept,
   which has room for them. Answers how many there are. */
static size_t indices_of(compressor_end *end, uint32_t *kept) {
    compressor_end_facts facts;
    uint64_t at, *all, roots[1 + THREADS];
    size_t n = 0;
    DO(compressor_end_facts_of(end, &facts));
    all = words_of(end, facts.pages);
    ANSWERS(compressor_end_roots(end, roots, 0), COMPRESSOR_TOO_SHORT, 1 + THREADS);
    ANSWERS(compressor_end_roots(end, roots, 1 + THREADS), COMPRESSOR_DONE, 1 + THREADS);
    for (at = roots[0]; at != 0; at = all[at - TO_SPACE + 1]) {
        IS(all[at - TO_SPACE + 2] == 2 * n + 2);
        kept[n++] = (uint32_t)(at - TO_SPACE);
    }
    IS(n == LIVE);
    for (int k = 0; k < THREADS; k++)
        for (at = roots[1 + k]; at != 0; at = all[at - TO_SPACE + 1]) kept[n++] = (uint32_t)(at - TO_SPACE);
    IS(n == LIVE + THREADS + THREADS * MADE);
    free(all);
    return n;
}

/* The stamps of all entries are the numbers below their count: one for each write, and three for each made object and
   its link. */
static void check_stamps(compressor_end *end) {
    compressor_end_facts facts;
    uint64_t entries = LIVE + THREADS * (3 * MADE + 1), seen = 0;
    char *stamped = (char *)zeros(entries, 1);
    DO(compressor_end_facts_of(end, &facts));
    for (uint64_t p = 0; p < facts.pages; p++) {
        uint64_t buffer[64];
        compressor_entry entry;
        compressor_answer a;
        CALL(a, compressor_end_page(end, p, buffer));
        if (a.status == COMPRESSOR_NOT_BUILT) continue;
        if (a.status != COMPRESSOR_DONE) fail("compressor_end_page", a);
        for (uint64_t e = 0; e < a.value; e++, seen++) {
            DO(compressor_end_entry(end, p, e, &entry));
            IS(entry.stamp < entries && !stamped[entry.stamp] && entry.writer < THREADS && entry.offset < 64);
            stamped[entry.stamp] = 1;
        }
        ANSWERS(compressor_end_entry(end, p, a.value, &entry), COMPRESSOR_NO_SUCH_ENTRY, a.value);
    }
    IS(seen == entries);
    free(stamped);
}

/* A cycle by one mutator: the list is read from this root, and these words are live at the end. The next heap goes in,
   and the finished one comes out. */
static void read_list(compressor_heap *heap, uint64_t root, uint64_t live, compressor_end *end) {
    compressor_plan plan = COMPRESSOR_EMPTY;
    compressor_crew crew = COMPRESSOR_EMPTY;
    compressor_mutator m = COMPRESSOR_EMPTY;
    compressor_mutator_facts facts;
    uint64_t i = 0, at;
    DO(compressor_heap_plan(heap, &plan));
    DO(compressor_plan_flip(&plan, 1, 0, &crew));
    DO(compressor_crew_take(&crew, &m));
    compressor_plan_drop(&plan);
    GET(at, compressor_mutator_root(&m, root));
    for (; at != 0; i++) {
        ANSWERS(compressor_mutator_read_data(&m, at, 0), COMPRESSOR_DONE, 2 * i + 2);
        GET(at, compressor_mutator_read_ref(&m, at, 0));
    }
    IS(i == LIVE);
    DO(compressor_mutator_facts_of(&m, &facts));
    IS(facts.compacted_pages == (live + 63) / 64);
    DO(compressor_crew_give(&crew, &m));
    ANSWERS(compressor_crew_finish(&crew, end), COMPRESSOR_DONE, live);
}

/* A heap of edition three, marked by its roots: an object that they do not reach, and one of MANY references, whose
   last one leads to itself. */
static void large(void) {
    size_t count = 2 + 1 + MANY;
    uint64_t *words = (uint64_t *)zeros(count, sizeof *words), at, made;
    const compressor_shape many = {MANY, 0, 0, 0}, weak = {0, 1, 0, 0}, much = {0, 65535, 0, 0};
    uint64_t header = 0;
    words[0] = header_of(0, 1, 0);
    IS(compressor_shape_header(3, many, &words[2]) && compressor_shape_of(3, words[2]).refs == MANY);
    words[2 + MANY] = FROM_SPACE + 2;
    uint64_t roots[2] = {FROM_SPACE + 2, FROM_SPACE + 1};
    compressor_heap heap = COMPRESSOR_EMPTY;
    compressor_plan plan = COMPRESSOR_EMPTY;
    compressor_crew crew = COMPRESSOR_EMPTY;
    compressor_mutator m = COMPRESSOR_EMPTY;
    compressor_end end = COMPRESSOR_EMPTY;
    ANSWERS(compressor_heap_by_roots(1, words, count, roots, 1, &heap), COMPRESSOR_OBJECT_TOO_LONG, 2);
    ANSWERS(compressor_heap_by_roots(3, words, count, roots, 2, &heap), COMPRESSOR_BAD_ROOT, 1);
    DO(compressor_heap_by_roots(3, words, count, roots, 1, &heap));
    free(words);
    DO(compressor_heap_plan(&heap, &plan));
    DO(compressor_plan_flip(&plan, 1, 5000, &crew));
    DO(compressor_crew_take(&crew, &m));
    GET(at, compressor_mutator_root(&m, 0));
    IS(at == TO_SPACE);
    ANSWERS(compressor_mutator_read_ref(&m, at, MANY - 2), COMPRESSOR_DONE, 0);
    ANSWERS(compressor_mutator_read_ref(&m, at, MANY - 1), COMPRESSOR_DONE, at);
    DO(compressor_mutator_write_ref(&m, at, 65536, at));
    ANSWERS(compressor_mutator_read_ref(&m, at, 0), COMPRESSOR_DONE, 0);
    ANSWERS(compressor_mutator_read_ref(&m, at, 65536), COMPRESSOR_DONE, at);
    ANSWERS(compressor_mutator_read_ref(&m, at, MANY), COMPRESSOR_NO_SUCH_FIELD, MANY);
    IS(compressor_shape_header(3, much, &header));
    ANSWERS(compressor_mutator_alloc(&m, header), COMPRESSOR_OBJECT_TOO_LARGE, 65536);
    IS(compressor_shape_header(3, weak, &header));
    GET(made, compressor_mutator_alloc(&m, header));
    ANSWERS(compressor_mutator_header(&m, made), COMPRESSOR_DONE, header);
    GET(header, compressor_mutator_header(&m, at));
    IS(compressor_shape_of(3, header).refs == MANY);
    DO(compressor_crew_give(&crew, &m));
    ANSWERS(compressor_crew_finish(&crew, &end), COMPRESSOR_DONE, 1 + MANY + 2);
    DO(compressor_end_next_by_roots(&end, &at, 1, &heap));
    ANSWERS(compressor_heap_plan(&heap, &plan), COMPRESSOR_NOT_EMPTY, 1);
    compressor_plan_drop(&plan);
    DO(compressor_heap_plan(&heap, &plan));
    compressor_plan_drop(&plan);
}

int main(void) {
    static const char version_line[] = "compressor " COMPRESSOR_VERSION_TEXT "\n";
    compressor_heap heap = COMPRESSOR_EMPTY;
    compressor_plan plan = COMPRESSOR_EMPTY;
    compressor_crew crew = COMPRESSOR_EMPTY, other = COMPRESSOR_EMPTY;
    compressor_mutator none = COMPRESSOR_EMPTY;
    compressor_end end = COMPRESSOR_EMPTY;
    IS(compressor_version() == COMPRESSOR_VERSION);
    IS(strncmp(compressor_version_text(), version_line, sizeof version_line - 1) == 0);
    make_heap(&heap);
    DO(compressor_heap_plan(&heap, &plan));
    ANSWERS(compressor_heap_plan(&heap, &plan), COMPRESSOR_EMPTY_HANDLE, 0);
    ANSWERS(compressor_plan_flip(&plan, 65, 16, &crew), COMPRESSOR_BAD_MUTATORS, 65);
    ANSWERS(compressor_plan_flip(&plan, 257, 16, &crew), COMPRESSOR_BAD_MUTATORS, 257);
    ANSWERS(compressor_plan_flip(&plan, 1, 4097, &crew), COMPRESSOR_TOO_MANY_PAGES, 4096);
    ANSWERS(compressor_plan_flip(&plan, THREADS, 16, &crew), COMPRESSOR_DONE, THREADS);
    ANSWERS(compressor_plan_flip(&plan, 1, 0, &crew), COMPRESSOR_NOT_EMPTY, 1);
    ANSWERS(compressor_plan_flip(&plan, 1, 0, &other), COMPRESSOR_DONE, 1);
    compressor_plan_drop(&plan);

    /* the first cycle, by four threads */
    static struct worker workers[THREADS]; /* zeros: the handles are empty */
    for (int k = 0; k < THREADS; k++) {
        uint64_t number;
        GET(number, compressor_crew_take(&crew, &workers[k].mutator));
        IS(number < THREADS);
    }
    ANSWERS(compressor_crew_take(&other, &workers[0].mutator), COMPRESSOR_NOT_EMPTY, 1);
    ANSWERS(compressor_crew_take(&crew, &none), COMPRESSOR_NO_MUTATOR_LEFT, 0);
    ANSWERS(compressor_crew_finish(&crew, &end), COMPRESSOR_MUTATOR_MISSING, 0);
    uint64_t built = run_threads(workers);
    meet_all(workers);
    ask_too_much(&workers[0].mutator);
    uint64_t live = finish_all(&crew, workers, &other, &end);
    uint32_t *kept = (uint32_t *)zeros(LIVE + THREADS + THREADS * MADE, sizeof *kept);
    size_t n = indices_of(&end, kept);
    check_stamps(&end);

    /* the second cycle: all objects are kept, and slide over the unused ends of the fresh pages */
    uint32_t bad[2] = {1, 1};
    uint64_t roots[1 + THREADS], astray[1] = {TO_SPACE + 1};
    ANSWERS(compressor_end_roots(&end, roots, 1 + THREADS), COMPRESSOR_DONE, 1 + THREADS);
    ANSWERS(compressor_end_next_by_marks(&end, bad, 2, roots, 1 + THREADS, &heap), COMPRESSOR_MARK_NOT_START, 1);
    qsort(kept, n, sizeof *kept, below);
    ANSWERS(compressor_end_next_by_marks(&end, kept, n, astray, 1, &heap), COMPRESSOR_BAD_ROOT, 0);
    DO(compressor_end_next_by_marks(&end, kept, n, roots, 1 + THREADS, &heap));
    free(kept);
    read_list(&heap, 0, live, &end);

    /* the third cycle: its roots reach only the list; the anchors and what was made are dropped */
    uint64_t list[3] = {0, 0, TO_SPACE + 1};
    ANSWERS(compressor_end_roots(&end, roots, 1 + THREADS), COMPRESSOR_DONE, 1 + THREADS);
    list[1] = roots[0];
    ANSWERS(compressor_end_next_by_roots(&end, list, 3, &heap), COMPRESSOR_BAD_ROOT, 2);
    DO(compressor_end_next_by_roots(&end, list, 2, &heap));
    read_list(&heap, 1, 3ull * LIVE, &end);
    compressor_end_drop(&end);
    large();
    printf("three cycles: %llu live words, %llu pages built by %d threads in the sweep of the first\n",
           (unsigned long long)live, (unsigned long long)built, THREADS);
    return 0;
}
