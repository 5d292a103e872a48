/* The loops of the program timed_calls, made from C: one mutator, on a heap whose pages are all built. It takes the
   same words and prints the same lines, and has one more loop, 'touch': touches of built pages, whose answers are 0.

   timed_from_c CALLS OBJECTS STEP HEAPS LOOP.. : makes CALLS calls on each of HEAPS heaps of OBJECTS objects; the
   object STEP further on is the one that an object refers to, and that is written next. */
#include "compressor.h"

#include <stdio.h>
#include <stdlib.h>
#include <string.h>

#define FROM_SPACE COMPRESSOR_FROM_SPACE
#define TO_SPACE COMPRESSOR_TO_SPACE
#define OBJECT_WORDS 3u /* a header, a reference and a data word */
#define HEADER (1u + (1u << 16))
#define MOST_WORDS 1048576u
#define FRESH_PAGES 4096u

struct asked {
    uint32_t calls, objects, step, heaps;
};

/* How many calls were done, the sum of their answers, and the words of the objects that were made. */
struct done {
    uint64_t calls, sum, words;
};

static void fail(const char *what, compressor_answer a) {
    fprintf(stderr, "timed_from_c: %s answered %s, %llu\n", what, compressor_status_text(a.status),
            (unsigned long long)a.value);
    exit(1);
}

/* the value of an answer that is done */
static uint64_t value_of(const char *what, compressor_answer a) {
    if (a.status != COMPRESSOR_DONE) fail(what, a);
    return a.value;
}

static uint32_t further(const struct asked *asked, uint32_t k) {
    k += asked->step;
    return k < asked->objects ? k : k - asked->objects;
}

/* The heap of these objects, all marked; each data word is the object's number. */
static void make_heap(compressor_heap *heap, const struct asked *asked) {
    size_t count = (size_t)asked->objects * OBJECT_WORDS;
    uint64_t *words = (uint64_t *)malloc(count * sizeof *words);
    uint32_t *marks = (uint32_t *)malloc(asked->objects * sizeof *marks);
    uint32_t k;
    if (!words || !marks) {
        fputs("timed_from_c: out of memory\n", stderr);
        exit(1);
    }
    for (k = 0; k < asked->objects; k++) {
        words[OBJECT_WORDS * k] = HEADER;
        words[OBJECT_WORDS * k + 1] = FROM_SPACE + (uint64_t)OBJECT_WORDS * further(asked, k);
        words[OBJECT_WORDS * k + 2] = k;
        marks[k] = OBJECT_WORDS * k;
    }
    value_of("compressor_heap_by_marks",
             compressor_heap_by_marks(1, words, count, marks, asked->objects, words, 0, heap));
    free(words);
    free(marks);
}

/* Reads references, each of the object that the read before answered. */
static void read_all(compressor_mutator *m, const struct asked *asked, struct done *done) {
    uint64_t object = TO_SPACE;
    uint32_t i;
    for (i = 0; i < asked->calls; i++, done->calls++) {
        object = value_of("compressor_mutator_read_ref", compressor_mutator_read_ref(m, object, 0));
        done->sum += object;
    }
}

/* Writes data words, each into the object that is a step further on. */
static void write_all(compressor_mutator *m, const struct asked *asked, struct done *done) {
    uint32_t i, k = 0;
    for (i = 0; i < asked->calls; i++, done->calls++) {
        uint64_t object = TO_SPACE + (uint64_t)OBJECT_WORDS * k;
        done->sum += value_of("compressor_mutator_write_data", compressor_mutator_write_data(m, object, 0, i));
        k = further(asked, k);
    }
}

static void make_all(compressor_mutator *m, const struct asked *asked, struct done *done) {
    uint32_t i;
    for (i = 0; i < asked->calls; i++, done->calls++, done->words += OBJECT_WORDS) {
        done->sum += value_of("compressor_mutator_alloc", compressor_mutator_alloc(m, HEADER));
    }
}

/* Touches built pages, each the page of the object that is a step further on. */
static void touch_all(compressor_mutator *m, const struct asked *asked, struct done *done) {
    uint32_t i, k = 0;
    for (i = 0; i < asked->calls; i++, done->calls++) {
        done->sum += value_of("compressor_mutator_touch", compressor_mutator_touch(m, (uint64_t)OBJECT_WORDS * k / 64));
        k = further(asked, k);
    }
}

/* The loop of this name, and whether there is one. */
static int run_loop(const char *name, compressor_mutator *m, const struct asked *asked, struct done *done) {
    if (!strcmp(name, "read")) read_all(m, asked, done);
    else if (!strcmp(name, "write")) write_all(m, asked, done);
    else if (!strcmp(name, "alloc")) make_all(m, asked, done);
    else if (!strcmp(name, "touch")) touch_all(m, asked, done);
    else return !strcmp(name, "none");
    return 1;
}

/* As many fresh pages as may be, beside those of the heap. */
static uint32_t fresh_pages(const struct asked *asked) {
    const uint64_t words = (uint64_t)asked->objects * OBJECT_WORDS;
    const uint64_t rest = compressor_max_pages(1) - (words + COMPRESSOR_PAGE_WORDS - 1) / COMPRESSOR_PAGE_WORDS;
    return rest < FRESH_PAGES ? (uint32_t)rest : FRESH_PAGES;
}

/* The loop on one heap, all of whose pages are built first. */
static int run_once(const char *name, const struct asked *asked, struct done *done) {
    compressor_heap heap = COMPRESSOR_EMPTY;
    compressor_plan plan = COMPRESSOR_EMPTY;
    compressor_crew crew = COMPRESSOR_EMPTY;
    compressor_mutator m = COMPRESSOR_EMPTY;
    compressor_mutator_facts facts;
    uint64_t p;
    int known;
    make_heap(&heap, asked);
    value_of("compressor_heap_plan", compressor_heap_plan(&heap, &plan));
    value_of("compressor_plan_flip", compressor_plan_flip(&plan, 1, fresh_pages(asked), &crew));
    value_of("compressor_crew_take", compressor_crew_take(&crew, &m));
    value_of("compressor_mutator_facts_of", compressor_mutator_facts_of(&m, &facts));
    for (p = 0; p < facts.pages; p++) value_of("compressor_mutator_touch", compressor_mutator_touch(&m, p));
    known = run_loop(name, &m, asked, done);
    compressor_mutator_drop(&m);
    compressor_crew_drop(&crew);
    compressor_plan_drop(&plan);
    return known;
}

/* Whether the word is a number below 2^32. */
static int is_number(const char *word, uint32_t *number) {
    char *end;
    unsigned long long value = strtoull(word, &end, 10);
    *number = (uint32_t)value;
    return *word >= '0' && *word <= '9' && !*end && value <= 4294967295u;
}

int main(int count, char **words) {
    struct asked asked = {0, 0, 0, 0};
    int good = count > 5 && is_number(words[1], &asked.calls) && is_number(words[2], &asked.objects) &&
               is_number(words[3], &asked.step) && is_number(words[4], &asked.heaps) &&
               asked.objects <= MOST_WORDS / OBJECT_WORDS && asked.step < asked.objects;
    int at;
    for (at = 5; good && at < count; at++) {
        struct done done = {0, 0, 0};
        uint32_t i;
        for (i = 0; good && i < asked.heaps; i++) good = run_once(words[at], &asked, &done);
        if (good)
            printf("%s calls %llu sum %llu words %llu\n", words[at], (unsigned long long)done.calls,
                   (unsigned long long)done.sum, (unsigned long long)done.words);
    }
    if (good) return 0;
    fputs("timed_from_c: wants CALLS OBJECTS STEP HEAPS LOOP..\n", stderr);
    return 2;
}
