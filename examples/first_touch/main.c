/* main.c: the command line, the threads, and what is told of them. */
#ifndef _POSIX_C_SOURCE
#define _POSIX_C_SOURCE 200809L
#endif
#include "programs.h"

#include <errno.h>
#include <pthread.h>
#include <stdlib.h>
#include <string.h>
#include <time.h>

static const char usage[] =
    "usage: first_touch [--way inline|mprotect|userfaultfd|once] [--once] [--threads 1..8] [--workers 0..4]\n"
    "                   [--live WORDS] [--page-words N] [--rounds N] [--change-words header|reference]\n"
    "                   [--mark-beside] [--markers 1..2] [--no-barrier]\n";

typedef struct thread {
    pthread_t thread;
    const options *chosen;
    const programs *of;
    uint32_t number;
    uint64_t sum, rest;
} thread;

static const char *const ways[] = {"once", "inline", "mprotect", "userfaultfd"};
static const char *const changes[] = {"nothing", "header", "reference"};

static void *run(void *it) {
    thread *const own = (thread *)it;
    mutator *const m = heap_enter(own->number);
    own->sum = own->of->run(m, own->chosen->live / own->chosen->threads, own->chosen->rounds, &own->rest);
    heap_leave(m);
    return NULL;
}

static void run_all(thread *threads, const options *chosen, const programs *of) {
    for (uint32_t k = 0; k < chosen->threads; k++) {
        thread *const own = &threads[k];
        own->chosen = chosen;
        own->of = of;
        own->number = k;
        if (pthread_create(&own->thread, NULL, run, own) != 0 && pthread_create(&own->thread, NULL, run, own) != 0)
            heap_fail("NoThread");
    }
    for (uint32_t k = 0; k < chosen->threads; k++) pthread_join(threads[k].thread, NULL);
}

static double processor_time(void) {
    struct timespec t;
    clock_gettime(CLOCK_PROCESS_CPUTIME_ID, &t);
    return (double)t.tv_sec * 1e3 + (double)t.tv_nsec / 1e6;
}

/* Runs the programs over a heap that slides in this way. */
static void run_heap(const options *chosen, thread *threads) {
    const double began = processor_time();
    const char *const error = heap_start(chosen);
    const programs *const of = chosen->way == MPROTECT || chosen->way == USERFAULTFD ? &programs_plain
                                                                                     : &programs_noticed;
    uint64_t rest = 0;
    if (error != NULL) {
        heap_end();
        heap_fail(error);
    }
    if (heap_way() != chosen->way) fprintf(stderr, "%s: not here, so %s\n", ways[chosen->way], ways[heap_way()]);
    of->begin(heap_enter(0));
    run_all(threads, chosen, of);
    for (uint32_t k = 0; k < chosen->threads; k++) rest += threads[k].rest;
    of->end(chosen->threads, rest);
    heap_end();
    heap_statistics(ways[heap_way()], stderr);
    fprintf(stderr, "%s processor %.3f ms\n", ways[heap_way()], processor_time() - began);
}

/* Says which word is wrong, and how words are: status 2. */
static void wrong(const char *error, const char *word) {
    fprintf(stderr, "first_touch: %s(%s)\n%s", error, word, usage);
    exit(2);
}

/* The number that a word is. */
static uint64_t number(const char *name, const char *word, uint64_t least, uint64_t most) {
    char *end;
    uint64_t n;
    if (word == NULL) wrong("NoNumber", name);
    if (*word < '0' || *word > '9') wrong("NotANumber", word);
    errno = 0;
    n = strtoull(word, &end, 10);
    if (*end != 0) wrong("NotANumber", word);
    if (errno != 0 || n < least || n > most) wrong("OutOfRange", word);
    return n;
}

/* Which of so many names the word is, from this one on. */
static int named(const char *name, const char *word, const char *const *names, int first, int count) {
    if (word == NULL) wrong("NoName", name);
    for (int k = first; k < count; k++)
        if (strcmp(word, names[k]) == 0) return k;
    wrong("NoSuchName", word);
    return 0;
}

static void read_words(char **words, options *chosen) {
    for (; *words != NULL; words++) {
        const char *const word = *words;
        if (strcmp(word, "--once") == 0) chosen->has_once = 1;
        else if (strcmp(word, "--mark-beside") == 0) chosen->marks_beside = 1;
        else if (strcmp(word, "--no-barrier") == 0) chosen->has_no_barrier = 1;
        else if (strcmp(word, "--markers") == 0) chosen->markers = (uint32_t)number(word, *++words, 1, MOST_MARKERS);
        else if (strcmp(word, "--way") == 0) chosen->way = (slide_way)named(word, *++words, ways, 0, 4);
        else if (strcmp(word, "--change-words") == 0) chosen->change = (fault)named(word, *++words, changes, 1, 3);
        else if (strcmp(word, "--threads") == 0) chosen->threads = (uint32_t)number(word, *++words, 1, MOST_THREADS);
        else if (strcmp(word, "--workers") == 0) chosen->workers = (uint32_t)number(word, *++words, 0, MOST_WORKERS);
        else if (strcmp(word, "--live") == 0) chosen->live = number(word, *++words, 16384, UINT64_C(1) << 28);
        else if (strcmp(word, "--rounds") == 0) chosen->rounds = number(word, *++words, 0, 1000000);
        else if (strcmp(word, "--page-words") == 0) chosen->page_words = number(word, *++words, 64, 1 << 20);
        else wrong("NoSuchWord", word);
    }
    if ((chosen->page_words & (chosen->page_words - 1)) != 0) wrong("NoPowerOfTwo", "--page-words");
}

int main(int count, char **words) {
    options chosen = {INLINE, NOTHING, 0, 0, 0, 2, 1, 1, 200000, 10, 512};
    thread threads[MOST_THREADS];
    read_words(words + (count > 0), &chosen);
    run_heap(&chosen, threads);
    for (uint32_t k = 0; k < chosen.threads; k++)
        printf("thread %u %016llx\n", k, (unsigned long long)threads[k].sum);
    puts("shared right");
    if (chosen.has_once) {
        options once = chosen;
        thread again[MOST_THREADS];
        once.way = ONCE;
        once.marks_beside = 0;
        run_heap(&once, again);
        for (uint32_t k = 0; k < chosen.threads; k++)
            if (again[k].sum != threads[k].sum) heap_fail("OtherSums");
    }
    return fflush(stdout) != 0 || ferror(stdout) ? 1 : 0;
}
