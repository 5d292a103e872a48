/* bench.c: runs one program over the heap of one back end: `bench PROGRAM SIZE`. Prints a line of JSON: times in
   milliseconds, memory in MB, words, the check sum, which is that of each other back end, and of each pause when it
   began, how long it was, and its processor time. */
#define _GNU_SOURCE
#include "heap.h"

#include "access.h"
#include "cache.h"
#include "list.h"
#include "trees.h"

typedef struct program {
    const char *name;
    int threads;
    uint64_t (*run)(mutator *m, int size);
    uint64_t (*live)(uint64_t size); /* words, the most that live at once */
} program;

static uint64_t live_gcbench(uint64_t stretch) { return UINT64_C(8) << stretch; }
static uint64_t live_trees(uint64_t depth) { return UINT64_C(12) << depth; }
static uint64_t live_threads(uint64_t depth) { return 4 * live_trees(depth); }
static uint64_t live_list(uint64_t length) { return 6 * length; }
static uint64_t live_map(uint64_t bits) { return UINT64_C(9) << bits; }
static uint64_t live_cache(uint64_t bits) { return UINT64_C(32) << bits; }
static uint64_t live_grid(uint64_t side) { return 2 * side * side; }
static uint64_t live_counter(uint64_t writes) { return writes != 0 ? 4096 : 0; }

static const program programs[] = {
    {"gcbench", 1, gcbench, live_gcbench},   {"trees", 1, binary_trees, live_trees},
    {"list", 1, list_images, live_list},     {"map", 1, map_churn, live_map},
    {"cache", 1, lru_cache, live_cache},     {"threads", 4, binary_trees, live_threads},
    {"grid", 1, grid, live_grid},            {"counter", 1, counter, live_counter},
};

enum { BUDGET = 4 }; /* of words, for each one that is live */

typedef struct run {
    pthread_t thread;
    mutator *m;
    const program *program;
    int size;
    uint64_t sum;
} run;

static void *run_one(void *it) {
    run *const own = it;
    own->sum = own->program->run(own->m, own->size);
    heap_leave(own->m);
    return NULL;
}

/* The sum of what all threads of the program answer. */
static uint64_t run_all(const program *p, int size) {
    run runs[MOST_THREADS];
    uint64_t sum = 0;
    for (int k = 0; k < p->threads; k++) {
        runs[k].m = &mutators[k];
        runs[k].program = p;
        runs[k].size = size;
        if (p->threads == 1) run_one(&runs[k]);
        else if (pthread_create(&runs[k].thread, NULL, run_one, &runs[k]) != 0) die("no thread");
    }
    for (int k = 0; k < p->threads; k++) {
        if (p->threads > 1) pthread_join(runs[k].thread, NULL);
        sum += runs[k].sum;
    }
    return sum;
}

static const program *named(const char *name) {
    for (size_t k = 0; k < sizeof programs / sizeof *programs; k++)
        if (strcmp(name, programs[k].name) == 0) return &programs[k];
    die("no such program");
    return NULL;
}

static double ms(uint64_t nanoseconds) { return (double)nanoseconds / 1e6; }

int main(int argc, char **argv) {
    if (argc != 3) die("usage: bench PROGRAM SIZE");
    const program *const p = named(argv[1]);
    const int size = atoi(argv[2]);
    told.began = wall_time();
    mutators_start(p->threads, BUDGET * p->live((uint64_t)size));
    const uint64_t sum = run_all(p, size), wall = wall_time() - told.began, processor = processor_time();
    const double count = told.count != 0 ? (double)told.count : 1;
    printf("{\"processor\": %.3f, \"wall\": %.3f, \"collections\": %llu, \"collection\": %.4f, \"pause\": %.4f, "
           "\"longest\": %.4f, \"memory\": %.1f, \"live\": %llu, \"sum\": \"%llu\", \"pauses\": [",
           ms(processor), ms(wall), (unsigned long long)told.count, ms(told.processor) / count,
           ms(told.pauses) / count, ms(told.longest_pause), (double)peak_memory() / 1024,
           (unsigned long long)told.most_live, (unsigned long long)sum);
    for (uint64_t k = 0; k < told.count && k < MOST_PAUSES; k++)
        printf("%s[%.3f, %.4f, %.4f]", k != 0 ? ", " : "", ms(told.each[k].began), ms(told.each[k].length),
               ms(told.each[k].processor));
    printf("]}\n");
    return 0;
}
