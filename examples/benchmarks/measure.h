/* measure.h: clocks, and what is told of collections. All times are nanoseconds. */
#ifndef MEASURE_H
#define MEASURE_H

#include <stdint.h>
#include <stdio.h>
#include <stdlib.h>
#include <time.h>

static inline uint64_t read_clock(clockid_t clock) {
    struct timespec t;
    clock_gettime(clock, &t);
    return (uint64_t)t.tv_sec * 1000000000u + (uint64_t)t.tv_nsec;
}
static inline uint64_t wall_time(void) { return read_clock(CLOCK_MONOTONIC); }
/* Of all threads of the process. */
static inline uint64_t processor_time(void) { return read_clock(CLOCK_PROCESS_CPUTIME_ID); }

/* Of so many collections it is told when they were. */
enum { MOST_PAUSES = 1 << 14 };

/* The collections so far. One thread at a time tells of one. */
static struct {
    uint64_t began;         /* the run, by the wall */
    uint64_t count;
    uint64_t processor;     /* of all of them, by all threads */
    uint64_t pauses;        /* by the wall, from the wish for a collection to its end */
    uint64_t longest_pause;
    uint64_t most_live;     /* words, the most that were left by one */
    struct {
        uint64_t began, length, processor; /* from the beginning of the run on */
    } each[MOST_PAUSES];
} told;

static inline void tell_collection(uint64_t processor, uint64_t pause, uint64_t live_words) {
    if (told.count < MOST_PAUSES) {
        told.each[told.count].began = wall_time() - pause - told.began;
        told.each[told.count].length = pause;
        told.each[told.count].processor = processor;
    }
    told.count++;
    told.processor += processor;
    told.pauses += pause;
    if (pause > told.longest_pause) told.longest_pause = pause;
    if (live_words > told.most_live) told.most_live = live_words;
}

/* The most memory that was resident, in KiB; 0 if the system does not say. */
static inline long peak_memory(void) {
    char line[128];
    long kib = 0;
    FILE *file = fopen("/proc/self/status", "r");
    while (file && fgets(line, sizeof line, file))
        if (sscanf(line, "VmHWM: %ld", &kib) == 1) break;
    if (file) fclose(file);
    return kib;
}

static inline void die(const char *why) {
    fprintf(stderr, "benchmark: %s\n", why);
    exit(1);
}

/* Zeroed words, whose pages the system gives when they are first written. */
static inline uint64_t *zeroed_words(size_t count) {
    uint64_t *at = calloc(count, sizeof *at);
    if (!at) die("no memory");
    return at;
}

#endif
