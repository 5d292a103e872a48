/* helpers.h: threads that help to collect. They sleep between two collections. */
#ifndef HELPERS_H
#define HELPERS_H

enum { HELPERS = 4 }; /* the thread that collects is one of them, number 0 */

static struct {
    pthread_barrier_t begun, ended;
    void (*work)(int number);
    int numbers[HELPERS];
} helpers;

static inline void *help_on(void *number) {
    for (;;) {
        pthread_barrier_wait(&helpers.begun);
        helpers.work(*(int *)number);
        pthread_barrier_wait(&helpers.ended);
    }
    return NULL;
}

static inline void helpers_start(void) {
    pthread_t thread;
    pthread_barrier_init(&helpers.begun, NULL, HELPERS);
    pthread_barrier_init(&helpers.ended, NULL, HELPERS);
    for (int k = 1; k < HELPERS; k++) {
        helpers.numbers[k] = k;
        if (pthread_create(&thread, NULL, help_on, &helpers.numbers[k]) != 0) die("no thread");
        pthread_detach(thread);
    }
}

/* Each helper does its work once. */
static inline void helpers_do(void (*work)(int number)) {
    helpers.work = work;
    pthread_barrier_wait(&helpers.begun);
    work(0);
    pthread_barrier_wait(&helpers.ended);
}

#endif
