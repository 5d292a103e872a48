/* parallel.c: evaluators that share work.

   Evaluator 0 puts the function and the vector of results into the world, an object that all evaluators have as a root.
   So the others find both through the heap. What is counted here are numbers alone, under the heap's lock. */
#include "lisp.h"

static struct {
    uint64_t number;     /* of the work, from 1 on */
    int64_t next, count; /* calls that are not yet taken */
    uint32_t working;    /* evaluators other than 0 that have not yet left it */
    int begun;
} work;

static void begin_work(void *count) {
    work.number++;
    work.next = 0;
    work.count = *(int64_t *)count;
    work.working = heap_evaluators() - 1;
    work.begun = 1;
}

static void leave_work(void *nothing) {
    (void)nothing;
    work.working--;
}

static int is_done(void *nothing) {
    (void)nothing;
    if (work.working > 0) return 0;
    work.begun = 0;
    return 1;
}

static int is_there(void *seen) {
    return work.number > *(uint64_t *)seen;
}

static void take_part(evaluator *e) {
    slot f = heap_push(e), results = heap_push(e), value = heap_push(e);
    for (;;) {
        int64_t i = __atomic_fetch_add(&work.next, 1, __ATOMIC_SEQ_CST);
        if (i >= work.count) break;
        heap_ref(e, f, WORLD_SLOT, WORLD_WORK);
        make_integer(e, value, i);
        call(e, value, f, value, 1);
        heap_ref(e, results, WORLD_SLOT, WORLD_RESULTS);
        vector_set(e, results, i, value);
    }
    heap_pop(e, f);
}

void parallel(evaluator *e, slot out, int64_t count, slot f) {
    slot results = heap_push(e), null = heap_push(e);
    if (work.begun) heap_fail(e, "ParallelWithin", "");
    make_vector(e, results, count, null);
    heap_set_ref(e, WORLD_SLOT, WORLD_WORK, f);
    heap_set_ref(e, WORLD_SLOT, WORLD_RESULTS, results);
    heap_tell(begin_work, &count);
    take_part(e);
    heap_wait(e, is_done, NULL);
    heap_set_ref(e, WORLD_SLOT, WORLD_WORK, null);
    heap_set_ref(e, WORLD_SLOT, WORLD_RESULTS, null);
    heap_copy(e, out, results);
    heap_pop(e, results);
}

void help(evaluator *e) {
    uint64_t seen = 0;
    for (;;) {
        heap_wait(e, is_there, &seen);
        seen++;
        take_part(e);
        heap_tell(leave_work, NULL);
    }
}
