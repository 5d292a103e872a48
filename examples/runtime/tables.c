/* tables.c: tables of ephemerons, and guardians.

   A table is a list of ephemerons. Its entries keep their values only as long as their keys live, and those whose key
   died are taken out by whoever next looks at the table. A lock keeps evaluators apart, who never stop while they have
   it: all that may collect, or fail, is done before. */
#include "lisp.h"

#include <pthread.h>

static pthread_mutex_t lock = PTHREAD_MUTEX_INITIALIZER;

/* Slots of a walk over a table. */
typedef struct walk {
    slot before, entry; /* the entry leads to the rest of the table, as what is before it leads to the entry */
    slot key, value;
} walk;

static walk new_walk(evaluator *e, slot table) {
    walk w;
    if (kind_of(e, table) != TABLE) fail_with(e, "NotATable", table);
    w.before = heap_push(e), w.entry = heap_push(e), w.key = heap_push(e), w.value = heap_push(e);
    heap_copy(e, w.before, table);
    return w;
}

static void end_walk(evaluator *e, const walk *w) {
    heap_pop(e, w->before);
}

/* The next entry whose key lives; 0 if there is none. Those before it are taken out. */
static int next_entry(evaluator *e, const walk *w) {
    heap_ref(e, w->entry, w->before, NEXT_ENTRY);
    while (!heap_is_null(e, w->entry)) {
        heap_ephemeron(e, w->entry, w->key, w->value);
        if (!heap_is_null(e, w->key)) return 1;
        heap_ref(e, w->entry, w->entry, NEXT_ENTRY);
        heap_set_ref(e, w->before, NEXT_ENTRY, w->entry);
    }
    return 0;
}

/* The entry of this key; 0 if there is none. */
static int find_entry(evaluator *e, const walk *w, slot key) {
    while (next_entry(e, w)) {
        if (heap_same(e, w->key, key)) return 1;
        heap_copy(e, w->before, w->entry);
    }
    return 0;
}

/* Sets the value of the key's entry, or else puts this one behind the last; 0 if it is null. */
static int put(evaluator *e, arguments a, slot made) {
    const walk w = new_walk(e, a.first);
    int done = 1;
    pthread_mutex_lock(&lock);
    if (find_entry(e, &w, a.first + 1)) heap_set_value(e, w.entry, a.first + 2);
    else if (!heap_is_null(e, made)) heap_set_ref(e, w.before, NEXT_ENTRY, made);
    else done = 0;
    pthread_mutex_unlock(&lock);
    end_walk(e, &w);
    return done;
}

void make_table(evaluator *e, slot out, arguments a) {
    (void)a;
    heap_wants_weak(e);
    heap_new(e, out, TABLE_FIELDS, 0, TABLE);
}

/* (table-set! table key value) */
void table_set(evaluator *e, slot out, arguments a) {
    slot made = heap_push(e);
    if (heap_is_null(e, a.first + 1)) heap_fail(e, "BadKey", "()");
    if (!put(e, a, made)) {
        heap_new_ephemeron(e, made, a.first + 1, a.first + 2, ENTRY);
        put(e, a, made);
    }
    heap_pop(e, made);
    heap_clear(e, out);
}

/* (table-ref table key absent): what is absent is #f, if nothing else is said */
void table_ref(evaluator *e, slot out, arguments a) {
    const walk w = new_walk(e, a.first);
    int found;
    pthread_mutex_lock(&lock);
    found = find_entry(e, &w, a.first + 1);
    pthread_mutex_unlock(&lock);
    heap_copy(e, out, found ? w.value : a.count == 3 ? a.first + 2 : (slot)FALSE_SLOT);
    end_walk(e, &w);
}

/* (table-delete! table key) */
void table_delete(evaluator *e, slot out, arguments a) {
    const walk w = new_walk(e, a.first);
    pthread_mutex_lock(&lock);
    if (find_entry(e, &w, a.first + 1)) {
        heap_ref(e, w.entry, w.entry, NEXT_ENTRY);
        heap_set_ref(e, w.before, NEXT_ENTRY, w.entry);
    }
    pthread_mutex_unlock(&lock);
    end_walk(e, &w);
    heap_clear(e, out);
}

/* (table-count table): of the entries whose key did not die */
void table_count(evaluator *e, slot out, arguments a) {
    const walk w = new_walk(e, a.first);
    int64_t count = 0;
    pthread_mutex_lock(&lock);
    for (; next_entry(e, &w); count++) heap_copy(e, w.before, w.entry);
    pthread_mutex_unlock(&lock);
    end_walk(e, &w);
    make_integer(e, out, count);
}

void make_guardian(evaluator *e, slot out, arguments a) {
    (void)a;
    heap_wants_weak(e);
    heap_new(e, out, GUARDIAN_FIELDS, 0, GUARDIAN);
}

void call_guardian(evaluator *e, slot out, slot guardian, slot first, uint32_t count) {
    if (count > 1) heap_fail(e, "WrongCount", "");
    if (count == 1) {
        heap_guard(e, guardian, first, GUARD);
        heap_clear(e, out);
    } else if (!heap_next(e, out, guardian)) {
        heap_copy(e, out, FALSE_SLOT);
    }
}
