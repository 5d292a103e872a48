/* weak.c: tables of ephemerons and a guardian, over a heap at rest, by one survey.

   An ephemeron's value lives only if its key does: not through its own value, nor through a cycle of several tables.
   Here a table is an object of pairs of weak words, key and value, and a weak word keeps nothing. The runtime lists
   them for the survey: table, key and value. A pair counts only if its table is held.

   A guardian is a list of objects that must be seen once more when nothing else holds them. Those that are lost come
   back, with all that they reach, and with the values of keys that came back so; the runtime moves them to a queue,
   from which their finalizers take them.

   Then it slides, and forwards roots, queue, and weak words. Weak words of the heap are forwarded by the slide: a key
   that died is null, and its value too, unless something else holds that. */
#include "compressor.h"
#include "compressor_rest.h"
#include <stdio.h>
#include <stdlib.h>
#include <string.h>

enum { EDITION = 4, ROOM = 1 << 16, TAG_TABLE = 7, TAG_PAIR = 1, MOST = 1 << 10 };
static uint64_t memory[2][ROOM], used, *words = memory[0];
static uint64_t roots[MOST], tables[MOST], guarded[MOST], queue[MOST];
static size_t root_count, table_count, guarded_count, queue_count;

static void want(compressor_answer a, const char *what) {
    if (a.status != COMPRESSOR_DONE)
        fprintf(stderr, "%s: %s (%llu)\n", what, compressor_status_text(a.status), (unsigned long long)a.value), exit(1);
}
static uint64_t make(uint64_t header, size_t fields) {
    uint64_t at = used, address = ((uint64_t)1 << 32) + at;
    words[at] = header;
    memset(words + at + 1, 0, fields * sizeof *words);
    used += fields + 1;
    return address;
}
static uint64_t *field(uint64_t address, size_t n) { return &words[(uint32_t)address + 1 + n]; }
static uint64_t pair(uint64_t first, uint64_t rest) {
    uint64_t made = make(COMPRESSOR_HEADER_REFS(2, TAG_PAIR), 2);
    *field(made, 0) = first, *field(made, 1) = rest;
    return made;
}
/* a table of n ephemerons, known to the runtime by a weak list of all tables */
static uint64_t table(size_t n) {
    return tables[table_count++] = make(COMPRESSOR_HEADER_WEAK(2 * n, TAG_TABLE), 2 * n);
}
/* how many ephemerons a table has: from its header */
static size_t count_of(uint64_t address) {
    return compressor_shape_of(EDITION, words[(uint32_t)address]).weak / 2;
}
/* all pairs of all tables, each behind its table */
static uint64_t pairs[3 * MOST];
static size_t list_pairs(void) {
    size_t count = 0;
    for (size_t t = 0; t < table_count; t++)
        for (size_t k = 0, n = count_of(tables[t]); k < n; k++) {
            pairs[count++] = tables[t];
            pairs[count++] = *field(tables[t], 2 * k), pairs[count++] = *field(tables[t], 2 * k + 1);
        }
    return count;
}
static void collect(void) {
    compressor_survey survey = COMPRESSOR_EMPTY;
    uint64_t all[2 * MOST], lost = 0;
    memcpy(all, roots, root_count * sizeof *all);
    memcpy(all + root_count, queue, queue_count * sizeof *all);
    /* an allocation that is refused is made once more */
    compressor_answer a;
    for (int twice = 0; twice < 4; twice++) {
        a = compressor_survey_guarded(EDITION, words, used, all, root_count + queue_count, pairs, list_pairs(), guarded,
                                      guarded_count, &survey, &lost);
        if (a.status != COMPRESSOR_OUT_OF_MEMORY) break;
    }
    want(a, "survey");
    for (size_t k = 0; k < lost; k++) queue[queue_count++] = guarded[k];
    guarded_count -= lost;
    memmove(guarded, guarded + lost, guarded_count * sizeof *guarded);
    uint64_t live = a.value, *to = memory[words == memory[0]];
    want(compressor_survey_slide(&survey, words, used, 0, to, live), "slide");
    want(compressor_survey_forward(&survey, roots, root_count), "roots");
    want(compressor_survey_forward(&survey, queue, queue_count), "queue");
    want(compressor_survey_forward(&survey, guarded, guarded_count), "guarded");
    want(compressor_survey_forward_weak(&survey, tables, table_count), "tables");
    compressor_survey_drop(&survey);
    words = to, used = live;
    size_t left = 0;
    for (size_t t = 0; t < table_count; t++) {
        if (tables[t] == 0) continue;
        for (size_t k = 0, n = count_of(tables[t]); k < n; k++)
            if (*field(tables[t], 2 * k) == 0) *field(tables[t], 2 * k + 1) = 0; /* its key died */
        tables[left++] = tables[t];
    }
    table_count = left;
}
static void put(uint64_t table, size_t k, uint64_t key, uint64_t value) {
    *field(table, 2 * k) = key, *field(table, 2 * k + 1) = value;
}
#define CHECK(what) ((what) ? (void)0 : (printf("wrong: line %d: %s\n", __LINE__, #what), exit(1)))

static void run(void) {
    uint64_t n7 = compressor_fixnum(7);
    /* one: the value leads to its own key. Weak keys alone would keep both for ever */
    roots[root_count++] = table(4);
    uint64_t key = pair(n7, 0), value = pair(key, 0);
    put(roots[0], 0, key, value);
    /* two: a key that lives, a value that is kept by it alone */
    roots[root_count++] = pair(n7, 0);
    put(roots[0], 1, roots[1], pair(compressor_fixnum(8), 0));
    /* an immediate as a key lives for ever */
    put(roots[0], 2, n7, pair(compressor_fixnum(9), 0));
    collect();
    CHECK(*field(roots[0], 0) == 0 && *field(roots[0], 1) == 0);
    CHECK(*field(roots[0], 2) == roots[1]);
    CHECK(*field(*field(roots[0], 3), 0) == compressor_fixnum(8));
    CHECK(*field(*field(roots[0], 5), 0) == compressor_fixnum(9));
    CHECK(used == 9 + 3 + 3 + 3);

    /* three: two tables, in each of which the other's key is the value: a cycle that keeps nothing */
    uint64_t other = table(1), a = pair(n7, 0), b = pair(n7, 0);
    roots[root_count++] = other;
    put(roots[0], 0, a, b);
    put(other, 0, b, a);
    collect();
    CHECK(*field(roots[0], 0) == 0 && *field(roots[2], 0) == 0);

    /* four: a chain of keys in the worst order. Then its first key goes, and all of it */
    enum { LONG = 200 };
    roots[root_count++] = table(LONG);
    uint64_t k0 = pair(n7, 0), at = k0;
    for (size_t k = LONG; k-- > 0;) {
        uint64_t next = pair(compressor_fixnum((int64_t)k), 0);
        put(roots[3], k, at, next);
        at = next;
    }
    roots[root_count++] = k0;
    collect();
    uint64_t full = used;
    for (size_t k = 0; k < LONG; k++) CHECK(*field(*field(roots[3], 2 * k + 1), 0) == compressor_fixnum((int64_t)k));
    root_count--;
    collect();
    CHECK(full - used == 3 * (LONG + 1));
    for (size_t k = 0; k < LONG; k++) CHECK(*field(roots[3], 2 * k) == 0 && *field(roots[3], 2 * k + 1) == 0);

    /* five: a table that dies keeps nothing, though its key lives */
    uint64_t doomed = table(1);
    put(doomed, 0, roots[1], pair(n7, 0));
    uint64_t before = used;
    collect();
    CHECK(used == before - 3 - 3 && table_count == 3);

    /* six: a guardian sees what nobody holds, once, with all that it reaches; an ephemeron whose key came back too */
    uint64_t file = pair(compressor_fixnum(42), pair(n7, 0));
    guarded[guarded_count++] = file;
    put(roots[2], 0, file, pair(compressor_fixnum(43), 0));
    roots[root_count++] = file;
    collect();
    CHECK(queue_count == 0 && guarded_count == 1);
    root_count--;
    collect();
    CHECK(queue_count == 1 && guarded_count == 0);
    CHECK(*field(queue[0], 0) == compressor_fixnum(42) && *field(*field(queue[0], 1), 0) == n7);
    CHECK(*field(*field(roots[2], 1), 0) == compressor_fixnum(43));
    queue_count = 0; /* its finalizer ran */
    before = used;
    collect();
    CHECK(used == before - 9 && *field(roots[2], 0) == 0 && *field(roots[2], 1) == 0);

    /* seven: of two guarded objects the one that is held stays guarded, behind the lost one; a refusal leaves all */
    guarded[0] = roots[1], guarded[1] = pair(n7, 0), guarded_count = 2;
    uint64_t astray = ((uint64_t)1 << 32) + used, lost = 77;
    compressor_survey survey = COMPRESSOR_EMPTY;
    compressor_answer refused = compressor_survey_guarded(EDITION, words, used, roots, root_count, pairs, 0, &astray, 1,
                                                          &survey, &lost);
    CHECK(refused.status == COMPRESSOR_BAD_ROOT && refused.value == root_count && lost == 77 && survey.at == NULL);
    collect();
    CHECK(queue_count == 1 && guarded_count == 1 && guarded[0] == roots[1] && *field(queue[0], 0) == n7);
}
int main(void) {
    words = memory[0];
    run();
    puts("ephemerons and guardians: all right");
    return 0;
}
