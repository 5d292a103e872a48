/* pins.c: an interpreter that recurses in C, and names nothing but its globals. A small Lisp: its reader and evaluator
   hold objects in plain variables of C, and whatever they make may collect. Then all words of the stack are looked at:
   what they may mean is kept and stays, and all else slides around it; new objects are made in the runs that are left.
   Judges itself: its programs have the answers that were worked out, and an object stays that C has by a pointer alone.
   A collection for which there was no memory is made once more. */
#include "compressor_rest.h"

#include <stdio.h>
#include <stdlib.h>
#include <string.h>

enum { EDITION = 4, ROOM = 1 << 16, PINS = 1 << 15, NAMES = 64, NAME = 12, FIXNUM = 0, SYMBOL = 1 };
/* Tags: a pair has two fields, a closure has its names, its body and what its free variables are. */
enum { PAIR = 1, CLOSURE = 2, BYTES = 3 };

static uint64_t words[ROOM];
static unsigned char starts[ROOM / 64];
static compressor_space space;
static compressor_buffer buffer;
static void *stack_end;
static uint64_t pins[PINS], runs[2 * PINS];
static unsigned collections;
static size_t pinned;
static uint64_t taken; /* words of runs */

/* A symbol is an immediate, the number of its name; its global value is a root, and there are no other ones. */
static char names[NAMES][NAME];
static uint64_t globals[NAMES];
static size_t name_count;

/* AddressSanitizer may hold locals elsewhere, and no scan of the stack finds them there. */
#ifdef __cplusplus
extern "C"
#endif
const char *__asan_default_options(void);
const char *__asan_default_options(void) { return "detect_stack_use_after_return=0"; }

static void is(int so, int line) {
    if (so) return;
    printf("not so: line %d\n", line);
    exit(1);
}
#define IS(what) is(what, __LINE__)

static void collect(void) {
    const size_t count = compressor_ambiguous_own(&space, stack_end, pins, PINS);
    compressor_answer a;
    IS(count <= PINS);
    taken -= space.in_runs;
    a = compressor_space_collect_pinned(&space, globals, name_count, pins, count, runs, 2 * PINS);
    if (a.status == COMPRESSOR_OUT_OF_MEMORY)
        a = compressor_space_collect_pinned(&space, globals, name_count, pins, count, runs, 2 * PINS);
    if (a.status != COMPRESSOR_DONE)
        printf("%s, value %llu: ", compressor_status_text(a.status), (unsigned long long)a.value);
    IS(a.status == COMPRESSOR_DONE);
    compressor_buffer_empty(&buffer);
    IS(compressor_space_limit(&space, a.value, 2) != 0);
    collections++;
    pinned += count;
    taken += space.in_runs;
}

/* What the fields get is held by the caller, or here, by variables of C alone. */
static uint64_t make(uint64_t header, uint64_t count, uint64_t a, uint64_t b, uint64_t c) {
    const uint64_t fields[3] = {a, b, c};
    uint64_t made;
    if (compressor_space_due(&space)) collect();
    made = compressor_new(&space, &buffer, header, 1 + count);
    IS(made != 0);
    for (uint64_t k = 0; k < count && k < 3; k++) compressor_store(&space, made, k, fields[k]);
    return made;
}
static uint64_t pair(uint64_t a, uint64_t b) { return make(COMPRESSOR_HEADER_REFS(2, PAIR), 2, a, b, 0); }
static uint64_t first(uint64_t it) { return compressor_load(&space, it, 0); }
static uint64_t rest(uint64_t it) { return compressor_load(&space, it, 1); }
static uint64_t second(uint64_t it) { return first(rest(it)); }
static int is_a(uint64_t it, uint32_t tag) {
    return compressor_is_reference(it) && compressor_shape_at(&space, it).tag == tag;
}

/* READER */

static uint64_t symbol(const char *name, size_t length) {
    size_t k = 0;
    IS(length < NAME);
    while (k < name_count && (strncmp(names[k], name, length) != 0 || names[k][length] != 0)) k++;
    IS(k < NAMES);
    memcpy(names[k], name, length);
    if (k == name_count) name_count++;
    return compressor_small(SYMBOL, (int64_t)k);
}
static uint64_t read_one(const char **at);
static uint64_t read_rest(const char **at) {
    uint64_t head;
    *at += strspn(*at, " ");
    if (**at == ')') return ++*at, 0;
    head = read_one(at);
    return pair(head, read_rest(at));
}
static uint64_t read_one(const char **at) {
    size_t length;
    *at += strspn(*at, " ");
    if (**at == '(') return ++*at, read_rest(at);
    length = strcspn(*at, " ()");
    *at += length;
    if (strspn(*at - length, "0123456789") >= length) return compressor_fixnum(strtoll(*at - length, NULL, 10));
    return symbol(*at - length, length);
}
static int is_named(uint64_t it, const char *name) {
    return compressor_is_small(it, SYMBOL) && strcmp(names[compressor_small_value(it)], name) == 0;
}

/* EVALUATOR */

static uint64_t eval(uint64_t it, uint64_t local);

static uint64_t look_up(uint64_t name, uint64_t local) {
    for (; local != 0; local = rest(local))
        if (first(first(local)) == name) return rest(first(local));
    return globals[compressor_small_value(name)];
}
static uint64_t eval_all(uint64_t list, uint64_t local) {
    uint64_t head;
    if (list == 0) return 0;
    head = eval(first(list), local);
    return pair(head, eval_all(rest(list), local));
}
static uint64_t apply_own(uint64_t name, uint64_t values) {
    const uint64_t a = first(values), b = rest(values) != 0 ? second(values) : 0;
    const int64_t m = compressor_fixnum_value(a), n = compressor_fixnum_value(b);
    if (is_named(name, "+")) return compressor_fixnum(m + n);
    if (is_named(name, "-")) return compressor_fixnum(m - n);
    if (is_named(name, "<")) return m < n ? compressor_fixnum(1) : 0;
    if (is_named(name, "pair")) return pair(a, b);
    if (is_named(name, "first")) return first(a);
    IS(is_named(name, "rest"));
    return rest(a);
}
static uint64_t apply(uint64_t f, uint64_t values) {
    uint64_t local, name;
    if (!is_a(f, CLOSURE)) return apply_own(f, values);
    local = compressor_load(&space, f, 2);
    for (name = first(f); name != 0; name = rest(name), values = rest(values))
        local = pair(pair(first(name), first(values)), local);
    return eval(compressor_load(&space, f, 1), local);
}
static uint64_t eval(uint64_t it, uint64_t local) {
    uint64_t f;
    if (compressor_is_small(it, SYMBOL)) return look_up(it, local);
    if (!is_a(it, PAIR)) return it;
    if (is_named(first(it), "if")) return eval(second(eval(second(it), local) != 0 ? rest(it) : rest(rest(it))), local);
    if (is_named(first(it), "lambda"))
        return make(COMPRESSOR_HEADER_REFS(3, CLOSURE), 3, second(it), second(rest(it)), local);
    if (is_named(first(it), "define")) {
        f = eval(second(rest(it)), local);
        return globals[compressor_small_value(second(it))] = f;
    }
    f = eval(first(it), local);
    return apply(f, eval_all(rest(it), local));
}

static int64_t run(const char *text) { return compressor_fixnum_value(eval(read_one(&text), 0)); }

/* Nothing but a pointer of C leads into these words while others are made. */
static __attribute__((noinline)) void hold_by_pointer(void) {
    enum { COUNT = 100 };
    uint64_t *at = compressor_at(&space, make(COMPRESSOR_HEADER_DATA(COUNT, BYTES), COUNT, 0, 0, 0)) + COUNT / 2;
    const unsigned before = collections;
    int64_t list, k;
    for (k = 0; collections < before + 5; k++) {
        at[k % (COUNT / 2)] += 1;
        list = run("(sum (up 0 40))");
        IS(list == 780);
    }
    for (list = 0; list < COUNT / 2; list++) k -= (int64_t)at[list];
    IS(k == 0);
}

static __attribute__((noinline)) void run_all(void) {
    static const char *const own[] = {"+", "-", "<", "pair", "first", "rest"};
    for (size_t k = 0; k < sizeof own / sizeof *own; k++) {
        const uint64_t name = symbol(own[k], strlen(own[k]));
        globals[compressor_small_value(name)] = name;
    }
    run("(define fib (lambda (n) (if (< n 2) n (+ (fib (- n 1)) (fib (- n 2))))))");
    run("(define up (lambda (a b) (if (< a b) (pair a (up (+ a 1) b)) ())))");
    run("(define sum (lambda (l) (if l (+ (first l) (sum (rest l))) 0)))");
    run("(define turn (lambda (l done) (if l (turn (rest l) (pair (first l) done)) done)))");
    run("(define both (lambda (f g) (lambda (x) (f (g x)))))");
    IS(run("(fib 17)") == 1597);
    IS(run("(sum (up 0 400))") == 79800);
    IS(run("(first (turn (up 0 300) ()))") == 299);
    IS(run("((both sum (both (lambda (n) (up 0 n)) fib)) 12)") == 10296);
    hold_by_pointer();
}

int main(void) {
    stack_end = __builtin_frame_address(0);
    compressor_space_in(&space, EDITION, words, ROOM, 0);
    compressor_starts_in(&space, starts);
    compressor_space_limit(&space, 0, 2);
    run_all();
    taken -= space.in_runs;
    IS(collections > 20 && pinned > 0 && taken > 0);
    printf("pins: %u collections around %zu pins; %llu words were made in runs between them\n", collections, pinned,
           (unsigned long long)taken);
    return 0;
}
