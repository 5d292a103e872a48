/* Counted calls. The linker hands malloc, realloc and free of the whole program to what stands here: so is known how
   much a call asks for, and what the library keeps. */
#include "driver.h"

#include <sched.h>
#include <stdarg.h>
#include <stdio.h>
#include <stdlib.h>

/* ThreadSanitizer does not see by which atomics the library hands memory from thread to thread, if the archive is not
   made for it. So it is not told of what calls do with memory, and looks at this program alone. */
#if defined(__SANITIZE_THREAD__)
#define IS_FOR_THREADS 1
#elif defined(__has_feature)
#if __has_feature(thread_sanitizer)
#define IS_FOR_THREADS 1
#endif
#endif
#if defined(IS_FOR_THREADS) && !defined(SEES_LIBRARY)
void AnnotateIgnoreReadsBegin(const char *file, int line);
void AnnotateIgnoreReadsEnd(const char *file, int line);
void AnnotateIgnoreWritesBegin(const char *file, int line);
void AnnotateIgnoreWritesEnd(const char *file, int line);
static void look_away(void) {
    AnnotateIgnoreReadsBegin(__FILE__, __LINE__);
    AnnotateIgnoreWritesBegin(__FILE__, __LINE__);
}
static void look_again(void) {
    AnnotateIgnoreWritesEnd(__FILE__, __LINE__);
    AnnotateIgnoreReadsEnd(__FILE__, __LINE__);
}
#else
static void look_away(void) {}
static void look_again(void) {}
#endif

enum memory { NONE, MEMORY, GOES, QUIET, LATE };

static const struct {
    const char *name;
    enum memory memory;
} exports[EXPORTS] = {
#define EXPORT(name, memory) {#name, memory},
#include "exports.h"
#undef EXPORT
};

_Thread_local thread_state own;
static uint64_t counts[EXPORTS], refusals[EXPORTS], made, kept, busy;
static int is_late; /* a helper had no memory, and the end says so */
static uint64_t seed_now, round_now;

uint64_t calls_made(void) { return __atomic_load_n(&made, __ATOMIC_RELAXED); }
uint64_t blocks_kept(void) { return __atomic_load_n(&kept, __ATOMIC_SEQ_CST); }

static void add(uint64_t *to) { __atomic_fetch_add(to, 1, __ATOMIC_RELAXED); }

void fail(const char *file, int line, const char *format, ...) {
    va_list list;
    own.is_in_call = 0;
    fflush(stdout);
    fprintf(stderr, "driver: seed %llu, round %llu, call %llu (compressor_%s, %s:%d)\n  %s:%d: ",
            (unsigned long long)seed_now, (unsigned long long)round_now, (unsigned long long)calls_made(),
            exports[own.export].name, own.file ? own.file : "none", own.line, file, line);
    va_start(list, format);
    vfprintf(stderr, format, list);
    va_end(list);
    fputc('\n', stderr);
    exit(1);
}

void call_begins(enum export export, const char *file, int line) {
    own.export = export;
    own.file = file;
    own.line = line;
    own.allocations = 0;
    own.was_refused = 0;
    own.refuse_at = own.refuse_next;
    own.refuses_rest = own.refuse_next != 0;
    own.refuse_next = 0;
    if (own.refuses && !own.is_again && exports[export].memory != NONE && exports[export].memory != GOES &&
        one_in(16)) {
        own.refuse_at = 1 + below(UINT64_C(1) << below(6));
        own.refuses_rest = one_in(2);
    }
    own.is_again = 0;
    own.is_in_call = 1;
    look_away();
}

void call_ends(void) {
    look_again();
    own.is_in_call = 0;
    add(&counts[own.export]);
    add(&made);
    if (exports[own.export].memory == LATE && own.was_refused) __atomic_store_n(&is_late, 1, __ATOMIC_SEQ_CST);
    if (exports[own.export].memory == NONE && own.allocations > 0)
        fail(own.file, own.line, "it asked for memory %llu times", (unsigned long long)own.allocations);
}

int call_again(compressor_answer a) {
    call_ends();
    if (a.status == COMPRESSOR_DONE && a.other != 0) fail(own.file, own.line, "done, other is %u", a.other);
    if (a.status != COMPRESSOR_DONE) add(&refusals[own.export]);
    if (a.status == COMPRESSOR_BUSY && own.waits) {
        add(&busy);
        sched_yield();
        return 1;
    }
    if (a.status != COMPRESSOR_OUT_OF_MEMORY) return 0;
    if (exports[own.export].memory == GOES && __atomic_exchange_n(&is_late, 0, __ATOMIC_SEQ_CST)) return 0;
    if (!own.was_refused) fail(own.file, own.line, "OUT_OF_MEMORY, and no allocation was refused");
    if (exports[own.export].memory == GOES) return 0;
    if (exports[own.export].memory != MEMORY) fail(own.file, own.line, "OUT_OF_MEMORY, of a call that never says so");
    if (a.value != 0 || a.other != 0) fail(own.file, own.line, "OUT_OF_MEMORY with numbers");
    own.is_again = 1;
    return 1;
}

void answers(compressor_answer a, uint32_t status, uint64_t value, uint32_t other) {
    if (a.status == status && a.value == value && a.other == other) return;
    fail(own.file, own.line, "it answered %s, %llu (%#llx), %u; it should be %s, %llu (%#llx), %u",
         compressor_status_text(a.status), (unsigned long long)a.value, (unsigned long long)a.value, a.other,
         compressor_status_text(status), (unsigned long long)value, (unsigned long long)value, other);
}

void same(uint64_t is, uint64_t wanted, const char *what, const char *file, int line) {
    if (is != wanted)
        fail(file, line, "%s is %llu (%#llx), and should be %llu (%#llx)", what, (unsigned long long)is,
             (unsigned long long)is, (unsigned long long)wanted, (unsigned long long)wanted);
}

void same_words(const uint64_t *is, const uint64_t *wanted, size_t count, const char *what, const char *file,
                int line) {
    for (size_t i = 0; i < count; i++)
        if (is[i] != wanted[i])
            fail(file, line, "%s: word %zu is %#llx, and should be %#llx", what, i, (unsigned long long)is[i],
                 (unsigned long long)wanted[i]);
}

/* One line, or one for each export. */
void print_calls(int all) {
    uint64_t refused = 0;
    for (int e = 0; e < EXPORTS; e++) {
        refused += refusals[e];
        if (all)
            printf("%9llu calls, %7llu refused: compressor_%s\n", (unsigned long long)counts[e],
                   (unsigned long long)refusals[e], exports[e].name);
    }
    printf("seed %llu: %llu calls of %d exports, %llu of them refused, %llu busy\n", (unsigned long long)seed_now,
           (unsigned long long)made, EXPORTS, (unsigned long long)refused, (unsigned long long)busy);
}

/* Whether each export was called. */
int all_called(void) {
    int all = 1;
    for (int e = 0; e < EXPORTS; e++) {
        if (counts[e] > 0) continue;
        fprintf(stderr, "driver: compressor_%s was never called\n", exports[e].name);
        all = 0;
    }
    return all;
}

/* CHANCE */

uint64_t any_word(void) {
    uint64_t z = own.chance += UINT64_C(0x9e3779b97f4a7c15);
    z = (z ^ z >> 30) * UINT64_C(0xbf58476d1ce4e5b9);
    z = (z ^ z >> 27) * UINT64_C(0x94d049bb133111eb);
    return z ^ z >> 31;
}
uint64_t below(uint64_t n) { return any_word() % n; }
int one_in(uint64_t n) { return below(n) == 0; }

void chance_from(uint64_t seed, uint64_t round) {
    seed_now = seed;
    round_now = round;
    own.chance = seed * UINT64_C(0x2545f4914f6cdd1d) + round;
    own.chance = any_word();
}

/* MEMORY */

void *__real_malloc(size_t size);
void *__real_realloc(void *block, size_t size);
void __real_free(void *block);
void *__wrap_malloc(size_t size);
void *__wrap_realloc(void *block, size_t size);
void __wrap_free(void *block);

/* Whether this allocation of a call is refused. */
static int is_refused(void) {
    own.allocations++;
    if (own.refuse_at == 0 || own.allocations < own.refuse_at) return 0;
    if (own.allocations > own.refuse_at && !own.refuses_rest) return 0;
    own.was_refused = 1;
    return 1;
}

void *__wrap_malloc(size_t size) {
    void *block;
    if (!own.is_in_call) return __real_malloc(size);
    if (is_refused()) return NULL;
    block = __real_malloc(size);
    if (block) add(&kept);
    return block;
}
void *__wrap_realloc(void *block, size_t size) {
    void *moved;
    if (!own.is_in_call) return __real_realloc(block, size);
    if (is_refused()) return NULL;
    moved = __real_realloc(block, size);
    if (moved && !block) add(&kept);
    return moved;
}
void __wrap_free(void *block) {
    if (own.is_in_call && block) __atomic_fetch_sub(&kept, 1, __ATOMIC_SEQ_CST);
    __real_free(block);
}

void *zeros(size_t count, size_t size) {
    void *all = calloc(count ? count : 1, size);
    IS(all != NULL);
    return all;
}

uint64_t *copy_of(const uint64_t *words, size_t count) {
    uint64_t *copy = (uint64_t *)zeros(count, sizeof *copy);
    memcpy(copy, words, count * sizeof *copy);
    return copy;
}
