/* touch.h: a heap at rest in two memories, whose threads go on while it slides from one into the other. Each page of
   to-space is built by whoever touches it first. A runtime copies this file and includes it in one file of C, after
   _GNU_SOURCE. A process has one such heap. A first touch is noticed in three ways:

   inline       before each load and store (compressor_load_touched), by no help of the system
   mprotect     to-space is mapped twice. The program's mapping has no access, so that a touch raises SIGSEGV; the page
                is built through the other mapping, and its access given back
   userfaultfd  the same, but pages are taken out of the mapping, a touch raises SIGBUS, and UFFDIO_CONTINUE puts them
                in. No mapping is split, so units may be small. Linux 5.14 or later; else it is mprotect

   In the last two the program loads and stores plainly. The handler runs on the stack of the thread that touched, and
   calls claim, build and publish, with a handle that the thread had before. A call of the system that is handed memory
   of a page that is not home fails (EFAULT): load one word of each of its pages first. */
#ifndef TOUCH_H
#define TOUCH_H

#include "compressor_rest.h"

#include <errno.h>
#include <fcntl.h>
#include <linux/userfaultfd.h>
#include <sched.h>
#include <signal.h>
#include <stdlib.h>
#include <sys/ioctl.h>
#include <sys/mman.h>
#include <sys/syscall.h>
#include <unistd.h>

enum {
    TOUCH_MOST_HANDS = 16, /* threads that touch, and those that only build */
    TOUCH_MOST_UNITS = 32768 /* by mprotect: each may be a mapping, and the system allows 65,530 */
};

typedef enum touch_way { TOUCH_INLINE, TOUCH_MPROTECT, TOUCH_USERFAULTFD } touch_way;

/* A memory as the program sees it, and as pages are built in it. */
typedef struct touch_memory {
    uint64_t *words, *alias;
    size_t bytes;
} touch_memory;

static struct {
    touch_way way;
    compressor_touch *met;           /* the runtime's, by which its loads and stores look */
    void (*refused)(uint64_t page, compressor_answer answer);
    uint64_t page_words;
    touch_memory memory[2];
    int at;                          /* in which the heap lies */
    uint32_t hands;
    compressor_pages hand[TOUCH_MOST_HANDS];
    /* changed in a pause */
    compressor_pages pages;          /* of who collects; empty if nothing slides */
    compressor_survey survey;        /* if all has been slid in the pause */
    const uint64_t *from;
    uint64_t used, live;             /* words of from-space, and those that slide */
    uint64_t count, trapped, ready;  /* pages; those whose first access traps; those of the next to-space that do */
    int faults;                      /* the file of userfaultfd */
    struct sigaction before[2];      /* of SIGSEGV and SIGBUS */
    /* by any thread: in a line of the cache of their own */
    __attribute__((aligned(64))) uint64_t left; /* pages that are not home */
    uint64_t next;                   /* the first page that no step took */
} touch;
static __thread compressor_pages *touch_own; /* of this thread */

/* userfaultfd: pages are out of the mapping until they are put in. */

#if defined(UFFDIO_CONTINUE) && defined(UFFD_USER_MODE_ONLY)
/* Its file, or -1. */
static inline int touch_faults(void) {
    struct uffdio_api api;
    const int file = (int)syscall(SYS_userfaultfd, O_CLOEXEC | O_NONBLOCK | UFFD_USER_MODE_ONLY);
    memset(&api, 0, sizeof api);
    api.api = UFFD_API;
    api.features = UFFD_FEATURE_SIGBUS | UFFD_FEATURE_MINOR_SHMEM | UFFD_FEATURE_MISSING_SHMEM;
    if (file < 0 || ioctl(file, UFFDIO_API, &api) == 0) return file;
    close(file);
    return -1;
}
static inline int touch_take_out(uint64_t *at, size_t bytes) {
    struct uffdio_register range;
    memset(&range, 0, sizeof range);
    range.range.start = (uintptr_t)at;
    range.range.len = bytes;
    range.mode = UFFDIO_REGISTER_MODE_MISSING | UFFDIO_REGISTER_MODE_MINOR;
    return madvise(at, bytes, MADV_DONTNEED) == 0 && ioctl(touch.faults, UFFDIO_REGISTER, &range) == 0;
}
static inline int touch_put_in(uint64_t *at, size_t bytes) {
    struct uffdio_continue range;
    memset(&range, 0, sizeof range);
    range.range.start = (uintptr_t)at;
    range.range.len = bytes;
    while (ioctl(touch.faults, UFFDIO_CONTINUE, &range) != 0)
        if (errno != EAGAIN) return errno == EEXIST;
    return 1;
}
/* Each page of the system, since some of the unit may be there. */
static inline int touch_put_in_again(uint64_t *at, size_t bytes) {
    const size_t step = (size_t)sysconf(_SC_PAGESIZE);
    int is_done = 1;
    for (size_t k = 0; k < bytes; k += step) is_done &= touch_put_in(at + k / sizeof *at, step);
    return is_done;
}
static inline int touch_end_faults(uint64_t *at, size_t bytes) {
    struct uffdio_range range;
    range.start = (uintptr_t)at;
    range.len = bytes;
    return ioctl(touch.faults, UFFDIO_UNREGISTER, &range) == 0;
}
#else
static inline int touch_faults(void) { return -1; }
static inline int touch_take_out(uint64_t *at, size_t bytes) { return (void)at, (void)bytes, 0; }
static inline int touch_put_in(uint64_t *at, size_t bytes) { return (void)at, (void)bytes, 0; }
static inline int touch_put_in_again(uint64_t *at, size_t bytes) { return (void)at, (void)bytes, 0; }
static inline int touch_end_faults(uint64_t *at, size_t bytes) { return (void)at, (void)bytes, 0; }
#endif

/* Makes the page accessible, if it traps. */
static inline int touch_show(uint64_t page, int again) {
    uint64_t *const at = touch.memory[touch.at].words + page * touch.page_words;
    const size_t bytes = touch.page_words * sizeof *at;
    if (page >= touch.trapped) return 1;
    if (touch.way == TOUCH_MPROTECT) return mprotect(at, bytes, PROT_READ | PROT_WRITE) == 0;
    return again ? touch_put_in_again(at, bytes) : touch_put_in(at, bytes);
}

/* Pages are built. */

static inline int touch_is_home(uint64_t page) { return __atomic_load_n(&touch.met->home[page], __ATOMIC_ACQUIRE); }

/* Whether all pages are. */
static inline int touch_all_home(void) { return __atomic_load_n(&touch.left, __ATOMIC_ACQUIRE) == 0; }

/* What ends the program, or makes the words again what they were. */
static inline void touch_refuse(uint64_t page, compressor_answer answer) { touch.refused(page, answer); }

static inline void touch_no_access(uint64_t page) {
    const compressor_answer answer = {COMPRESSOR_OUT_OF_MEMORY, 0, (uint64_t)errno};
    touch_refuse(page, answer);
}

/* The hand has the turn for this page. 0 if it was refused: then the page waits again. */
static inline int touch_fill(compressor_pages *hand, uint64_t page) {
    const uint64_t first = page * touch.page_words, rest = touch.live - first;
    uint64_t *const at = touch.memory[touch.at].alias + first;
    compressor_answer a = compressor_pages_build(hand, touch.from, touch.used, at,
                                                 rest < touch.page_words ? rest : touch.page_words);
    if (a.status == COMPRESSOR_DONE) {
        if (!touch_show(page, 0)) touch_no_access(page);
        a = compressor_pages_publish(hand);
    }
    if (a.status != COMPRESSOR_DONE) {
        touch_refuse(page, a);
        return 0;
    }
    __atomic_store_n(&touch.met->home[page], 1, __ATOMIC_RELEASE);
    if (__atomic_sub_fetch(&touch.left, 1, __ATOMIC_ACQ_REL) == 0)
        __atomic_store_n(&touch.met->is_on, 0, __ATOMIC_RELEASE);
    return 1;
}

/* Builds the page, or waits until another thread has. A hand that has a turn is refused another one (TURN_TAKEN): so
   no thread waits for itself. */
static inline void touch_page(compressor_pages *hand, uint64_t page) {
    for (unsigned tries = 0; !touch_is_home(page); tries++) {
        const compressor_answer a = compressor_pages_claim(hand, page);
        if (a.status == COMPRESSOR_DONE) touch_fill(hand, page);
        else if (a.status != COMPRESSOR_PAGE_BUSY && a.status != COMPRESSOR_PAGE_HOME) touch_refuse(page, a);
        else if (tries > 100) sched_yield();
    }
}

static inline void touch_meet(compressor_touch *met, uint64_t page) {
    (void)met;
    touch_page(touch_own, page);
}

/* Builds up to so many pages that nobody else has, in their order. Answers how many: 0 if none is left to be taken. */
static inline uint64_t touch_step(uint64_t most) {
    uint64_t built = 0;
    while (built < most) {
        const uint64_t page = __atomic_fetch_add(&touch.next, 1, __ATOMIC_RELAXED);
        compressor_answer a;
        if (page >= touch.count) break;
        if (touch_is_home(page)) continue;
        a = compressor_pages_claim(touch_own, page);
        if (a.status == COMPRESSOR_DONE) built += (uint64_t)touch_fill(touch_own, page);
        else if (a.status != COMPRESSOR_PAGE_BUSY && a.status != COMPRESSOR_PAGE_HOME) touch_refuse(page, a);
    }
    return built;
}

/* Traps */

/* It is no touch: whoever had the signal before has it. */
static inline void touch_pass_on(int number, siginfo_t *info, void *context) {
    const struct sigaction *const before = &touch.before[number == SIGBUS];
    if (before->sa_flags & SA_SIGINFO) before->sa_sigaction(number, info, context);
    else if (before->sa_handler != SIG_DFL && before->sa_handler != SIG_IGN) before->sa_handler(number);
    else sigaction(number, before, NULL);
}
static void touch_trap(int number, siginfo_t *info, void *context) {
    const int error = errno;
    const uintptr_t at = (uintptr_t)info->si_addr, first = (uintptr_t)touch.memory[touch.at].words;
    const uint64_t page = (at - first) / (touch.page_words * sizeof(uint64_t));
    if (touch_own == NULL || at < first || page >= touch.trapped) touch_pass_on(number, info, context);
    else if (!touch_is_home(page)) touch_page(touch_own, page);
    else if (!touch_show(page, 1)) touch_no_access(page); /* it was home, and the system took it out again */
    errno = error;
}

static inline int touch_catch(void) {
    struct sigaction action;
    memset(&action, 0, sizeof action);
    action.sa_sigaction = touch_trap;
    action.sa_flags = SA_SIGINFO;
    sigemptyset(&action.sa_mask);
    return sigaction(SIGSEGV, &action, &touch.before[0]) == 0 && sigaction(SIGBUS, &action, &touch.before[1]) == 0;
}

/* The pages of a memory from one up to another trap, or no more. */
static inline int touch_protect(int trap, int which, uint64_t from, uint64_t to) {
    uint64_t *const at = touch.memory[which].words + from * touch.page_words;
    const size_t bytes = from < to ? (to - from) * touch.page_words * sizeof *at : 0;
    if (bytes == 0) return 1;
    if (touch.way == TOUCH_MPROTECT) return mprotect(at, bytes, trap ? PROT_NONE : PROT_READ | PROT_WRITE) == 0;
    return trap ? touch_take_out(at, bytes) : touch_end_faults(at, bytes);
}
/* No page traps any more. By mprotect none does if all are home. */
static inline void touch_unprotect(void) {
    const uint64_t pages = touch.trapped > touch.ready ? touch.trapped : touch.ready;
    if (touch.way == TOUCH_USERFAULTFD || touch.ready || !touch_all_home()) touch_protect(0, touch.at, 0, pages);
    touch.trapped = touch.ready = 0;
}
/* Beside threads, while nothing slides: so many words of the other memory trap, nearly all that slide there next. */
static inline void touch_ready(uint64_t words) {
    const uint64_t pages = touch.way == TOUCH_INLINE ? 0 : words / touch.page_words;
    if (touch_protect(1, 1 - touch.at, touch.ready, pages)) touch.ready = pages;
}

static inline uint64_t *touch_mapped(int file, size_t bytes) {
    void *const at = mmap(NULL, bytes, PROT_READ | PROT_WRITE, MAP_SHARED, file, 0);
    return at == MAP_FAILED ? NULL : (uint64_t *)at;
}
static inline int touch_map_twice(touch_memory *memory, size_t bytes) {
    const int file = (int)syscall(SYS_memfd_create, "heap", 1u /* closed by exec */);
    memory->bytes = bytes;
    if (file < 0) return 0;
    if (ftruncate(file, (off_t)bytes) == 0) {
        memory->words = touch_mapped(file, bytes);
        memory->alias = touch_mapped(file, bytes);
    }
    close(file);
    return memory->words != NULL && memory->alias != NULL;
}
static inline void touch_unmap(touch_memory *memory) {
    if (memory->words != NULL) munmap(memory->words, memory->bytes);
    if (memory->alias != NULL) munmap(memory->alias, memory->bytes);
}
static inline void touch_traps_end(void) {
    for (int k = 0; k < 2; k++) touch_unmap(&touch.memory[k]);
    if (touch.faults >= 0) close(touch.faults);
    sigaction(SIGSEGV, &touch.before[0], NULL);
    sigaction(SIGBUS, &touch.before[1], NULL);
}
/* Null, or the name of an error. */
static inline const char *touch_traps_start(size_t room) {
    if (!touch_catch()) return "NoHandler";
    if (touch.page_words * sizeof(uint64_t) % (size_t)sysconf(_SC_PAGESIZE) != 0) return "PageTooSmall";
    if (touch.way == TOUCH_USERFAULTFD && (touch.faults = touch_faults()) < 0) touch.way = TOUCH_MPROTECT;
    while (touch.way == TOUCH_MPROTECT && room / touch.page_words > TOUCH_MOST_UNITS) touch.page_words *= 2;
    const size_t units = (room + touch.page_words - 1) / touch.page_words;
    for (int k = 0; k < 2; k++)
        if (!touch_map_twice(&touch.memory[k], units * touch.page_words * sizeof(uint64_t))) return "NoMapping";
    return NULL;
}

/* Start and end */

static inline void *touch_zeros(size_t count, size_t bytes) {
    void *const at = calloc(count, bytes);
    return at != NULL ? at : calloc(count, bytes);
}

/* Makes both memories, of so many words; pages of page_words, a power of 2; `hands` threads, by their numbers.
   refused: called by the thread that was to build a page, also in a handler; with OUT_OF_MEMORY (errno) if the page got
   no access. It ends the program, or makes the words what they were: then the page is built anew. Null, or the name of
   an error; it is to be closed after both. touch.way and touch.page_words say what it is. */
static inline const char *touch_open(touch_way way, size_t room, uint64_t page_words, uint32_t hands,
                                     compressor_touch *met, void (*refused)(uint64_t, compressor_answer)) {
    const char *error = NULL;
    memset(&touch, 0, sizeof touch);
    memset(met, 0, sizeof *met);
    touch.way = way;
    touch.met = met;
    touch.refused = refused;
    touch.page_words = page_words;
    touch.hands = hands;
    touch.faults = -1;
    if (way != TOUCH_INLINE) error = touch_traps_start(room);
    else
        for (int k = 0; k < 2; k++)
            touch.memory[k].words = touch.memory[k].alias = (uint64_t *)touch_zeros(room, sizeof(uint64_t));
    met->meet = touch_meet;
    met->home = (unsigned char *)touch_zeros(room / touch.page_words + 1, 1);
    while (UINT64_C(1) << met->shift < touch.page_words) met->shift++;
    if (error != NULL) return error;
    return met->home != NULL && touch.memory[0].words != NULL && touch.memory[1].words != NULL ? NULL : "OutOfMemory";
}

/* The calling thread has this number from now on; it is set before the thread touches or builds anything. */
static inline void touch_enter(uint32_t number) { touch_own = &touch.hand[number]; }

/* Where the heap lies. moved: in a pause, while nothing slides: in the other memory, into which another call slides. */
static inline uint64_t *touch_words(void) { return touch.memory[touch.at].words; }
static inline void touch_moved(void) {
    touch.at = 1 - touch.at;
    touch_unprotect();
}

/* A share for each thread: 0 if there is no memory. */
static inline int touch_share(void) {
    for (uint32_t k = 0; k < touch.hands; k++)
        if (compressor_pages_share(&touch.pages, &touch.hand[k]).status != COMPRESSOR_DONE &&
            compressor_pages_share(&touch.pages, &touch.hand[k]).status != COMPRESSOR_DONE)
            return 0;
    return 1;
}

static inline void touch_slide_at_once(compressor_survey *survey) {
    compressor_answer a;
    touch_unprotect();
    while ((a = compressor_survey_slide(survey, touch.from, touch.used, 0, touch.memory[touch.at].alias, touch.live))
               .status != COMPRESSOR_DONE)
        touch_refuse(0, a);
    touch.survey = *survey;
    survey->at = NULL;
}

/* Pages that are touched trap or are noticed from now on, all but the last one, in which new objects begin. 0: none. */
static inline int touch_notice(void) {
    const uint64_t pages = touch.count - 1, ready = touch.ready;
    touch.trapped = touch.way == TOUCH_INLINE ? 0 : pages;
    touch.ready = 0;
    touch_protect(0, touch.at, touch.trapped, ready);
    if (!touch_protect(1, touch.at, ready, touch.trapped)) return 0;
    __atomic_store_n(&touch.met->is_on, touch.way == TOUCH_INLINE && pages != 0, __ATOMIC_RELEASE);
    return 1;
}

/* In a pause, after the survey of all `used` words, by which the roots have been forwarded: the heap lies in the other
   memory from now on, and its pages are built while the threads go on. The survey goes. at_once: or all of it is slid
   here, as it is where there is no memory for shares. Answers how many pages are not home. */
static inline uint64_t touch_begin(compressor_survey *survey, uint64_t used, uint64_t live, int at_once) {
    compressor_answer a = {COMPRESSOR_OUT_OF_MEMORY, 0, 0};
    touch.from = touch.memory[touch.at].words;
    touch.used = used;
    touch.live = live;
    touch.at = 1 - touch.at;
    touch.count = touch.left = touch.next = touch.trapped = 0;
    for (int tries = 0; tries < 2 && !at_once && live != 0 && a.status == COMPRESSOR_OUT_OF_MEMORY; tries++)
        a = compressor_pages_begin(survey, touch.page_words, &touch.pages);
    if (a.status != COMPRESSOR_DONE) {
        touch_slide_at_once(survey);
        return 0;
    }
    touch.met->pages = touch.count = touch.left = a.value;
    memset(touch.met->home, 0, touch.count);
    if (touch_share() && touch_notice()) touch_page(&touch.pages, touch.count - 1);
    else {
        touch_unprotect();
        for (uint64_t page = 0; page < touch.count; page++) touch_page(&touch.pages, page);
    }
    return touch.left;
}

/* In a pause: builds what is not home yet; then from-space is free, and the survey is back. All threads that have a
   number stand still, and none of them is within a step. */
static inline compressor_answer touch_end(compressor_survey *survey) {
    const compressor_answer none = {COMPRESSOR_DONE, 0, 0};
    for (uint64_t page = 0; page < touch.count && !touch_all_home(); page++) touch_page(&touch.pages, page);
    touch_unprotect();
    for (uint32_t k = 0; k < touch.hands; k++) compressor_pages_drop(&touch.hand[k]);
    if (touch.pages.at != NULL) return compressor_pages_end(&touch.pages, survey);
    *survey = touch.survey;
    touch.survey.at = NULL;
    return none;
}

/* After touch_end. */
static inline void touch_close(void) {
    if (touch.way != TOUCH_INLINE) touch_traps_end();
    else
        for (int k = 0; k < 2; k++) free(touch.memory[k].words);
    free(touch.met->home);
    touch.met->home = NULL;
}

#endif
