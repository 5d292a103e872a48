/* compressor.h: a compacting garbage collector for runtimes in C, C++ and unverified Rust. There are two ways to use
   it. A flipped heap: threads go on while their heap is compacted, and read, write and allocate by calls of a mutator.
   A heap at rest: it lies in memory of the runtime's, which reads, writes and allocates there with no call
   (compressor_rest.h); it stands still for a collection, or for its survey alone (compressor_pages_begin). Here is the
   manual of each call, and docs/C.md is the guide; docs/ is installed in share/doc/compressor. The library calls
   malloc, realloc and free, and nothing else.

   Handles. Each kind of thing has a struct of its own: heap, plan, crew, mutator, end; survey, tables, growing, old,
   job, marking, looks, lane, pages. A handle is empty or keeps one thing. Begin with COMPRESSOR_EMPTY, or with zero
   bytes. Only calls write to a handle. It may be moved in memory, and never used from two copies. The handles of one
   call are not the same handle. What a call makes goes into an empty handle; a drop alone frees what a handle keeps,
   and of old tables compressor_old_return. Where a call says that something goes, its handle is empty then.

   Arrays. The pointer of an array of length 0 may be null, and no other one. Elements are aligned as their type. An
   array or a struct that is written overlaps no other one, and none overlaps a handle, of the same call; those that are
   only read may overlap. While a call runs, nobody writes to what it reads, or uses what it writes. No call keeps a
   pointer of the caller's. Of a call that fills a buffer, what lies behind the count of the answer stays.

   Threads. Each handle is used by one call at a time, reads included; from one thread to the next by a lock, the start
   or join of a thread, or an atomic that is stored with release and loaded with acquire, or more. What is often asked
   is copied into plain structs (.._facts), which anybody may read. Mutators of one crew are used at the same time
   without a lock. To use one plan, survey, job, marking or slide by pages from several threads, give each a share of
   its own (.._share). No call waits, locks, or starts a thread. No call is made from a signal handler, but for those of
   which it is said; none in the forked child of a process with threads.

   Answers. status is COMPRESSOR_DONE, and then value is the result, 0 if none is named; else value and other are
   the numbers that the refusal names, in this order, and 0. A refused call leaves handles and buffers as they were,
   but where its comment says otherwise. Refusals come in the order in which a comment names them; before all others
     COMPRESSOR_EMPTY_HANDLE   a handle that is read is empty, and
     COMPRESSOR_NOT_EMPTY      one that is to be filled keeps something (value: which handle of the call, from 0).
   COMPRESSOR_OUT_OF_MEMORY comes only if a comment says 'memory'. It may come in place of what is named behind it, and
   then the call may be made again.

   Immediates. In a heap of edition four a root, a reference or a weak word may also be a word from COMPRESSOR_IMMEDIATE
   on. Wherever null is allowed below as a value, an immediate is too; it leads nowhere, and no call changes it. As the
   object of a read or a write it is COMPRESSOR_NOT_A_START. In editions one to three such a word is refused.

   Platform: 64 bits, little-endian, the C calling convention of x86-64 Linux. */
#ifndef COMPRESSOR_H
#define COMPRESSOR_H

#include <stddef.h>
#include <stdint.h>

/* The version of this header. A new first number may change all calls. */
#define COMPRESSOR_VERSION_MAJOR 1
#define COMPRESSOR_VERSION_MINOR 0
#define COMPRESSOR_VERSION_PATCH 0
#define COMPRESSOR_VERSION_TEXT "1.0.0"
#define COMPRESSOR_VERSION \
    (COMPRESSOR_VERSION_MAJOR * 1000000u + COMPRESSOR_VERSION_MINOR * 1000u + COMPRESSOR_VERSION_PATCH)

#if !defined(__linux__) || !defined(__x86_64__) || defined(__ILP32__)
#error "compressor.h: this library is for x86-64 Linux, 64 bits"
#endif

#ifdef __cplusplus
#define COMPRESSOR_ASSERT_(fact, text) static_assert(fact, text)
#define COMPRESSOR_AS_(type, value) static_cast<type>(value)
extern "C++" { /* a number of any type, so that no compiler calls the cast useless */
template <class compressor_number_> constexpr uint64_t compressor_word_(compressor_number_ n) {
    return static_cast<uint64_t>(n);
}
}
#define COMPRESSOR_EMPTY {nullptr}
#else
#define COMPRESSOR_ASSERT_(fact, text) _Static_assert(fact, text)
#define COMPRESSOR_AS_(type, value) ((type)(value))
#define compressor_word_(n) ((uint64_t)(n))
#define COMPRESSOR_EMPTY {NULL}
#endif

#ifdef __cplusplus
extern "C" {
#endif

/* HANDLES AND ANSWERS */

typedef struct compressor_heap { void *at; } compressor_heap;       /* words, roots, and which objects are marked */
typedef struct compressor_plan { void *at; } compressor_plan;       /* where each object of a heap slides */
typedef struct compressor_crew { void *at; } compressor_crew;       /* mutators of a flipped heap that no thread has */
typedef struct compressor_mutator { void *at; } compressor_mutator; /* what one thread needs of a flipped heap */
typedef struct compressor_end { void *at; } compressor_end;         /* a finished cycle: pages, journals, roots */
typedef struct compressor_survey { void *at; } compressor_survey;   /* which objects of a heap at rest are live */
typedef struct compressor_tables { void *at; } compressor_tables;   /* room for a survey, made before it */
typedef struct compressor_growing { void *at; } compressor_growing; /* a survey that grows, by more roots */
typedef struct compressor_old { void *at; } compressor_old;         /* tables of young collections, with a watermark */
typedef struct compressor_job { void *at; } compressor_job;         /* the marking of a heap at rest by many threads */
typedef struct compressor_marking { void *at; } compressor_marking; /* the same in steps, over words that are lent */
typedef struct compressor_looks { void *at; } compressor_looks;     /* the marking of a heap while its threads go on */
typedef struct compressor_lane { void *at; } compressor_lane;       /* what one of several markers met and looked at */
typedef struct compressor_pages { void *at; } compressor_pages;     /* the slide of a surveyed heap, page by page */

typedef struct compressor_answer {
    uint32_t status;
    uint32_t other; /* the second number of a refusal */
    uint64_t value;
} compressor_answer;

typedef enum compressor_status {
    COMPRESSOR_DONE = 0,
    /* calls of a mutator */
    COMPRESSOR_BUSY = 1,              /* (page) another mutator builds or holds it, or was faster: call again */
    COMPRESSOR_NULL_OBJECT = 2,       /* the object is null */
    COMPRESSOR_NOT_A_START = 3,       /* (address) the mutator knows of no object there */
    COMPRESSOR_NO_SUCH_FIELD = 4,     /* (field) the object has none of this kind with this number */
    COMPRESSOR_OBJECT_TOO_LARGE = 6,  /* (words) more than COMPRESSOR_MAX_NEW_WORDS */
    COMPRESSOR_OUT_OF_PAGES = 7,      /* no fresh page of the mutator's has room: end the cycle */
    COMPRESSOR_JOURNAL_FULL = 8,      /* (page) it has COMPRESSOR_MAX_ENTRIES entries: end the cycle */
    COMPRESSOR_OUT_OF_MEMORY = 9,
    COMPRESSOR_EMPTY_HANDLE = 10,     /* (which) */
    COMPRESSOR_NOT_EMPTY = 11,        /* (which) */
    COMPRESSOR_NO_SUCH_PAGE = 12,     /* (page) */
    COMPRESSOR_NO_SUCH_ROOT = 13,     /* (number) */
    COMPRESSOR_BAD_MUTATORS = 14,     /* (count) not 1 to 64 */
    COMPRESSOR_TOO_MANY_PAGES = 15,   /* (the most fresh pages with which the cycle can be followed) */
    COMPRESSOR_MUTATOR_MISSING = 16,  /* (the least number that was not handed back) */
    COMPRESSOR_OTHER_CREW = 17,       /* a mutator of another crew */
    COMPRESSOR_NO_MUTATOR_LEFT = 18,
    COMPRESSOR_BAD_EDITION = 19,      /* (edition) not 1 to 4; of bits not 3 or 4 */
    COMPRESSOR_NOT_BUILT = 20,        /* (page) nobody built it: it has the words of the plan (compressor_plan_page),
                                         or zeros if fresh; of a slide: its turn is had, and it is not built yet */
    COMPRESSOR_NO_SUCH_ENTRY = 21,    /* (number) */
    COMPRESSOR_TOO_SHORT = 22,        /* (length; which) the buffer is shorter; which is 0 but of compressor_end_rest.
                                         Of compressor_collect_pinned (runs) */
    COMPRESSOR_NO_SUCH_BUILD = 23,    /* (number) */
    COMPRESSOR_NO_SUCH_MUTATOR = 24,  /* (number) */
    /* calls of a heap at rest */
    COMPRESSOR_NO_SUCH_PART = 25,     /* the part ends behind the live words */
    COMPRESSOR_CHANGED = 26,          /* (index) the object has not as many words as when it was surveyed */
    COMPRESSOR_UNMARKED = 27,         /* (index of the word) a reference in the part leads to no live object */
    COMPRESSOR_STILL_SHARED = 28,     /* another handle keeps a share; of a crew never, if conditions are kept */
    COMPRESSOR_OTHER_COUNT = 29,      /* not as many words as were surveyed */
    COMPRESSOR_SHORT_TABLES = 30,     /* (words) there are more words than the tables have room for */
    COMPRESSOR_WRONG_LENGTH = 31,     /* not one block of bits for each 64 words, the last ones in part; or not as many
                                         words as a marking is of, or a survey that grows */
    COMPRESSOR_BAD_OPTIONS = 32,      /* (options) a bit that has no meaning */
    /* 32 + n: fault Hn of a heap or an image (docs/FORMATS.md); H11 is COMPRESSOR_OUT_OF_MEMORY */
    COMPRESSOR_TOO_LARGE = 33,        /* more words, marks or roots than the edition allows */
    COMPRESSOR_OBJECT_PAST_END = 34,  /* (index) */
    COMPRESSOR_OBJECT_TOO_LONG = 35,  /* (index) */
    COMPRESSOR_MARK_NOT_START = 36,   /* (index) */
    COMPRESSOR_MARKS_NOT_RISING = 37, /* (the mark that is not above the one before it) */
    COMPRESSOR_BAD_ROOT = 38,         /* (number) */
    COMPRESSOR_UNMARKED_TARGET = 39,  /* (index of the word) */
    COMPRESSOR_IMAGE_TRUNCATED = 40,
    COMPRESSOR_IMAGE_TRAILING = 41,
    COMPRESSOR_IMAGE_BAD_MAGIC = 42,
    COMPRESSOR_BAD_WEAK = 45,         /* (index of the word) */
    /* 64 + n: fault An of a dump */
    COMPRESSOR_WRONG_WORD = 65,       /* (address) */
    COMPRESSOR_LOOSE_REFERENCE = 66,  /* (address) */
    COMPRESSOR_BAD_ENTRY = 67,        /* (page; entry) */
    COMPRESSOR_STAMP_REPEATED = 68,   /* (stamp) */
    COMPRESSOR_STAMP_MISSING = 69,    /* (stamp) */
    COMPRESSOR_WRONG_TOTAL = 70,
    COMPRESSOR_BUILD_UNCLAIMED = 71,  /* (page) */
    COMPRESSOR_WRONG_HEAD = 72,
    COMPRESSOR_PAGE_MISSING = 73,     /* (page) only with COMPRESSOR_WHOLE */
    /* 96 + n: Bn, the bytes are no dump, no file of words, no moved heap */
    COMPRESSOR_FILE_TRUNCATED = 97,
    COMPRESSOR_FILE_TRAILING = 98,
    COMPRESSOR_FILE_BAD_MAGIC = 99,
    COMPRESSOR_FILE_BAD_FIELD = 100,
    /* 128 + n: fault Sn of a heap at rest; those that have the cause of a fault Hn are 32 + n */
    COMPRESSOR_BAD_REFERENCE = 131,   /* (index of the word) a reference of a live object leads to none of the words */
    COMPRESSOR_OVERLAP = 135,         /* (index) the object has a word with another live object; of lanes: this word */
    /* 160 + n: fault Vn of a moved heap. Objects are the marked ones, counted from 0 */
    COMPRESSOR_MOVED_WRONG_HEAD = 161,    /* (0 edition, 1 places, 2 roots) */
    COMPRESSOR_MOVED_PLACE_OUTSIDE = 162, /* (object) */
    COMPRESSOR_MOVED_OVERLAP = 163,       /* (object; object) */
    COMPRESSOR_MOVED_WRONG_ROOT = 164,    /* (number) */
    COMPRESSOR_MOVED_WRONG_WORD = 165,    /* (object; word) */
    /* bits of the runtime's own */
    COMPRESSOR_NOT_A_RUN = 192,       /* (index) a first word that is not live; or it is live, no first word, and behind
                                         none */
    /* calls of a slide by pages */
    COMPRESSOR_NO_SIZE = 193,         /* a page has no words */
    COMPRESSOR_PAGE_HOME = 194,       /* (page) it was published */
    COMPRESSOR_PAGE_BUSY = 195,       /* (page) another handle has its turn, or had it a moment ago: call again */
    COMPRESSOR_TURN_TAKEN = 196,      /* (page) this handle has the turn for this page already */
    COMPRESSOR_NOT_HOME = 197,        /* (page) it is not published yet */
    COMPRESSOR_NO_TURN = 198,         /* this handle has no turn, or, to build, only that of a built page */
    COMPRESSOR_OTHER_LENGTH = 199,    /* (words) the page has so many words, and the memory has another number */
    /* calls of a marking by many threads */
    COMPRESSOR_MARKERS_BUSY = 200,    /* too many other threads marked a moment ago: call again */
    COMPRESSOR_STILL_MARKING = 201,   /* objects wait to be looked at */
    COMPRESSOR_BAD_OBJECT = 202,      /* (index) it is too long, ends past the words, or overlaps another one */
    /* calls of a marking by looks */
    COMPRESSOR_NO_SUCH_OBJECT = 210,  /* (index) no object was met there; (0) there are more rows than objects wait */
    COMPRESSOR_STILL_WAITING = 211,   /* (index) this object waits to be looked at */
    COMPRESSOR_MISSING_OBJECT = 212,  /* (index) a lane met this object, and it is in none of those that were joined */
    COMPRESSOR_OTHER_HEAP = 213,      /* the lanes are of two editions, or not of as many words */
    /* young collections */
    COMPRESSOR_FEW_WORDS = 221,       /* (words) there are fewer words than the watermark, or than are to be old */
    COMPRESSOR_FEW_CARDS = 222,       /* (cards) so many are wanted: one for each 64 words below the watermark; of
                                         compressor_collect_aging, of the words that the last collection left */
    COMPRESSOR_NOT_A_FIELD = 223,     /* (index) it is listed, and no old object has a reference or a weak word there */
    COMPRESSOR_NOT_A_ROW = 224,       /* (index) before this word old objects lie in a row, as the last collection left
                                         them, and here the row does not go on: a header was changed; of
                                         compressor_old_raise, objects that are to be old, and no such object is here */
    COMPRESSOR_LEADS_ABOVE = 225,     /* (index of the word) it is a reference or a weak word of an old object, its card
                                         is clean, and it leads to no old object */
    /* collections around objects that stay */
    COMPRESSOR_BAD_PIN = 226,         /* (number) it is the address of none of the words; it may be null */
    /* a watermark that is raised */
    COMPRESSOR_BELOW_WATERMARK = 227, /* (watermark) the end is below it, and a watermark is only raised */
    COMPRESSOR_WRONG_HANDLE = 255         /* a handle of another kind: a cast, a byte that C wrote, or a survey that was
                                             to grow and is over (compressor_growing_return) */
} compressor_status;

/* An entry of a journal: the stamps of all entries of all pages are the numbers from 0 on. The layout and the kinds are
   those of a dump, padded. */
typedef struct compressor_entry {
    uint64_t stamp;
    uint64_t value;
    uint8_t writer; /* the number of the mutator */
    uint8_t kind;   /* enum compressor_kind */
    uint8_t offset; /* of the word on its page */
    uint8_t unused[5];
} compressor_entry;

enum compressor_kind {
    COMPRESSOR_KIND_HEADER = 0,
    COMPRESSOR_KIND_REF = 1,
    COMPRESSOR_KIND_DATA = 2,
    COMPRESSOR_KIND_WEAK = 3
};

/* What an object is: one header word, then so many references, weak words and data words, in this order. */
typedef struct compressor_shape {
    uint32_t refs;
    uint32_t weak;
    uint32_t data;
    uint32_t tag;
} compressor_shape;

typedef struct compressor_heap_facts {
    uint64_t words;
    uint64_t marked;           /* objects */
    uint64_t roots;
    uint32_t edition;
    uint32_t unused;
} compressor_heap_facts;

typedef struct compressor_plan_facts {
    uint64_t live_words;
    uint64_t pages;            /* compacted ones; a flip adds fresh ones behind them */
    uint64_t most_fresh_pages; /* of a flip: more are COMPRESSOR_TOO_MANY_PAGES */
    uint64_t roots;
    uint32_t edition;
    uint32_t unused;
} compressor_plan_facts;

typedef struct compressor_mutator_facts {
    uint64_t pages;           /* compacted ones first, then fresh ones */
    uint64_t compacted_pages;
    uint64_t builds;          /* pages that this mutator built */
    uint64_t entries;         /* writes and allocations of this mutator */
    uint64_t made_words;      /* of all objects that it allocated */
    uint64_t roots;
    uint32_t edition;
    uint32_t mutators;        /* of the crew */
    uint32_t number;
    uint32_t unused;
} compressor_mutator_facts;

typedef struct compressor_end_facts {
    uint64_t live_words;      /* those that slid, and those of new objects */
    uint64_t pages;
    uint64_t compacted_pages;
    uint64_t rest_words;      /* of all pages: 64 a page, as compressor_end_rest writes them */
    uint64_t roots;
    uint32_t edition;
    uint32_t mutators;
} compressor_end_facts;

typedef struct compressor_survey_facts {
    uint64_t live_words; /* of the live objects: those that slide, from the first word of the new memory on */
} compressor_survey_facts;

/* What a call of compressor_job_help or compressor_marking_help did. */
enum compressor_help {
    COMPRESSOR_HELP_DONE = 0,   /* nothing is left to help with: the job or the marking may be finished */
    COMPRESSOR_HELP_WORKED = 1, /* it looked at some objects: call again */
    COMPRESSOR_HELP_IDLE = 2    /* other threads have the objects that wait: call again later */
};

/* CONSTANTS (docs/FORMATS.md) */

#define COMPRESSOR_FROM_SPACE UINT64_C(0x100000000)    /* word i of a heap has this address + i */
#define COMPRESSOR_TO_SPACE UINT64_C(0x200000000)      /* word i of a flipped heap has this address + i */
#define COMPRESSOR_IMMEDIATE (UINT64_C(1) << 63)       /* edition four: from here on a value is no reference */
#define COMPRESSOR_PAGE_WORDS 64u
#define COMPRESSOR_MAX_NEW_WORDS 64u                   /* of an object that a mutator makes, with its header */
#define COMPRESSOR_MAX_ENTRIES 1024u                   /* of a page in a cycle */
#define COMPRESSOR_MAX_MUTATORS 64u

static inline uint64_t compressor_max_words(uint32_t edition) {
    return edition < 3 ? UINT64_C(1) << 20 : UINT64_C(1) << 31;
}
static inline uint64_t compressor_max_object_words(uint32_t edition) {
    return edition < 3 ? 1024u : UINT64_C(1) << 31;
}
static inline uint64_t compressor_max_roots(uint32_t edition) { /* and of fresh pages */
    return edition < 3 ? 4096u : UINT64_C(1) << 20;
}
static inline uint64_t compressor_max_pages(uint32_t edition) { /* of a cycle that can be followed, fresh ones too */
    return compressor_max_words(edition) / COMPRESSOR_PAGE_WORDS;
}
static inline uint64_t compressor_max_tag(uint32_t edition) {
    return edition == 1 ? UINT32_MAX : edition == 2 ? 65535u : 16383u;
}

/* The shape that a header word says, and the words of an object of that shape, its header too. */
static inline compressor_shape compressor_shape_of(uint32_t edition, uint64_t header) {
    compressor_shape s;
    const uint64_t form = edition < 3 ? 0 : header >> 62;
    const uint32_t many = COMPRESSOR_AS_(uint32_t, header & 0x7fffffffu);
    const uint32_t few = COMPRESSOR_AS_(uint32_t, header >> 31 & 0x1ffffu);
    s.refs = form == 0 ? COMPRESSOR_AS_(uint32_t, header & 0xffffu) : form == 1 ? many : form == 2 ? few : 0;
    s.weak = form == 3 ? many : form != 0 || edition == 1 ? 0 : COMPRESSOR_AS_(uint32_t, header >> 32 & 0xffffu);
    s.data = form == 0 ? COMPRESSOR_AS_(uint32_t, header >> 16 & 0xffffu) : form == 2 ? many : few;
    s.tag = edition == 1   ? COMPRESSOR_AS_(uint32_t, header >> 32)
            : edition == 2 ? COMPRESSOR_AS_(uint32_t, header >> 48)
                           : COMPRESSOR_AS_(uint32_t, header >> 48 & 0x3fffu);
    return s;
}
static inline uint64_t compressor_shape_words(compressor_shape s) {
    return UINT64_C(1) + s.refs + s.weak + s.data;
}
/* The header word of a shape: 1 and the word, or 0 if the edition has none. It is the mixed form if that has room. */
static inline int compressor_shape_header(uint32_t edition, compressor_shape s, uint64_t *header) {
    const uint64_t r = s.refs, w = s.weak, d = s.data, t = s.tag, many = UINT64_C(1) << 31, few = UINT64_C(1) << 17;
    if (edition < 1 || edition > 4 || t > compressor_max_tag(edition)) return 0;
    if (r < 65536 && d < 65536 && w < 65536 && (edition != 1 || w == 0)) {
        *header = r | d << 16 | w << 32 | (edition == 1 ? t << 32 : t << 48);
        return 1;
    }
    if (edition < 3) return 0;
    if (w == 0 && r < many && d < few) *header = r | d << 31 | t << 48 | UINT64_C(1) << 62;
    else if (w == 0 && d < many && r < few) *header = d | r << 31 | t << 48 | UINT64_C(2) << 62;
    else if (r == 0 && w < many && d < few) *header = w | d << 31 | t << 48 | UINT64_C(3) << 62;
    else return 0;
    return 1;
}

/* Constant expressions, for editions three and four. The header word of counts below 65,536 and a tag below 16,384; that
   of n references, n weak words or n words of data alone, n below 2^31, which is what compressor_shape_header makes; the
   tag of any header word; the word with another tag. */
#define COMPRESSOR_HEADER(refs, weak, data, tag)                                                              \
    (compressor_word_(refs) | compressor_word_(data) << 16 | compressor_word_(weak) << 32 | compressor_word_(tag) << 48)
#define COMPRESSOR_MANY_(n, form, tag) (compressor_word_(n) | UINT64_C(form) << 62 | compressor_word_(tag) << 48)
#define COMPRESSOR_HEADER_REFS(n, tag) \
    (compressor_word_(n) < 65536u ? COMPRESSOR_HEADER(n, 0, 0, tag) : COMPRESSOR_MANY_(n, 1, tag))
#define COMPRESSOR_HEADER_WEAK(n, tag) \
    (compressor_word_(n) < 65536u ? COMPRESSOR_HEADER(0, n, 0, tag) : COMPRESSOR_MANY_(n, 3, tag))
#define COMPRESSOR_HEADER_DATA(n, tag)                                                     \
    (compressor_word_(n) < 65536u    ? COMPRESSOR_HEADER(0, 0, n, tag)                     \
     : compressor_word_(n) < 131072u ? COMPRESSOR_MANY_(compressor_word_(n) << 31, 1, tag) \
                                     : COMPRESSOR_MANY_(n, 2, tag))
#define COMPRESSOR_TAG_OF(header) COMPRESSOR_AS_(uint32_t, (header) >> 48 & 0x3fffu)
#define COMPRESSOR_WITH_TAG(header, tag) \
    (((header) & ~(UINT64_C(0x3fff) << 48)) | compressor_word_(tag) << 48)

/* The name of a status, as "JOURNAL_FULL". */
static inline const char *compressor_status_text(uint32_t status) {
    switch (status) {
#define COMPRESSOR_CASE_(name) case COMPRESSOR_##name: return #name;
        COMPRESSOR_CASE_(DONE)
        COMPRESSOR_CASE_(BUSY)
        COMPRESSOR_CASE_(NULL_OBJECT)
        COMPRESSOR_CASE_(NOT_A_START)
        COMPRESSOR_CASE_(NO_SUCH_FIELD)
        COMPRESSOR_CASE_(OBJECT_TOO_LARGE)
        COMPRESSOR_CASE_(OUT_OF_PAGES)
        COMPRESSOR_CASE_(JOURNAL_FULL)
        COMPRESSOR_CASE_(OUT_OF_MEMORY)
        COMPRESSOR_CASE_(EMPTY_HANDLE)
        COMPRESSOR_CASE_(NOT_EMPTY)
        COMPRESSOR_CASE_(NO_SUCH_PAGE)
        COMPRESSOR_CASE_(NO_SUCH_ROOT)
        COMPRESSOR_CASE_(BAD_MUTATORS)
        COMPRESSOR_CASE_(TOO_MANY_PAGES)
        COMPRESSOR_CASE_(MUTATOR_MISSING)
        COMPRESSOR_CASE_(OTHER_CREW)
        COMPRESSOR_CASE_(NO_MUTATOR_LEFT)
        COMPRESSOR_CASE_(BAD_EDITION)
        COMPRESSOR_CASE_(NOT_BUILT)
        COMPRESSOR_CASE_(NO_SUCH_ENTRY)
        COMPRESSOR_CASE_(TOO_SHORT)
        COMPRESSOR_CASE_(NO_SUCH_BUILD)
        COMPRESSOR_CASE_(NO_SUCH_MUTATOR)
        COMPRESSOR_CASE_(NO_SUCH_PART)
        COMPRESSOR_CASE_(CHANGED)
        COMPRESSOR_CASE_(UNMARKED)
        COMPRESSOR_CASE_(STILL_SHARED)
        COMPRESSOR_CASE_(OTHER_COUNT)
        COMPRESSOR_CASE_(SHORT_TABLES)
        COMPRESSOR_CASE_(WRONG_LENGTH)
        COMPRESSOR_CASE_(BAD_OPTIONS)
        COMPRESSOR_CASE_(TOO_LARGE)
        COMPRESSOR_CASE_(OBJECT_PAST_END)
        COMPRESSOR_CASE_(OBJECT_TOO_LONG)
        COMPRESSOR_CASE_(MARK_NOT_START)
        COMPRESSOR_CASE_(MARKS_NOT_RISING)
        COMPRESSOR_CASE_(BAD_ROOT)
        COMPRESSOR_CASE_(UNMARKED_TARGET)
        COMPRESSOR_CASE_(IMAGE_TRUNCATED)
        COMPRESSOR_CASE_(IMAGE_TRAILING)
        COMPRESSOR_CASE_(IMAGE_BAD_MAGIC)
        COMPRESSOR_CASE_(BAD_WEAK)
        COMPRESSOR_CASE_(WRONG_WORD)
        COMPRESSOR_CASE_(LOOSE_REFERENCE)
        COMPRESSOR_CASE_(BAD_ENTRY)
        COMPRESSOR_CASE_(STAMP_REPEATED)
        COMPRESSOR_CASE_(STAMP_MISSING)
        COMPRESSOR_CASE_(WRONG_TOTAL)
        COMPRESSOR_CASE_(BUILD_UNCLAIMED)
        COMPRESSOR_CASE_(WRONG_HEAD)
        COMPRESSOR_CASE_(PAGE_MISSING)
        COMPRESSOR_CASE_(FILE_TRUNCATED)
        COMPRESSOR_CASE_(FILE_TRAILING)
        COMPRESSOR_CASE_(FILE_BAD_MAGIC)
        COMPRESSOR_CASE_(FILE_BAD_FIELD)
        COMPRESSOR_CASE_(BAD_REFERENCE)
        COMPRESSOR_CASE_(OVERLAP)
        COMPRESSOR_CASE_(MOVED_WRONG_HEAD)
        COMPRESSOR_CASE_(MOVED_PLACE_OUTSIDE)
        COMPRESSOR_CASE_(MOVED_OVERLAP)
        COMPRESSOR_CASE_(MOVED_WRONG_ROOT)
        COMPRESSOR_CASE_(MOVED_WRONG_WORD)
        COMPRESSOR_CASE_(NOT_A_RUN)
        COMPRESSOR_CASE_(NO_SIZE)
        COMPRESSOR_CASE_(PAGE_HOME)
        COMPRESSOR_CASE_(PAGE_BUSY)
        COMPRESSOR_CASE_(TURN_TAKEN)
        COMPRESSOR_CASE_(NOT_HOME)
        COMPRESSOR_CASE_(NO_TURN)
        COMPRESSOR_CASE_(OTHER_LENGTH)
        COMPRESSOR_CASE_(MARKERS_BUSY)
        COMPRESSOR_CASE_(STILL_MARKING)
        COMPRESSOR_CASE_(BAD_OBJECT)
        COMPRESSOR_CASE_(NO_SUCH_OBJECT)
        COMPRESSOR_CASE_(STILL_WAITING)
        COMPRESSOR_CASE_(MISSING_OBJECT)
        COMPRESSOR_CASE_(OTHER_HEAP)
        COMPRESSOR_CASE_(FEW_WORDS)
        COMPRESSOR_CASE_(FEW_CARDS)
        COMPRESSOR_CASE_(NOT_A_FIELD)
        COMPRESSOR_CASE_(NOT_A_ROW)
        COMPRESSOR_CASE_(LEADS_ABOVE)
        COMPRESSOR_CASE_(BAD_PIN)
        COMPRESSOR_CASE_(BELOW_WATERMARK)
        COMPRESSOR_CASE_(WRONG_HANDLE)
#undef COMPRESSOR_CASE_
        default: return "UNKNOWN";
    }
}

/* The version of the archive: COMPRESSOR_VERSION of the header with which it was made. A program may be linked with any
   version that has the first number of the header for which it was compiled, and that is not lower. */
uint32_t compressor_version(void);

/* What the archive is, in lines, as a static text that ends with 0. The first is "compressor " COMPRESSOR_VERSION_TEXT.
   The others say of what it was made and what proved it, as far as that was told when it was packed, or that it is not
   known: they are for people, and no form of them is promised. */
const char *compressor_version_text(void);

/* THE HEAP AT REST */

/* Its words are from-space (docs/FORMATS.md), in memory of the caller. Only objects that are reached, or marked, are
   looked at; what lies between them may be anything. A header word is any word whose object fits: one shape may have
   several, and they slide as they are. Objects keep their order. So one before which nothing dies keeps its address.
   From the survey to the last slide nobody writes to it: all threads of the runtime stand still, or use only pages of
   the other memory that are home (compressor_pages_begin). A root that is not handed in is lost, and one that is
   forwarded twice may be that of another object. Of a refusal that names a word the value is words[index];
   compressor_object_around of compressor_rest.h has its object. But OBJECT_PAST_END and NOT_A_RUN also name a mark or a
   bit of the caller's that lies behind the words: so ask whether the index is below word_count. */

/* The whole collection: slides what the roots reach into `to`, from its first word on, and makes the roots lead there.
   Answers the live words; those of `to` behind them stay. in_place: the same down to the first of the words, with no
   second memory. A weak table, as for finalizers, is an object of weak words that is a root: each becomes null where
   its object dies. Tables take two bits a word, 8 bytes for each 64 words (in_place 4), and 4 for each reached object.
   Refusals, after which all is as it was: BAD_EDITION; TOO_LARGE; memory, or a fault that is there: BAD_ROOT,
   BAD_REFERENCE, BAD_WEAK, OBJECT_TOO_LONG, OBJECT_PAST_END or OVERLAP; TOO_SHORT (the live words). */
compressor_answer compressor_collect(uint32_t edition, const uint64_t *words, size_t word_count, uint64_t *roots,
                                     size_t root_count, uint64_t *to, size_t to_count);
compressor_answer compressor_collect_in_place(uint32_t edition, uint64_t *words, size_t word_count, uint64_t *roots,
                                              size_t root_count);

/* As collect_in_place, but the objects at the pins stay where they are: a pin is the address of an object, and keeps it
   as a root does. Pins come in any order, also several times. The others slide down around them, each behind the one
   before it, so none moves up. Answers where the last live object ends, an index: the words from there on are free, and
   as they were. Free too are run_count runs of words below it, each right before a pin: run k is the words from index
   runs[2 * k] on up to index runs[2 * k + 1], which is none of them. A run is a row of dead objects then: zeros in
   editions 1 and 2, else one of data, behind whose header the words are anything. There are never more runs than pins,
   so 2 * pin_count words always have room. Without pins it leaves what collect_in_place does. Tables take what those of
   a survey do, a bit a word and 4 bytes for each 64 words more, and 16 bytes a run. Refusals, after which all is as it
   was, `runs` and `run_count` too: as of collect_in_place, TOO_LARGE also of more pins than there may be roots, and a
   fault also of what pins reach; BAD_PIN (its number), also of null and of immediates; TOO_SHORT (the runs), if `runs`
   has fewer than two words for each. */
compressor_answer compressor_collect_pinned(uint32_t edition, uint64_t *words, size_t word_count, uint64_t *roots,
                                            size_t root_count, const uint64_t *pins, size_t pin_count, uint64_t *runs,
                                            size_t run_words, uint64_t *run_count);

/* A survey: which objects are live, and where they slide. It has nothing of the words. Answers the live words.
   by_roots: live is what the roots reach; refusals as above, but TOO_SHORT. by_marks: live are the objects at the bits
   that are set, bit i % 64 of block i / 64 for the object at index i, in (word_count + 63) / 64 blocks; marks may come
   from anywhere. Refusals: BAD_EDITION; WRONG_LENGTH; TOO_LARGE; memory, or a fault that is there: BAD_ROOT or
   UNMARKED_TARGET, a root or a reference of a marked object that leads to no marked object, OBJECT_TOO_LONG,
   OBJECT_PAST_END, also of a mark behind the words (its index, word_count or more), OVERLAP or BAD_WEAK. */
compressor_answer compressor_survey_by_roots(uint32_t edition, const uint64_t *words, size_t word_count,
                                             const uint64_t *roots, size_t root_count, compressor_survey *survey);
compressor_answer compressor_survey_by_marks(uint32_t edition, const uint64_t *words, size_t word_count,
                                             const uint64_t *roots, size_t root_count, const uint64_t *marks,
                                             size_t block_count, compressor_survey *survey);

/* The same by bits of the runtime's own, which nobody sets any more: heads has those of the first words of the marked
   objects, live those of all their words, each in (word_count + 63) / 64 blocks. No word of the heap is looked at: the
   slide asks of each object what a survey asks. So slide all parts before a root is forwarded. If a part is refused,
   CHANGED or UNMARKED, drop the survey, and survey by the roots: words and roots are as they were. If none is, nothing
   that the roots reach is lost, whoever marked. Refusals: BAD_EDITION, also of editions 1 and 2; TOO_LARGE;
   WRONG_LENGTH; memory, or a fault that is there: NOT_A_RUN or OBJECT_PAST_END, either also of a bit behind the words
   (its index, word_count or more), or BAD_ROOT, one that leads to no marked object. */
compressor_answer compressor_survey_by_bits(uint32_t edition, uint64_t word_count, const uint64_t *roots,
                                            size_t root_count, const uint64_t *heads, size_t head_count,
                                            const uint64_t *live, size_t live_count, compressor_survey *survey);

/* A survey with ephemerons and guardians. An ephemeron is three words, holder, key and value: the value is held as soon
   as the holder and the key are; immediates are held, null is not. The holder is the object that the ephemeron lies in,
   or the key once more. Live are the objects that the roots, the ephemerons and the guarded words hold. A guarded word
   is lost if it leads to an object that roots and ephemerons do not hold without the guarded words: the lost ones come
   first in `guarded` then, in the order that they had, and the other ones behind them; `lost` is their number. So what
   is lost is seen once more, with all that it reaches; a guardian takes it out, and what is not guarded again dies in
   the next collection. Roots and guarded words are forwarded; an entry of a table whose key died is for the caller to
   clear (forward_weak, or weak words of the heap). Refusals, after which all is as it was: as by_roots. TOO_LARGE also
   if more words are lost than there may be roots. BAD_ROOT has the number of a word among the roots, the ephemerons
   (their values alone) and the guarded words, counted one behind the other. Memory: 8 bytes a guarded word more. */
compressor_answer compressor_survey_guarded(uint32_t edition, const uint64_t *words, size_t word_count,
                                            const uint64_t *roots, size_t root_count, const uint64_t *ephemerons,
                                            size_t ephemeron_words, uint64_t *guarded, size_t guarded_count,
                                            compressor_survey *survey, uint64_t *lost);

/* Take no memory, but for a share: another handle of the same survey, for another thread, or memory. */
compressor_answer compressor_survey_facts_of(compressor_survey *survey, compressor_survey_facts *facts);
compressor_answer compressor_survey_share(compressor_survey *survey, compressor_survey *other);

/* Fills the part with the live words from number `first` on, as they are after the collection. Parts may be filled at
   the same time, by shares, which shortened no pause where it was measured, and cost more (docs/SPEED.md): fill one.
   Together they are the collected heap if each of its words is in one of them. Words that were changed since the survey
   do no harm: the call writes nothing but the part. Takes no memory. Refusals: NO_SUCH_PART or OTHER_COUNT, and the
   part is as it was; CHANGED or UNMARKED, and it has any words. If the words are those of the survey, and the part ends
   within the live words, it is done. */
compressor_answer compressor_survey_slide(compressor_survey *survey, const uint64_t *words, size_t word_count,
                                          uint64_t first, uint64_t *part, size_t part_count);

/* Make these lead to where their objects are after the collection, each once: null and immediates stay. Take no memory.
   forward: BAD_ROOT, the first one that leads to no live object, and all are as they were. forward_weak: such a one
   becomes null; for weak words in tables of the caller's own. Answers how many became so. */
compressor_answer compressor_survey_forward(compressor_survey *survey, uint64_t *roots, size_t root_count);
compressor_answer compressor_survey_forward_weak(compressor_survey *survey, uint64_t *words, size_t word_count);
void compressor_survey_drop(compressor_survey *survey);

/* Tables with room for a survey of so many words, for collections without memory: two bits a word, 8 bytes for each 64
   words, and 4 a word, of which a survey touches those of the objects that it reaches. Memory. */
compressor_answer compressor_tables_reserve(uint64_t words, compressor_tables *tables);
/* As compressor_collect and compressor_collect_in_place, by tables, which stay. Take no memory. Refusals: BAD_EDITION;
   TOO_LARGE; SHORT_TABLES (their room), before anything is looked at; the others as there. */
compressor_answer compressor_collect_lent(compressor_tables *tables, uint32_t edition, const uint64_t *words,
                                          size_t word_count, uint64_t *roots, size_t root_count, uint64_t *to,
                                          size_t to_count);
compressor_answer compressor_collect_in_place_lent(compressor_tables *tables, uint32_t edition, uint64_t *words,
                                                   size_t word_count, uint64_t *roots, size_t root_count);
/* As compressor_survey_by_roots, by tables, which go: the survey has them. If it is refused they stay. Refusals:
   BAD_EDITION; TOO_LARGE; SHORT_TABLES (their room); a fault that is there, as above; memory, some 200 bytes, only if
   the heap has room in the tables, and no fault. They are for the handle: it is the one place where a call to which
   tables are lent asks for memory. return: ends the survey, which goes, and gives the tables back; answers the words
   for which they have room, 0 if the survey was not made by any. Takes no memory. Refusals: STILL_SHARED, if another
   handle keeps a share. */
compressor_answer compressor_survey_by_roots_lent(compressor_tables *tables, uint32_t edition, const uint64_t *words,
                                                  size_t word_count, const uint64_t *roots, size_t root_count,
                                                  compressor_survey *survey);
compressor_answer compressor_survey_return(compressor_survey *survey, compressor_tables *tables);
void compressor_tables_drop(compressor_tables *tables);

/* A survey that grows: it marks what roots reach, and later what more roots reach, at the cost of what they newly
   reach; in between it says what is kept. So roots may lie in many arrays, and a runtime asks its ephemerons, guardians
   and finalizers in an order of its own (example/growing.c). Each call is lent the words, as they were: then begin, an
   also for each of some arrays of roots, and settle make the survey of compressor_survey_by_roots of all these roots.
   Words that were changed in between do no harm, and compressor_survey_slide finds where it matters.
   begin: nothing is marked. Refusals: BAD_EDITION; TOO_LARGE; memory. begin_lent: by tables, which go. Refusals, after
   which they stay: BAD_EDITION; TOO_LARGE; SHORT_TABLES (their room). Takes no memory, nor does also then.
   also: marks what these roots reach, and looks at no word of an object that was marked before. also_values: keeps the
   values of ephemerons, three words each as of compressor_survey_guarded, whose holders and keys are kept, and of those
   whose are kept then, until there is none more. Both answer how many objects are kept so far. Refusals: WRONG_LENGTH,
   if these are not as many words as it is of, and nothing was done; of also TOO_LARGE, too many roots; memory, 4 bytes
   for each object that is kept, or a fault that is there, as by_roots: BAD_ROOT has the number among these roots, or
   that of the word of the ephemerons that is a value. After each but WRONG_LENGTH the survey is over: no words and no
   roots have changed, and all that is left is to give its tables back, or to drop it.
   keeps: whether a value is null, an immediate, or the address of an object that is kept so far: 1 or 0. No memory.
   settle: the survey has all that is kept; answers the live words. It goes. Refusals: memory, some 200 bytes, and the
   survey is over.
   return: ends it at any time, and gives the tables back, as compressor_survey_return. Takes no memory. */
compressor_answer compressor_growing_begin(uint32_t edition, const uint64_t *words, size_t word_count,
                                           compressor_growing *growing);
compressor_answer compressor_growing_begin_lent(compressor_tables *tables, uint32_t edition, const uint64_t *words,
                                                size_t word_count, compressor_growing *growing);
compressor_answer compressor_growing_also(compressor_growing *growing, const uint64_t *words, size_t word_count,
                                          const uint64_t *roots, size_t root_count);
compressor_answer compressor_growing_also_values(compressor_growing *growing, const uint64_t *words, size_t word_count,
                                                 const uint64_t *ephemerons, size_t ephemeron_words);
compressor_answer compressor_growing_keeps(compressor_growing *growing, uint64_t value);
compressor_answer compressor_growing_settle(compressor_growing *growing, compressor_survey *survey);
compressor_answer compressor_growing_return(compressor_growing *growing, compressor_tables *tables);
void compressor_growing_drop(compressor_growing *growing);

/* Young collections, within the words, by tables that know a watermark: the objects below it are old. A young
   collection leaves them where they are, and slides what lives above down to them, so it costs what is young and lives,
   the roots, and what was stored into old objects. An old object that nothing reaches stays, with all that its
   references reach, until compressor_collect_all.
   Between two collections the runtime makes its objects behind the words that the last one left, and each store of a
   reference or a weak word into an old object marks the card of the word, the byte cards[index / 64]: 0 is clean, all
   else is dirty (compressor_store_card of compressor_rest.h). What the runtime keeps, beside what it keeps for each
   collection, and what a young one believes:
   1. No header word below the watermark changes, also of dead objects.
   2. A reference or a weak word of an old object, dead or not, on a clean card is null, an immediate, or the address of
      an old object.
   A debug build asks compressor_old_check. If they are neither kept nor asked for, the words that a young collection
   leaves may be wrong; yet it stays within the words and the roots, and of the words below the watermark it changes
   none but such as are on dirty cards and lead to no old object.
   One edition goes with the tables as long as there is a watermark; they do not know which.
   old_reserve: tables for heaps of so many words, with watermark 0. They take three bits a word, 4 bytes for each 64
   words, and 12 a word, of which a collection touches 4 for each young object that it meets, and 4 for each word on a
   dirty card that leads to no old object. It passes over the bits and counts of the words from the watermark on that it
   is handed, and over no others: tables may have much more room than is in use. Memory. No call below takes any.
   watermark: answers it, an index of words; 0 before the first collection.
   collect_all: as compressor_collect_in_place, whatever is old. Answers the live words, which are the watermark then:
   what lives is old. Refusals, after which words, roots and tables are as they were: BAD_EDITION; TOO_LARGE;
   SHORT_TABLES (their room); a fault that is there: BAD_ROOT, BAD_REFERENCE, BAD_WEAK, OBJECT_TOO_LONG, OBJECT_PAST_END
   or OVERLAP.
   collect_young: collects what roots, and references of old objects on dirty cards, reach above the watermark. A weak
   word on a dirty card becomes null if its object dies. Answers how many words there are then, the watermark: what
   lives is old. Those behind stay. Refusals, after which words, roots and watermark are as they were: BAD_EDITION;
   TOO_LARGE; SHORT_TABLES (their room); FEW_WORDS (the watermark); FEW_CARDS (how many are wanted: one for each 64
   words below the watermark, the last ones in part); a fault that is there, as of collect_all. A root, and a reference
   of a young object or on a dirty card, is bad if it leads neither to a word from the watermark on nor to the first
   word of an old object; a weak word of these, if it leads to none of the words.
   After these two, if they are done, all cards below the watermark may be clean; they clean none.
   collect_young_by: as collect_young, by a list in place of cards: the indices of the words of old objects that were
   stored into since the last collection, in any order, also several times. A word of an old object that is not in it is
   as one on a clean card. The call may put the list into another order, also if it is refused. In place of FEW_CARDS
   comes NOT_A_FIELD (an index of the list at which no old object has a reference or a weak word). After it, if it is
   done, the list may be empty.
   collect_aging: as collect_young, but an object becomes old when it has survived two collections. So the watermark is
   then behind what the last collection left, and lives; what was made since then lies above. It makes the cards anew:
   just those are dirty that have a reference or a weak word of an old object that leads to no old object. FEW_CARDS:
   one for each 64 words that the last collection left is wanted. A refused call leaves the cards as they were too.
   old_raise: collects nothing, and makes old all that lies below index `end`, dead or not, where it is. So what is
   young and pinned stays: in place of a young collection, with the end of all that was made. And young collections go
   on after a collection by other calls, also compressor_collect_pinned, with the end that it left, by tables of
   watermark 0: collect_all of no words makes it 0. The words from the watermark on have to be a row of objects that
   ends at `end`, as a bump allocator makes it, and as each collection leaves it: free runs between pins are filled with
   objects, and are not used from then on. It reads headers alone, and no word changes. What 2 says holds for `end`
   then: mark the cards of words of these objects that lead to it or behind; if there are none, all cards below may be
   clean. Answers the watermark, which is `end`. Refusals, after which the tables are as they were: BAD_EDITION;
   TOO_LARGE; SHORT_TABLES (their room); FEW_WORDS (`end`, if it is behind the words); BELOW_WATERMARK (the watermark);
   NOT_A_ROW (the index of the first object that has more words than one may have, or that ends behind `end`).
   old_check: whether 1 and 2 are kept. It reads all old objects; a card that is not handed in is clean. Refusals:
   BAD_EDITION; a fault that is there: NOT_A_ROW, if 1 is not kept, or words are missing; LEADS_ABOVE, if 2 is not.
   old_return: frees the tables. */
compressor_answer compressor_old_reserve(uint64_t words, compressor_old *old);
compressor_answer compressor_watermark(compressor_old *old);
compressor_answer compressor_collect_all(compressor_old *old, uint32_t edition, uint64_t *words, size_t word_count,
                                         uint64_t *roots, size_t root_count);
compressor_answer compressor_collect_young(compressor_old *old, uint32_t edition, uint64_t *words, size_t word_count,
                                           const uint8_t *cards, size_t card_count, uint64_t *roots,
                                           size_t root_count);
compressor_answer compressor_collect_young_by(compressor_old *old, uint32_t edition, uint64_t *words,
                                              size_t word_count, uint64_t *fields, size_t field_count,
                                              uint64_t *roots, size_t root_count);
compressor_answer compressor_collect_aging(compressor_old *old, uint32_t edition, uint64_t *words, size_t word_count,
                                           uint8_t *cards, size_t card_count, uint64_t *roots, size_t root_count);
compressor_answer compressor_old_raise(compressor_old *old, uint32_t edition, const uint64_t *words, size_t word_count,
                                       uint64_t end);
compressor_answer compressor_old_check(compressor_old *old, uint32_t edition, const uint64_t *words, size_t word_count,
                                       const uint8_t *cards, size_t card_count);
void compressor_old_return(compressor_old *old);

/* A survey whose marking many threads share. begin: a job that marks what these roots reach, in a copy of these words
   and roots. Refusals: BAD_EDITION; TOO_LARGE; memory. share: another handle of the same job, for another thread, or
   memory. help: looks at some objects, and answers an enum compressor_help; it never waits. `who` is any number:
   threads with different ones seldom get in each other's way. Each thread calls it until the answer is
   COMPRESSOR_HELP_DONE, and may stop at any time all the same. Where a helper gets no memory, it gives up, and the
   finish does the rest. */
compressor_answer compressor_job_begin(uint32_t edition, const uint64_t *words, size_t word_count,
                                       const uint64_t *roots, size_t root_count, compressor_job *job);
compressor_answer compressor_job_share(compressor_job *job, compressor_job *other);
compressor_answer compressor_job_help(compressor_job *job, uint64_t who);
/* Finishes a job, which goes, whatever was done before. The survey is that of compressor_survey_by_roots; answers the
   live words. Refusals: STILL_SHARED, if another handle keeps a share, and the job stays; memory, or a fault of the
   heap as above: then the job is gone, and the survey is empty. */
compressor_answer compressor_job_finish(compressor_job *job, compressor_survey *survey);
void compressor_job_drop(compressor_job *job);

/* A marking in steps by many threads, with no copy: the words are lent to each help, and data words are not read. While
   a help runs, nobody writes to the words; between two, the runtime may. It then hands to meet what it writes over, and
   each object that it makes, once its words are written. What was not handed in is found by the slide, which asks of
   each object what a survey asks: so slide all parts before a root is forwarded, as of compressor_survey_by_bits. If a
   sound heap stood still from begin to the slide, no part is refused.
   begin: a marking from these roots, of a heap of word_count words; with objects that are made meanwhile, all of the
   room. Refusals: BAD_EDITION, also of editions 1 and 2; TOO_LARGE; BAD_ROOT; memory, two bits a word. share: another
   handle of the same marking, for another thread, or memory.
   help: looks at some objects, and answers an enum compressor_help, as compressor_job_help does. Refusals:
   WRONG_LENGTH, if these are not word_count words. Where a helper gets no memory, 4 bytes for each object that is met,
   or finds a bad object, all give up, and finish says it.
   meet: the objects to which values lead: roots, new objects, or what is written over. Refusals, after which none is
   met: BAD_ROOT (its number); MARKERS_BUSY; memory. */
compressor_answer compressor_marking_begin(uint32_t edition, uint64_t word_count, const uint64_t *roots,
                                           size_t root_count, compressor_marking *marking);
compressor_answer compressor_marking_share(compressor_marking *marking, compressor_marking *other);
compressor_answer compressor_marking_help(compressor_marking *marking, const uint64_t *words, size_t word_count,
                                          uint64_t who);
compressor_answer compressor_marking_meet(compressor_marking *marking, const uint64_t *values, size_t value_count);
/* Ends a marking, which goes, after a help that answered COMPRESSOR_HELP_DONE, with the roots as they are now: the
   survey has what was met. Answers the live words. No word of the heap is looked at. Refusals: STILL_SHARED, if another
   handle keeps a share, and the marking stays. After the others it is gone, and the survey is empty, so survey by the
   roots: memory; BAD_OBJECT; STILL_MARKING; TOO_LARGE, too many roots; NOT_A_RUN or OBJECT_PAST_END; BAD_ROOT, one to
   an object that was not met. */
compressor_answer compressor_marking_finish(compressor_marking *marking, const uint64_t *roots, size_t root_count,
                                            compressor_survey *survey);
void compressor_marking_drop(compressor_marking *marking);

/* A marking while the threads of the runtime go on, by looks. Its one marker, one thread at a time, hands in the row of
   an object: its header, references and weak words, copied one after the other (compressor_copy_row of
   compressor_rest.h). No call here reads the heap. It begins at a first stop, with all roots. At a second stop, in this
   order: each object that was written to since its last look is looked at again; the roots are met; what waits is
   looked at until none does; it is finished. Then the heap slides, by parts, by threads or by pages.
   What the runtime keeps: an object whose card is clean, or that was not written to since its last look, has the
   references and weak words that were looked at, and as many words. So the survey is that of the words at the second
   stop, and no part is refused. If it does not, a part may be, and all is as of compressor_survey_by_bits.
   begin, look, again and meet answer 1 if an object waits then to be looked at, else 0.
   begin: word_count is that of the second stop; with objects that are made meanwhile, all of the room. Refusals:
   BAD_EDITION, also of editions 1 and 2; TOO_LARGE; memory, two bits a word; BAD_ROOT.
   waiting: the indices of the objects that wait, the next one first, `most` at most; answers how many. Takes no memory.
   look: at the next objects that wait, by their rows in this order, one behind the other. Those to which references
   lead wait then, each once. Refusals: NO_SUCH_OBJECT; TOO_SHORT (the words of a row); a fault that is there:
   OBJECT_TOO_LONG, OBJECT_PAST_END, OVERLAP, BAD_REFERENCE or BAD_WEAK; memory, 4 bytes for each object that is met.
   again: at the object with this index, by its row. Refusals: NO_SUCH_OBJECT, which needs no look, and the marking
   stays; TOO_SHORT; BAD_REFERENCE or BAD_WEAK; memory.
   meet: the objects to which values lead: the roots of now, or new objects. Refusals: BAD_ROOT (its number) or memory.
   finish: the survey has what was looked at; answers the live words. The marking goes. Refusals: STILL_WAITING, and it
   stays; TOO_LARGE, too many roots; BAD_ROOT, one to an object that was not met; memory.
   Another refusal of look, again, meet or finish ends the marking, which goes: survey by the roots. */
compressor_answer compressor_looks_begin(uint32_t edition, uint64_t word_count, const uint64_t *roots,
                                         size_t root_count, compressor_looks *looks);
compressor_answer compressor_looks_waiting(compressor_looks *looks, uint64_t *indices, size_t most);
compressor_answer compressor_looks_look(compressor_looks *looks, const uint64_t *rows, size_t row_words);
compressor_answer compressor_looks_again(compressor_looks *looks, uint64_t index, const uint64_t *row,
                                         size_t row_words);
compressor_answer compressor_looks_meet(compressor_looks *looks, const uint64_t *values, size_t value_count);
compressor_answer compressor_looks_finish(compressor_looks *looks, const uint64_t *roots, size_t root_count,
                                          compressor_survey *survey);
/* For debugging: asks of all objects that were looked at, at once, whether they are in these words as they must be. The
   marking stays. Refusals: WRONG_LENGTH, not as many words as it is of; memory, or a fault that is there: CHANGED,
   UNMARKED, BAD_WEAK or NOT_A_RUN, a word that belongs to no object any more. */
compressor_answer compressor_looks_check(compressor_looks *looks, const uint64_t *words, size_t word_count);
void compressor_looks_drop(compressor_looks *looks);

/* The same by several markers. Each has a lane of its own, in one thread at a time, and hands in the rows of what waits
   there. An object that several lanes meet waits in the one that met it first. At the second stop all lanes are joined,
   in any order, and made whole: then again, meet, look and finish are those of compressor_looks.
   meet, look, take, join and whole answer 1 if an object waits then to be looked at, else 0.
   begin: the first lane, which met nothing. Refusals: BAD_EDITION, also of editions 1 and 2; TOO_LARGE; memory, four
   bits a word. share: one more of the same marking, which met nothing either, for another thread, or memory, three
   bits a word.
   waiting, meet and look: as of compressor_looks, by this lane. Each root is met by any lane.
   give: lets go of the last objects that wait, `most` at most, and writes their indices; answers how many. Takes no
   memory. take: what another lane gave waits in this one. Refusals: BAD_ROOT (its number), an index past the words,
   or memory, 4 bytes for each.
   join: the first handle has both lanes as one, and the other lane goes. Refusals, after which both are gone:
   OTHER_HEAP; OVERLAP, a word that both have, as where two lanes took the same index; memory, 4 bytes for each object
   of the other lane.
   whole: the lane goes, and the marking is one of compressor_looks. Takes no memory. Refusals: MISSING_OBJECT, and the
   lane is gone: another one was not joined, or what it gave was not taken.
   A refusal of meet, look or take ends the lane, which goes. Drop the others then, and survey by the roots. */
compressor_answer compressor_lane_begin(uint32_t edition, uint64_t word_count, compressor_lane *lane);
compressor_answer compressor_lane_share(compressor_lane *lane, compressor_lane *other);
compressor_answer compressor_lane_waiting(compressor_lane *lane, uint64_t *indices, size_t most);
compressor_answer compressor_lane_meet(compressor_lane *lane, const uint64_t *values, size_t value_count);
compressor_answer compressor_lane_look(compressor_lane *lane, const uint64_t *rows, size_t row_words);
compressor_answer compressor_lane_give(compressor_lane *lane, uint64_t *indices, size_t most);
compressor_answer compressor_lane_take(compressor_lane *lane, const uint64_t *indices, size_t index_count);
compressor_answer compressor_lane_join(compressor_lane *lane, compressor_lane *other);
compressor_answer compressor_lane_whole(compressor_lane *lane, compressor_looks *looks);
void compressor_lane_drop(compressor_lane *lane);

/* A slide by first touch: the roots are forwarded, and the threads of the runtime go on while its pages come home, each
   built by whoever accesses it first. Page k has the live words from number k * page_words on; the last one may be
   shorter. From-space stays as it was surveyed until the end; what is written goes to pages that are home.
   begin: the survey goes, and other shares of it stay. Answers how many pages there are. Refusals, after which the
   survey stays: NO_SIZE, if page_words is 0; memory, 8 bytes a page, as many more until it returns, and some 100.
   share: another handle of the same pages, for another thread, without a turn, or memory. */
compressor_answer compressor_pages_begin(compressor_survey *survey, uint64_t page_words, compressor_pages *pages);
compressor_answer compressor_pages_share(compressor_pages *pages, compressor_pages *other);
/* These take no memory, and try once. So a handler of a signal that a thread raises by an access (SIGSEGV, SIGBUS) may
   make them, by a handle that no interrupted call uses; it never waits there for a page whose turn its own thread has.
   claim: takes the turn for a page, which this handle then has alone; one at a time. Refusals: TURN_TAKEN (the page of
   the turn that it has); NO_SUCH_PAGE (the page); PAGE_HOME (the page); PAGE_BUSY (the page): call again.
   build: fills the page whose turn this handle has; `page` is its memory, which nobody else uses until it is published.
   Refusals: NO_TURN, also if the page is built already, and all stays; OTHER_LENGTH (its words), if page_count is
   another; OTHER_COUNT; CHANGED or UNMARKED, and the memory has any words. After these four the turn is gone, and the
   page waits again. If the words are those of the survey, and page_count is right, it is done.
   publish: says to all handles that the built page is home, after the runtime has made it accessible. What was written
   to it before is seen by each thread that then finds PAGE_HOME. Refusals: NO_TURN; NOT_BUILT (the page). */
compressor_answer compressor_pages_claim(compressor_pages *pages, uint64_t page);
compressor_answer compressor_pages_build(compressor_pages *pages, const uint64_t *words, size_t word_count,
                                         uint64_t *page, size_t page_count);
compressor_answer compressor_pages_publish(compressor_pages *pages);
/* Ends the pages, which go; the survey comes back, for compressor_survey_return. Takes no memory. Refusals: NOT_HOME (a
   page); STILL_SHARED, if another handle keeps a share. drop: a page whose turn the handle had never comes home. */
compressor_answer compressor_pages_end(compressor_pages *pages, compressor_survey *survey);
void compressor_pages_drop(compressor_pages *pages);

/* THE HEAP */

/* A marked heap, of a copy of these words, which are from-space (docs/FORMATS.md). by_marks: the rising indices of the
   marked objects are given; each root and each reference of a marked object is null or leads to a marked object.
   by_roots: exactly what the roots reach is marked; they may lead to any object. Refusals: BAD_EDITION; TOO_LARGE;
   memory; OBJECT_PAST_END to BAD_WEAK, the first fault of the heap, of by_roots never MARK_NOT_START or
   MARKS_NOT_RISING. */
compressor_answer compressor_heap_by_marks(uint32_t edition, const uint64_t *words, size_t word_count,
                                           const uint32_t *marks, size_t mark_count, const uint64_t *roots,
                                           size_t root_count, compressor_heap *heap);
compressor_answer compressor_heap_by_roots(uint32_t edition, const uint64_t *words, size_t word_count,
                                           const uint64_t *roots, size_t root_count, compressor_heap *heap);

/* Its counts. Takes no memory. */
compressor_answer compressor_heap_facts_of(compressor_heap *heap, compressor_heap_facts *facts);

/* A heap of the bytes of an image (docs/FORMATS.md): memory; IMAGE_..; TOO_LARGE to BAD_WEAK. The bytes of the image of
   a heap, whose count is the answer: TOO_SHORT (the count); memory, as much again as the image. */
compressor_answer compressor_heap_read(const uint8_t *bytes, size_t count, compressor_heap *heap);
compressor_answer compressor_heap_write(compressor_heap *heap, uint8_t *out, size_t count);

/* Judges what another collector left of this heap: the bytes are a moved heap (docs/FORMATS.md). Answers the words that
   moved, those of the marked objects. Refusals: memory; FILE_..; MOVED_.., the first fault. */
compressor_answer compressor_heap_judge(compressor_heap *heap, const uint8_t *bytes, size_t count);

/* Plans the heap, which goes: the plan has it then. Memory. */
compressor_answer compressor_heap_plan(compressor_heap *heap, compressor_plan *plan);
void compressor_heap_drop(compressor_heap *heap);

/* THE PLAN */

/* Its counts. Takes no memory. share: another handle of the same plan, for another thread, or memory. */
compressor_answer compressor_plan_facts_of(compressor_plan *plan, compressor_plan_facts *facts);
compressor_answer compressor_plan_share(compressor_plan *plan, compressor_plan *other);

/* Makes each of these addresses of from-space what the flip makes it: that of a marked object its to-space address;
   null and immediates stay; a word that leads to no marked object becomes null. For side tables, weak maps, finalizers;
   each once. Takes no memory. */
compressor_answer compressor_plan_forward(compressor_plan *plan, uint64_t *addresses, size_t count);

/* The slid words of a compacted page, as nobody has written to them; zeros behind the last one. Refusals: NO_SUCH_PAGE;
   memory. */
compressor_answer compressor_plan_page(compressor_plan *plan, uint64_t page, uint64_t out[64]);

/* Flips the heap of the plan, which stays, and may be dropped at once, for a new crew. Answers how many mutators it
   keeps; their numbers are those from 0 on. From now on addresses are those of to-space, from compressor_mutator_root
   on. Of n mutators number k alone makes objects on the fresh pages k, k + n, k + 2n .., counted from 0. So one that
   only sweeps has its share too, and leaves it unused: ask for more.
   Refusals: BAD_MUTATORS; TOO_MANY_PAGES, more than the edition allows, or than leave room for a next heap: all pages
   are its words; memory. */
compressor_answer compressor_plan_flip(compressor_plan *plan, uint32_t mutators, uint32_t fresh_pages,
                                       compressor_crew *crew);

enum compressor_audit_options {
    COMPRESSOR_WHOLE = 1, /* each compacted page has to be built */
    COMPRESSOR_WORDS = 2  /* the bytes are a file of words, and no dump */
};
/* Judges a dump (docs/FORMATS.md) for the heap of the plan; options are 0, or those above added. Answers the live
   words. Refusals: BAD_OPTIONS; memory; FILE_..; WRONG_WORD to PAGE_MISSING, the first fault. The dump of each finished
   heap is lawful for its own plan, so a runtime may check itself in its debug builds: without options a fault never
   comes then. */
compressor_answer compressor_plan_audit(compressor_plan *plan, const uint8_t *bytes, size_t count, uint32_t options);
/* The same, and of the first fault what is wrong where: a few lines of ASCII, with line feeds between them, and at the
   end neither a line feed nor a 0. Answers how many bytes they have, 0 if there is no fault. Refusals: BAD_OPTIONS;
   memory; FILE_..; TOO_SHORT (the count). */
compressor_answer compressor_plan_explain(compressor_plan *plan, const uint8_t *bytes, size_t count, uint32_t options,
                                          uint8_t *out, size_t out_count);
void compressor_plan_drop(compressor_plan *plan);

/* THE CREW */

/* Takes the mutator out that was handed back last; after a flip the one with the greatest number. Answers its number.
   Refusals: NO_MUTATOR_LEFT; memory. */
compressor_answer compressor_crew_take(compressor_crew *crew, compressor_mutator *mutator);
/* Hands a mutator back, which goes. Takes no memory: the room is kept. Refusals: OTHER_CREW, if it is of another crew,
   or if no mutator of this one is out. */
compressor_answer compressor_crew_give(compressor_crew *crew, compressor_mutator *mutator);
/* Ends the cycle of the crew, which goes, after all its mutators were handed back, in any order. Answers the live
   words: those that slid and those of new objects. No page has to be swept: if nobody has built a page, its words are
   those of the plan, or zeros if it is fresh; the next heap has them. Refusals, after each of which the crew has all
   mutators that it had: MUTATOR_MISSING; memory; STILL_SHARED. */
compressor_answer compressor_crew_finish(compressor_crew *crew, compressor_end *end);
/* Drops the mutators that are in it. Without one of its mutators a crew is never finished. */
void compressor_crew_drop(compressor_crew *crew);

/* THE MUTATOR. Objects are to-space addresses of objects that it knows: those that slid, that it made, that a read
   answered it, that are on a page that it copied, and that another mutator knew when they met. Fields of each kind are
   counted from 0. After OUT_OF_MEMORY the page of the word may be built, after BUSY and JOURNAL_FULL of a write or an
   allocation too; a refused call changes nothing else, and a refused touch nothing at all. */

/* Answer the word; a reference or a weak word is then known. Refusals: NULL_OBJECT; NOT_A_START (the object);
   NO_SUCH_FIELD; and, only if the mutator does not know that the page is built, BUSY or memory. */
compressor_answer compressor_mutator_read_ref(compressor_mutator *mutator, uint64_t object, uint32_t field);
compressor_answer compressor_mutator_read_weak(compressor_mutator *mutator, uint64_t object, uint32_t field);
compressor_answer compressor_mutator_read_data(compressor_mutator *mutator, uint64_t object, uint32_t field);

/* Answers the header word of the object, which never changes: compressor_shape_of says its counts and its tag. Takes no
   memory, and is never busy. Refusals: NULL_OBJECT; NOT_A_START (the object). */
compressor_answer compressor_mutator_header(compressor_mutator *mutator, uint64_t object);

/* Write one word, whole, and answer the entry's stamp. A reference or a weak word is null or the address of an object
   that the mutator knows; data is any word. Refusals: NULL_OBJECT; NOT_A_START (the object); NO_SUCH_FIELD;
   NOT_A_START (the value); BUSY, JOURNAL_FULL or memory. */
compressor_answer compressor_mutator_write_ref(compressor_mutator *mutator, uint64_t object, uint32_t field,
                                               uint64_t value);
compressor_answer compressor_mutator_write_weak(compressor_mutator *mutator, uint64_t object, uint32_t field,
                                                uint64_t value);
compressor_answer compressor_mutator_write_data(compressor_mutator *mutator, uint64_t object, uint32_t field,
                                                uint64_t value);

/* Makes an object with this header word, of nulls and zeros, on the lowest of its own fresh pages that has room.
   Answers its address. compressor_shape_header makes the word. Refusals: OBJECT_TOO_LARGE (its words); OUT_OF_PAGES;
   BUSY, JOURNAL_FULL or memory. */
compressor_answer compressor_mutator_alloc(compressor_mutator *mutator, uint64_t header);

/* Builds a page if nobody has: answers 1 if this call did, else 0. To sweep is to touch each page below
   compacted_pages of the facts, by any mutators. Refusals: NO_SUCH_PAGE; BUSY or memory. */
compressor_answer compressor_mutator_touch(compressor_mutator *mutator, uint64_t page);
/* The page's words as the mutator has then seen them, while others go on; answers how many entries it has. Builds the
   page if nobody has. Refusals: NO_SUCH_PAGE; BUSY or memory. */
compressor_answer compressor_mutator_page(compressor_mutator *mutator, uint64_t page, uint64_t out[64]);

/* Take no memory. Where a root leads, or NO_SUCH_ROOT; all roots in order, whose count is the answer, or TOO_SHORT;
   the page that it built as the one with this number, or NO_SUCH_BUILD; what facts say now. */
compressor_answer compressor_mutator_root(compressor_mutator *mutator, uint64_t number);
compressor_answer compressor_mutator_roots(compressor_mutator *mutator, uint64_t *out, size_t count);
compressor_answer compressor_mutator_build(compressor_mutator *mutator, uint64_t number);
compressor_answer compressor_mutator_facts_of(compressor_mutator *mutator, compressor_mutator_facts *facts);
/* Each has then seen what the other has seen, and knows the objects that the other knew. Takes no memory. Refusals:
   OTHER_CREW. */
compressor_answer compressor_mutator_meet(compressor_mutator *mutator, compressor_mutator *other);
void compressor_mutator_drop(compressor_mutator *mutator);

/* THE FINISHED CYCLE */

/* Take no memory. The words of a page, and how many entries it has: NO_SUCH_PAGE, NOT_BUILT. An entry, in the order
   of the writes: also NO_SUCH_ENTRY. All roots, whose count is the answer: TOO_SHORT. How many pages a mutator built,
   and which: NO_SUCH_MUTATOR, NO_SUCH_BUILD. */
compressor_answer compressor_end_facts_of(compressor_end *end, compressor_end_facts *facts);
compressor_answer compressor_end_page(compressor_end *end, uint64_t page, uint64_t out[64]);
compressor_answer compressor_end_entry(compressor_end *end, uint64_t page, uint64_t number, compressor_entry *entry);
compressor_answer compressor_end_roots(compressor_end *end, uint64_t *out, size_t count);
compressor_answer compressor_end_builds(compressor_end *end, uint32_t mutator);
compressor_answer compressor_end_build(compressor_end *end, uint32_t mutator, uint64_t number);

/* The heap with which the next cycle begins, with these roots, to-space addresses of the finished heap or null; the end
   goes. It has the words of all pages. by_marks: of these rising indices, where the object at the address a has
   a - COMPRESSOR_TO_SPACE. by_roots: exactly what the roots reach is marked, and the rest is dropped. Refusals:
   TOO_LARGE (words, marks or roots); memory; MARK_NOT_START, MARKS_NOT_RISING, BAD_ROOT or UNMARKED_TARGET, the first
   fault, of by_roots only BAD_ROOT. */
compressor_answer compressor_end_next_by_marks(compressor_end *end, const uint32_t *marks, size_t mark_count,
                                               const uint64_t *roots, size_t root_count, compressor_heap *heap);
compressor_answer compressor_end_next_by_roots(compressor_end *end, const uint64_t *roots, size_t root_count,
                                               compressor_heap *heap);

/* The heap comes to rest: `words` has then the words of all pages, also of those that nobody built, with addresses of
   from-space, and `roots` all roots so. Answers the count of the words, rest_words of the facts; those in no object are
   0. The end stays. Addresses that the caller kept become compressor_rested(address). It takes as much memory as the
   words, for a while. Refusals: TOO_SHORT (the words; 0, or the roots; 1); memory. */
compressor_answer compressor_end_rest(compressor_end *end, uint64_t *words, size_t word_count, uint64_t *roots,
                                      size_t root_count);
static inline uint64_t compressor_rested(uint64_t address) {
    return address == 0 || address >= COMPRESSOR_IMMEDIATE ? address
                                                           : address - (COMPRESSOR_TO_SPACE - COMPRESSOR_FROM_SPACE);
}

/* The dump (docs/FORMATS.md), with the counts of its flip: the count of its bytes is the answer. Refusals: memory;
   TOO_SHORT (the count). */
compressor_answer compressor_end_write(compressor_end *end, uint8_t *out, size_t count);
void compressor_end_drop(compressor_end *end);

/* What the archive was built with. */
COMPRESSOR_ASSERT_(sizeof(void *) == 8 && sizeof(size_t) == 8, "64 bits");
COMPRESSOR_ASSERT_(sizeof(compressor_heap) == 8 && sizeof(compressor_plan) == 8 && sizeof(compressor_crew) == 8,
                   "handles");
COMPRESSOR_ASSERT_(sizeof(compressor_mutator) == 8 && sizeof(compressor_end) == 8, "handles");
COMPRESSOR_ASSERT_(sizeof(compressor_survey) == 8 && sizeof(compressor_tables) == 8 && sizeof(compressor_job) == 8,
                   "handles");
COMPRESSOR_ASSERT_(sizeof(compressor_marking) == 8 && sizeof(compressor_looks) == 8 && sizeof(compressor_growing) == 8,
                   "handles");
COMPRESSOR_ASSERT_(sizeof(compressor_lane) == 8 && sizeof(compressor_pages) == 8 && sizeof(compressor_old) == 8,
                   "handles");
COMPRESSOR_ASSERT_(sizeof(compressor_answer) == 16 && offsetof(compressor_answer, other) == 4, "answer");
COMPRESSOR_ASSERT_(offsetof(compressor_answer, value) == 8, "answer");
COMPRESSOR_ASSERT_(sizeof(compressor_entry) == 24 && offsetof(compressor_entry, writer) == 16, "entry");
COMPRESSOR_ASSERT_(offsetof(compressor_entry, kind) == 17 && offsetof(compressor_entry, offset) == 18, "entry");
COMPRESSOR_ASSERT_(sizeof(compressor_shape) == 16 && offsetof(compressor_shape, tag) == 12, "shape");
COMPRESSOR_ASSERT_(COMPRESSOR_HEADER_REFS(65535, 7) == UINT64_C(0x000700000000ffff), "header");
COMPRESSOR_ASSERT_(COMPRESSOR_HEADER_REFS(65536, 7) == UINT64_C(0x4007000000010000), "header");
COMPRESSOR_ASSERT_(COMPRESSOR_HEADER_WEAK(65535, 7) == UINT64_C(0x0007ffff00000000), "header");
COMPRESSOR_ASSERT_(COMPRESSOR_HEADER_WEAK(65536, 7) == UINT64_C(0xc007000000010000), "header");
COMPRESSOR_ASSERT_(COMPRESSOR_HEADER_DATA(65535, 7) == UINT64_C(0x00070000ffff0000), "header");
COMPRESSOR_ASSERT_(COMPRESSOR_HEADER_DATA(65536, 7) == UINT64_C(0x4007800000000000), "header");
COMPRESSOR_ASSERT_(COMPRESSOR_HEADER_DATA(131072, 7) == UINT64_C(0x8007000000020000), "header");
COMPRESSOR_ASSERT_(sizeof(compressor_heap_facts) == 32 && offsetof(compressor_heap_facts, unused) == 28, "heap facts");
COMPRESSOR_ASSERT_(sizeof(compressor_plan_facts) == 40 && offsetof(compressor_plan_facts, unused) == 36, "plan facts");
COMPRESSOR_ASSERT_(sizeof(compressor_mutator_facts) == 64 && offsetof(compressor_mutator_facts, unused) == 60,
                   "mutator facts");
COMPRESSOR_ASSERT_(sizeof(compressor_end_facts) == 48 && offsetof(compressor_end_facts, mutators) == 44, "end facts");
COMPRESSOR_ASSERT_(sizeof(compressor_survey_facts) == 8, "survey facts");

#ifdef __cplusplus
}
#endif

#endif
