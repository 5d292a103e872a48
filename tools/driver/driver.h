/* A random driver of the library for C, beside a plain model of what it has to answer. tools/drive-from-c builds and
   runs it. What each file has:
     calls.c     counted calls, chance, refusals of memory, what a failure prints
     model.c     a graph of objects, and the words of a heap that has them
     files.c     the bytes of images, dumps, files of words and moved heaps
     heaps.c     marked heaps and plans, and what they refuse; judge.c what another collector left of them
     cycle.c     flips, crews and mutators by one thread; act.c has what a mutator is asked
     end.c       finished cycles, next heaps
     rest.c      heaps at rest; looks.c their marking by looks, lanes.c by lanes at first; growing.c surveys that grow;
                 old.c young collections; pinned.c those around pins; pages.c slides by pages; faults.c what is refused
     pins.c      heaps at rest whose stack is scanned
     handles.c   empty, full and wrong handles; limits.c editions: shapes, immediates, what is too large
     threads.c   a cycle by four threads; together.c what else they do together */
#ifndef DRIVER_H
#define DRIVER_H

#include "compressor_rest.h"

/* CALLS */

enum export {
#define EXPORT(name, memory) EXPORT_##name,
#include "exports.h"
#undef EXPORT
    EXPORTS
};

/* What a thread has of its own. */
typedef struct thread_state {
    uint64_t chance;
    int waits;        /* a call that is BUSY is made again */
    int refuses;      /* memory is refused now and then */
    int is_in_call;
    int is_again;     /* this call was refused for want of memory */
    int was_refused;  /* an allocation of this call was refused */
    uint64_t allocations;
    uint64_t refuse_at;   /* the allocation of this call that is refused, counted from 1 */
    int refuses_rest;     /* and all behind it */
    uint64_t refuse_next; /* the same of the next call, with all behind it */
    enum export export;
    const char *file;
    int line;
} thread_state;
extern _Thread_local thread_state own;

void call_begins(enum export export, const char *file, int line);
void call_ends(void);
int call_again(compressor_answer a);
void answers(compressor_answer a, uint32_t status, uint64_t value, uint32_t other);
_Noreturn void fail(const char *file, int line, const char *format, ...) __attribute__((format(printf, 3, 4)));
uint64_t calls_made(void);
uint64_t blocks_kept(void); /* of memory, by the library */
void print_calls(int all);
int all_called(void);

/* The call is made until it is not for want of memory that it is refused, and its answer goes into the variable. */
#define CALL(variable, name, ...)                              \
    do {                                                       \
        call_begins(EXPORT_##name, __FILE__, __LINE__);        \
        (variable) = compressor_##name(__VA_ARGS__);           \
    } while (call_again(variable))
/* The call answers this. */
#define ANSWERS2(status_is, value_is, other_is, name, ...)     \
    do {                                                       \
        compressor_answer a_;                                  \
        CALL(a_, name, __VA_ARGS__);                           \
        answers(a_, status_is, value_is, other_is);            \
    } while (0)
#define ANSWERS(status_is, value_is, name, ...) ANSWERS2(status_is, value_is, 0, name, __VA_ARGS__)
#define DONE(value_is, name, ...) ANSWERS(COMPRESSOR_DONE, value_is, name, __VA_ARGS__)
#define DROP(name, handle)                                     \
    do {                                                       \
        call_begins(EXPORT_##name, __FILE__, __LINE__);        \
        compressor_##name(handle);                             \
        call_ends();                                           \
    } while (0)
#define IS(what)                                               \
    do {                                                       \
        if (!(what)) fail(__FILE__, __LINE__, "not so: %s", #what); \
    } while (0)
#define SAME(is, wanted) same(is, wanted, #is, __FILE__, __LINE__)
void same(uint64_t is, uint64_t wanted, const char *what, const char *file, int line);
#define SAME_WORDS(is, wanted, count) same_words(is, wanted, count, #is, __FILE__, __LINE__)
void same_words(const uint64_t *is, const uint64_t *wanted, size_t count, const char *what, const char *file, int line);

/* Chance: a word; a number below n; true once in n times. */
void chance_from(uint64_t seed, uint64_t round);
uint64_t any_word(void);
uint64_t below(uint64_t n);
int one_in(uint64_t n);

/* Zeros, at least one byte; and a copy. */
void *zeros(size_t count, size_t size);
uint64_t *copy_of(const uint64_t *words, size_t count);

/* THE MODEL */

#define FROM COMPRESSOR_FROM_SPACE
#define TO COMPRESSOR_TO_SPACE

/* Of a field or a root: null, an immediate, or the number of an object, counted from 1. Of a data field: its word. */
typedef uint64_t value;

typedef struct object {
    compressor_shape shape;
    uint64_t header;
    uint64_t words;
    uint64_t place;  /* of its header in the space */
    uint64_t known;  /* bit k: mutator k knows it */
    int is_live;
    value *fields;   /* references, weak words, data */
} object;

typedef struct graph {
    uint32_t edition;
    object *objects; /* but for new ones, by rising places */
    size_t count, room;
    value *roots;
    size_t root_count;
} graph;

enum kind { REF = COMPRESSOR_KIND_REF, DATA = COMPRESSOR_KIND_DATA, WEAK = COMPRESSOR_KIND_WEAK };

int is_object(value v);
uint32_t fields_of(const object *o, enum kind kind);
uint64_t offset_of(const object *o, enum kind kind, uint32_t field); /* from the header on */
value *field_of(object *o, enum kind kind, uint32_t field);
uint64_t any_header(uint32_t edition, compressor_shape shape);
compressor_shape any_shape(uint32_t edition, uint32_t most_words);

void graph_any(graph *g, uint32_t edition, size_t count);
void graph_free(graph *g);
object *graph_add(graph *g, compressor_shape shape);
void graph_spread(graph *g, uint64_t most_gap); /* gives all objects places */
value any_value(const graph *g);
void graph_roots(graph *g, size_t count);
uint64_t word_of(const graph *g, uint64_t space, value v);
void graph_fill(const graph *g, uint64_t space, uint64_t *words);
uint64_t *root_words(const graph *g, uint64_t space);
uint64_t graph_end(const graph *g); /* the first place behind all objects */
const object *object_at(const graph *g, uint64_t place);
/* What the live objects on the stack, `deep` of them, reach is live; or a root that was not. Answers how many objects
   were taken from the stack, which has room for all of the graph. */
size_t graph_follow(graph *g, value *stack, size_t deep);
size_t graph_follow_root(graph *g, value *stack, value root);
/* What the roots reach, and some objects more if asked for, is live. Answers how many objects are. */
size_t graph_trace(graph *g, int more);
uint64_t live_words(const graph *g);
uint32_t *live_marks(const graph *g, size_t *count);
/* The live objects slide, in order, from place 0 on; the others are gone, and weak words to them are null. */
void graph_slide(graph *g);

/* FILES */

typedef struct bytes {
    uint8_t *at;
    size_t count, room;
} bytes;

void put_magic(bytes *b, const char *magic, uint32_t edition);
void put4(bytes *b, uint64_t n);
void put8(bytes *b, uint64_t n);
void put_words(bytes *b, const uint64_t *words, size_t count);
void image_of(bytes *b, const graph *g, const uint64_t *words, size_t word_count);
void words_file_of(bytes *b, const graph *g);
/* Answers how many words moved, and those of the file. */
uint64_t moved_of(bytes *b, const graph *g, uint64_t *file_words);

/* HEAPS AND CYCLES */

typedef struct page {
    int is_built;
    uint32_t builder;
    size_t entries, room;
    compressor_entry *journal;
} page;

typedef struct member {
    compressor_mutator mutator;
    int is_out;
    size_t builds;
    uint64_t *built; /* pages, in order */
    uint64_t entries, made_words;
} member;

typedef struct cycle {
    graph *g;
    compressor_plan plan;
    compressor_crew crew;
    compressor_end end;
    uint32_t mutators, fresh;
    uint64_t slid_words, compacted, pages;
    page *page_of;
    uint32_t *used;    /* words of each fresh page */
    member *members;
    uint32_t *inside;  /* the numbers in the crew, the next one last */
    uint32_t in_count;
    uint64_t stamps, *plan_words;
} cycle;

/* A marked heap of the graph, whose objects lie side by side from place 0 on, but for zeros. */
void heap_of(graph *g, compressor_heap *heap, uint64_t word_count);
void check_judge(const graph *g, compressor_heap *heap);
void check_heap(const graph *g, compressor_heap *heap, uint64_t word_count);
void plan_of(graph *g, compressor_heap *heap, compressor_plan *plan, uint64_t word_count);
void refused_heaps(graph *g, uint64_t word_count);

void cycle_begin(cycle *c, graph *g, compressor_heap *heap, uint64_t word_count, uint32_t mutators, uint32_t fresh);
void cycle_run(cycle *c, uint64_t actions);
void cycle_finish(cycle *c);
void cycle_free(cycle *c);
void take(cycle *c);
void give(cycle *c, uint32_t number);
void build(cycle *c, uint32_t m, uint64_t number);
compressor_entry *enter(cycle *c, uint32_t m, uint64_t place, uint8_t kind, uint64_t word);
void act(cycle *c, uint32_t m);
void check_facts(cycle *c, uint32_t m);
void check_end(cycle *c);
void check_dump(cycle *c, const bytes *dump);
void dump_of(bytes *b, const cycle *c);
void cycle_next(cycle *c, compressor_heap *heap);
uint64_t *cycle_rest(cycle *c);

void rest_round(graph *g, uint64_t *words, uint64_t count);
/* What looks.c and lanes.c have of a marking by looks. */
typedef struct marking {
    compressor_space space;
    compressor_looks looks;
    const uint64_t *roots;
    size_t root_count;
    const uint64_t *heads; /* bits of the live objects; null if the heap has a fault */
    uint64_t *rows, room;  /* where rows are copied */
    uint64_t *old, old_count; /* the objects that were handed in as they were before */
    int is_stopped;        /* the threads write no more */
} marking;
/* Copies the row of an object, as it is or was. Answers its words, or 0 if there is no room. */
uint64_t copy_row(marking *m, uint64_t index, uint64_t first);
/* Begins a marking from some roots by several lanes, which look at some objects, and are joined. Answers as its last
   step does; if that is refused, nothing is kept. */
compressor_answer begin_by_lanes(marking *m);
void refuse_lanes(marking *m, uint64_t index); /* steps of a lane in which this object waits */
/* A marking by looks, of a heap whose live objects begin at these bits; none are handed in if it has a fault. Answers
   as its last step does. */
compressor_answer survey_by_looks(uint32_t edition, uint64_t *words, uint64_t count, const uint64_t *roots,
                                  size_t root_count, const uint64_t *heads, compressor_survey *survey);
/* A survey that grows by steps beside a model, and is settled, refused or dropped; one of all these roots; and one that
   a fault ends, which answers as it does. */
void growing_round(const graph *g, const uint64_t *words, uint64_t count);
void survey_by_growing(uint32_t edition, const uint64_t *words, uint64_t count, const uint64_t *roots,
                       size_t root_count, uint64_t live, compressor_survey *survey);
compressor_answer grow_by_fault(uint32_t edition, const uint64_t *words, uint64_t count, const uint64_t *roots,
                                size_t root_count);
/* Young collections of a copy of these words, which are the graph; that is afterwards as they left it. */
void old_round(graph *g, const uint64_t *words, uint64_t count);
void slide_pages(compressor_survey *survey, const uint64_t *words, uint64_t count, uint64_t live, uint64_t *to);
uint64_t pinned_round(graph *g, uint64_t *words, uint64_t count);
void rest_faults(graph *g, const uint64_t *words, uint64_t count);
void pins_round(void);
void handles_round(void);
void limits_round(void);
void check_words(void);
void threads_round(void);

#endif
