/* lisp.h: the values of the Lisp, and what its files offer to one another.

   A value is null, which is the empty list, or it has a kind. INTEGER, BOOLEAN, whose numbers are 0 and 1, and UNBOUND
   are kinds of small values; all else, and an integer of more than 60 bits, is an object.

   kind        reference fields                 data words
   INTEGER                                      the number
   CELL        car, cdr
   SYMBOL      global value, next symbol        its special form or 0, length of the name, the name in words
   VECTOR      elements, or chunks of them      length
   CHUNK       up to CHUNK_LENGTH elements
   CLOSURE     parameters, body, scope
   PRIMITIVE                                    its number
   BINDING     value, name, next binding
   TABLE       first entry
   ENTRY       next entry                                                                an ephemeron of the heap's
   GUARDIAN, GUARD                                                                       the heap's              */
#ifndef LISP_H
#define LISP_H

#include "heap.h"

#ifdef __cplusplus
extern "C" {
#endif

/* kinds, those of small values first. UNBOUND is the value of a symbol that has none, NIL is said of the empty list,
   WORLD is what all evaluators share */
enum { INTEGER, BOOLEAN, UNBOUND, NIL, CELL, SYMBOL, VECTOR, CHUNK, CLOSURE, PRIMITIVE, BINDING, WORLD, TABLE, ENTRY,
       GUARDIAN, GUARD };

/* reference fields; VALUE is that of a symbol and of a binding */
enum { CAR = 0, CDR = 1, VALUE = 0, SYMBOL_NEXT = 1, BINDING_NAME = 1, BINDING_NEXT = 2 };
enum { CLOSURE_NAMES, CLOSURE_BODY, CLOSURE_SCOPE };
enum { NEXT_ENTRY = 0, TABLE_FIELDS }; /* NEXT_ENTRY is that of a table and of an entry */
enum { WORLD_SYMBOLS, WORLD_WORK, WORLD_RESULTS, WORLD_FIELDS };
/* data words */
enum { NUMBER = 0, LENGTH = 0, SYMBOL_FORM = 0, SYMBOL_LENGTH = 1, SYMBOL_NAME = 2 };

/* the lowest slots of each stack */
enum { WORLD_SLOT, FALSE_SLOT, TRUE_SLOT, UNBOUND_SLOT, FIRST_SLOTS };

enum {
    MOST_NAME = 64,                /* bytes of a symbol's name */
    CHUNK_LENGTH = MOST_WORDS - 1, /* beside its header */
    MOST_CHUNKS = MOST_WORDS - 2,  /* of a vector, beside its header and its length */
    MOST_DEPTH = 10000             /* of forms within forms */
};

/* values.c: making values and taking them apart. `out` may be the slot of an argument. */
uint32_t kind_of(evaluator *e, slot value);
void make_integer(evaluator *e, slot out, int64_t number);
int64_t integer_of(evaluator *e, slot value);
void make_boolean(evaluator *e, slot out, int is_so);
void make_cell(evaluator *e, slot out, slot car, slot cdr);
void make_closure(evaluator *e, slot out, slot names, slot body, slot scope);
void make_primitive(evaluator *e, slot out, uint64_t number);
void bind(evaluator *e, slot scope, slot name, slot value);
void make_vector(evaluator *e, slot out, int64_t length, slot filling);
void vector_get(evaluator *e, slot out, slot vector, int64_t index);
void vector_set(evaluator *e, slot vector, int64_t index, slot value);
void make_symbol(evaluator *e, slot out, const char *name, size_t length);
size_t symbol_name(evaluator *e, slot symbol, char name[MOST_NAME]);
void deeper(evaluator *e);
void fail_with(evaluator *e, const char *name, slot about) __attribute__((noreturn));

/* reader.c: reads the next form of a text; 0 at its end. */
typedef struct reader {
    const char *at, *end;
    int line;
} reader;
int read_form(evaluator *e, slot out, reader *r);

/* evaluator.c */
void define_forms(evaluator *e);
void evaluate(evaluator *e, slot out, slot form, slot scope);
/* out becomes the value of f, applied to the count values in the slots from first on. */
void call(evaluator *e, slot out, slot f, slot first, uint32_t count);

/* primitives.c: what is called with the arguments in the slots from first on; out may be one of them. */
typedef struct arguments {
    slot first;
    uint32_t count;
} arguments;
void define_primitives(evaluator *e);
void call_primitive(evaluator *e, slot out, slot primitive, slot first, uint32_t count);

/* tables.c: primitives; a guardian is a function of its own */
void make_table(evaluator *e, slot out, arguments a);
void table_set(evaluator *e, slot out, arguments a);
void table_ref(evaluator *e, slot out, arguments a);
void table_delete(evaluator *e, slot out, arguments a);
void table_count(evaluator *e, slot out, arguments a);
void make_guardian(evaluator *e, slot out, arguments a);
void call_guardian(evaluator *e, slot out, slot guardian, slot first, uint32_t count);

/* parallel.c: evaluators that share work. */
/* out becomes the vector of (f 0) to (f count-1); all evaluators share these calls out among them. */
void parallel(evaluator *e, slot out, int64_t count, slot f);
/* What evaluators other than 0 do until the program ends. */
void help(evaluator *e) __attribute__((noreturn));

/* printer.c */
/* Writes the count values in the slots from first on as one line. */
void print_line(evaluator *e, slot first, uint32_t count, FILE *to);
/* Writes at most room - 1 bytes and a zero. */
void print_short(evaluator *e, slot value, char *to, size_t room);

#ifdef __cplusplus
}
#endif

#endif
