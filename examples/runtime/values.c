/* values.c: making values and taking them apart.

   A value is made in a slot of its own, and goes to `out` once it is whole: `out` may hold what is still needed. */
#include "lisp.h"

#include <string.h>

static slot make(evaluator *e, uint32_t kind, uint32_t refs, uint32_t data_words) {
    slot made = heap_push(e);
    heap_new(e, made, refs, data_words, kind);
    return made;
}

static void deliver(evaluator *e, slot out, slot made) {
    heap_copy(e, out, made);
    heap_pop(e, made);
}

uint32_t kind_of(evaluator *e, slot value) {
    return heap_is_null(e, value) ? (uint32_t)NIL : heap_kind(e, value);
}

void make_integer(evaluator *e, slot out, int64_t number) {
    slot made;
    if (heap_set_small(e, out, INTEGER, number)) return;
    made = make(e, INTEGER, 0, 1);
    heap_set_word(e, made, NUMBER, (uint64_t)number);
    deliver(e, out, made);
}

int64_t integer_of(evaluator *e, slot value) {
    if (kind_of(e, value) != INTEGER) fail_with(e, "NotAnInteger", value);
    return heap_is_small(e, value) ? heap_small(e, value) : (int64_t)heap_word(e, value, NUMBER);
}

void make_boolean(evaluator *e, slot out, int is_so) {
    heap_copy(e, out, is_so ? TRUE_SLOT : FALSE_SLOT);
}

void make_cell(evaluator *e, slot out, slot car, slot cdr) {
    slot made = make(e, CELL, 2, 0);
    heap_set_ref(e, made, CAR, car);
    heap_set_ref(e, made, CDR, cdr);
    deliver(e, out, made);
}

void make_closure(evaluator *e, slot out, slot names, slot body, slot scope) {
    slot made = make(e, CLOSURE, 3, 0);
    heap_set_ref(e, made, CLOSURE_NAMES, names);
    heap_set_ref(e, made, CLOSURE_BODY, body);
    heap_set_ref(e, made, CLOSURE_SCOPE, scope);
    deliver(e, out, made);
}

void make_primitive(evaluator *e, slot out, uint64_t number) {
    slot made = make(e, PRIMITIVE, 0, 1);
    heap_set_word(e, made, NUMBER, number);
    deliver(e, out, made);
}

/* The scope becomes itself with one more binding. */
void bind(evaluator *e, slot scope, slot name, slot value) {
    slot made = make(e, BINDING, 3, 0);
    heap_set_ref(e, made, VALUE, value);
    heap_set_ref(e, made, BINDING_NAME, name);
    heap_set_ref(e, made, BINDING_NEXT, scope);
    deliver(e, scope, made);
}

/* Is a vector of this length one object? It else leads to chunks. */
static int is_whole(uint64_t length) {
    return length <= heap_most_words() - 2; /* beside its header and its length */
}

static void fill(evaluator *e, slot object, uint32_t count, slot filling) {
    uint32_t f;
    for (f = 0; f < count; f++) heap_set_ref(e, object, f, filling);
}

static void add_chunks(evaluator *e, slot vector, uint32_t length, slot filling) {
    slot chunk = heap_push(e);
    uint32_t i, left;
    for (i = 0, left = length; left > 0; i++) {
        uint32_t elements = left < CHUNK_LENGTH ? left : (uint32_t)CHUNK_LENGTH;
        heap_new(e, chunk, elements, 0, CHUNK);
        fill(e, chunk, elements, filling);
        heap_set_ref(e, vector, i, chunk);
        left -= elements;
    }
    heap_pop(e, chunk);
}

void make_vector(evaluator *e, slot out, int64_t length, slot filling) {
    slot made;
    if (length >= 0 && is_whole((uint64_t)length)) {
        made = make(e, VECTOR, (uint32_t)length, 1);
        fill(e, made, (uint32_t)length, filling);
    } else if (length >= 0 && length <= MOST_CHUNKS * CHUNK_LENGTH) {
        made = make(e, VECTOR, (uint32_t)(length + CHUNK_LENGTH - 1) / CHUNK_LENGTH, 1);
        add_chunks(e, made, (uint32_t)length, filling);
    } else {
        heap_fail(e, "BadLength", "");
    }
    heap_set_word(e, made, LENGTH, (uint64_t)length);
    deliver(e, out, made);
}

/* A new slot with the object that has the element in this field of it. */
static slot home_of(evaluator *e, slot vector, int64_t index, uint32_t *field) {
    uint64_t length;
    slot home;
    if (kind_of(e, vector) != VECTOR) fail_with(e, "NotAVector", vector);
    length = heap_word(e, vector, LENGTH);
    if (index < 0 || (uint64_t)index >= length) heap_fail(e, "BadIndex", "");
    home = heap_push(e);
    if (is_whole(length)) {
        heap_copy(e, home, vector);
        *field = (uint32_t)index;
    } else {
        heap_ref(e, home, vector, (uint32_t)(index / CHUNK_LENGTH));
        *field = (uint32_t)(index % CHUNK_LENGTH);
    }
    return home;
}

void vector_get(evaluator *e, slot out, slot vector, int64_t index) {
    uint32_t field;
    slot home = home_of(e, vector, index, &field);
    heap_ref(e, out, home, field);
    heap_pop(e, home);
}

void vector_set(evaluator *e, slot vector, int64_t index, slot value) {
    uint32_t field;
    slot home = home_of(e, vector, index, &field);
    heap_set_ref(e, home, field, value);
    heap_pop(e, home);
}

/* The word of a name that begins at byte `from`. */
static uint64_t word_of(const char *name, size_t length, size_t from) {
    uint64_t word = 0;
    size_t left = length - from;
    memcpy(&word, name + from, left < sizeof word ? left : sizeof word);
    return word;
}

static int is_named(evaluator *e, slot symbol, const char *name, size_t length) {
    size_t i;
    if (heap_word(e, symbol, SYMBOL_LENGTH) != length) return 0;
    for (i = 0; i < length; i += 8)
        if (heap_word(e, symbol, (uint32_t)(SYMBOL_NAME + i / 8)) != word_of(name, length, i)) return 0;
    return 1;
}

/* The one symbol of this name. Only evaluator 0 makes symbols. */
void make_symbol(evaluator *e, slot out, const char *name, size_t length) {
    slot made = heap_push(e);
    size_t i;
    heap_ref(e, made, WORLD_SLOT, WORLD_SYMBOLS);
    while (!heap_is_null(e, made) && !is_named(e, made, name, length)) heap_ref(e, made, made, SYMBOL_NEXT);
    if (heap_is_null(e, made)) {
        slot next = heap_push(e);
        slot fresh = make(e, SYMBOL, 2, (uint32_t)(2 + (length + 7) / 8));
        heap_set_word(e, fresh, SYMBOL_LENGTH, length);
        for (i = 0; i < length; i += 8)
            heap_set_word(e, fresh, (uint32_t)(SYMBOL_NAME + i / 8), word_of(name, length, i));
        heap_set_ref(e, fresh, VALUE, UNBOUND_SLOT);
        heap_ref(e, next, WORLD_SLOT, WORLD_SYMBOLS);
        heap_set_ref(e, fresh, SYMBOL_NEXT, next);
        heap_set_ref(e, WORLD_SLOT, WORLD_SYMBOLS, fresh);
        heap_copy(e, made, fresh);
    }
    deliver(e, out, made);
}

size_t symbol_name(evaluator *e, slot symbol, char name[MOST_NAME]) {
    size_t length = heap_word(e, symbol, SYMBOL_LENGTH), i;
    for (i = 0; i < length; i += 8) {
        uint64_t word = heap_word(e, symbol, (uint32_t)(SYMBOL_NAME + i / 8));
        memcpy(name + i, &word, length - i < 8 ? length - i : 8);
    }
    return length;
}

/* One level deeper in C's stack; e->depth is set back by the caller. */
void deeper(evaluator *e) {
    if (++e->depth > MOST_DEPTH) heap_fail(e, "TooDeep", "");
}

void fail_with(evaluator *e, const char *name, slot about) {
    char text[80];
    print_short(e, about, text, sizeof text);
    heap_fail(e, name, text);
}
