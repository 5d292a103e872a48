/* printer.c: values as text. Reading a heap never collects, so nothing moves while a value is printed. */
#include "lisp.h"

#include <string.h>

enum { MOST_PRINTED = 100000, MOST_NESTED = 100 }; /* values, and lists within lists: a value may be a ring */

typedef struct text {
    char *bytes;
    size_t length, room;
    FILE *to;            /* gets the bytes when they are full; if it is null, what follows is dropped */
    uint32_t left;       /* how many values may yet be printed */
} text;

static void flush_text(text *t) {
    fwrite(t->bytes, 1, t->length, t->to);
    t->length = 0;
}

static void put(text *t, const char *bytes, size_t length) {
    size_t i;
    for (i = 0; i < length; i++) {
        if (t->length == t->room && t->to) flush_text(t);
        if (t->length < t->room) t->bytes[t->length++] = bytes[i];
    }
}

static void put_text(text *t, const char *s) {
    put(t, s, strlen(s));
}

static void print(evaluator *e, slot value, text *t, uint32_t nested);

static void print_list(evaluator *e, slot value, text *t, uint32_t nested) {
    slot at = heap_push(e), item = heap_push(e);
    const char *before = "(";
    heap_copy(e, at, value);
    while (kind_of(e, at) == CELL && t->left > 0) {
        put_text(t, before);
        heap_ref(e, item, at, CAR);
        print(e, item, t, nested);
        heap_ref(e, at, at, CDR);
        before = " ";
    }
    if (!heap_is_null(e, at)) {
        put_text(t, " . ");
        print(e, at, t, nested);
    }
    put_text(t, ")");
    heap_pop(e, at);
}

static void print_vector(evaluator *e, slot value, text *t, uint32_t nested) {
    int64_t length = (int64_t)heap_word(e, value, LENGTH), i;
    slot item = heap_push(e);
    put_text(t, "#(");
    for (i = 0; i < length && t->left > 0; i++) {
        if (i > 0) put_text(t, " ");
        vector_get(e, item, value, i);
        print(e, item, t, nested);
    }
    put_text(t, ")");
    heap_pop(e, item);
}

static void print(evaluator *e, slot value, text *t, uint32_t nested) {
    char name[MOST_NAME], number[32];
    if (t->left == 0 || nested == MOST_NESTED) {
        put_text(t, "...");
        return;
    }
    t->left--;
    switch (kind_of(e, value)) {
    case NIL: put_text(t, "()"); return;
    case CELL: print_list(e, value, t, nested + 1); return;
    case VECTOR: print_vector(e, value, t, nested + 1); return;
    case TABLE: put_text(t, "#table"); return;
    case SYMBOL: put(t, name, symbol_name(e, value, name)); return;
    case BOOLEAN: put_text(t, heap_same(e, value, TRUE_SLOT) ? "#t" : "#f"); return;
    case INTEGER:
        snprintf(number, sizeof number, "%lld", (long long)integer_of(e, value));
        put_text(t, number);
        return;
    default: put_text(t, "#function"); return;
    }
}

/* A line of up to 4,096 bytes is written at once. */
void print_line(evaluator *e, slot first, uint32_t count, FILE *to) {
    char bytes[4096];
    text t = {bytes, 0, sizeof bytes, to, MOST_PRINTED};
    uint32_t i;
    for (i = 0; i < count; i++) {
        if (i > 0) put_text(&t, " ");
        print(e, first + i, &t, 0);
    }
    put_text(&t, "\n");
    flush_text(&t);
}

void print_short(evaluator *e, slot value, char *to, size_t room) {
    text t = {to, 0, room - 1, NULL, 20};
    print(e, value, &t, 0);
    to[t.length] = 0;
}
