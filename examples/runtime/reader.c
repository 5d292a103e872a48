/* reader.c: text becomes values. */
#include "lisp.h"

#include <string.h>

static void fail_at(evaluator *e, const char *name, const reader *r) {
    char line[32];
    snprintf(line, sizeof line, "line %d", r->line);
    heap_fail(e, name, line);
}

static void skip_blanks(reader *r) {
    int comment = 0;
    for (; r->at < r->end; r->at++) {
        char c = *r->at;
        if (c == '\n') r->line++, comment = 0;
        else if (c == ';') comment = 1;
        else if (!comment && c != ' ' && c != '\t' && c != '\r') return;
    }
}

static int is_end(char c) {
    return strchr(" \t\r\n();'", c) != NULL; /* a zero byte too */
}

/* Is the word an integer? A sign alone is none. */
static int is_integer(const char *word, size_t length) {
    size_t i = length > 1 && (*word == '-' || *word == '+');
    for (; i < length; i++)
        if (word[i] < '0' || word[i] > '9') return 0;
    return 1;
}

static int64_t number_of(evaluator *e, const char *word, size_t length, const reader *r) {
    int negative = *word == '-';
    size_t i = negative || *word == '+';
    int64_t n = 0;
    for (; i < length; i++) {
        int64_t digit = word[i] - '0';
        if (__builtin_mul_overflow(n, 10, &n) || __builtin_add_overflow(n, negative ? -digit : digit, &n))
            fail_at(e, "NumberTooLarge", r);
    }
    return n;
}

static void read_word(evaluator *e, slot out, reader *r) {
    const char *word = r->at;
    size_t length;
    while (r->at < r->end && !is_end(*r->at)) r->at++;
    length = (size_t)(r->at - word);
    if (length == 0) fail_at(e, "BadCharacter", r);
    if (is_integer(word, length)) make_integer(e, out, number_of(e, word, length, r));
    else if (length == 2 && memcmp(word, "#t", 2) == 0) make_boolean(e, out, 1);
    else if (length == 2 && memcmp(word, "#f", 2) == 0) make_boolean(e, out, 0);
    else if (length > MOST_NAME) fail_at(e, "NameTooLong", r);
    else make_symbol(e, out, word, length);
}

static void read_inner(evaluator *e, slot out, reader *r) {
    if (!read_form(e, out, r)) fail_at(e, "UnexpectedEnd", r);
}

/* The forms after an opening parenthesis, and the closing one. */
static void read_list(evaluator *e, slot out, reader *r) {
    slot first = heap_push(e), last = heap_push(e), item = heap_push(e), null = heap_push(e);
    for (;;) {
        skip_blanks(r);
        if (r->at == r->end) fail_at(e, "UnexpectedEnd", r);
        if (*r->at == ')') break;
        read_inner(e, item, r);
        make_cell(e, item, item, null);
        if (heap_is_null(e, first)) heap_copy(e, first, item);
        else heap_set_ref(e, last, CDR, item);
        heap_copy(e, last, item);
    }
    r->at++;
    heap_copy(e, out, first);
    heap_pop(e, first);
}

/* What follows a quote, as (quote form). */
static void read_quoted(evaluator *e, slot out, reader *r) {
    slot form = heap_push(e), quote = heap_push(e), null = heap_push(e);
    read_inner(e, form, r);
    make_cell(e, form, form, null);
    make_symbol(e, quote, "quote", 5);
    make_cell(e, out, quote, form);
    heap_pop(e, form);
}

int read_form(evaluator *e, slot out, reader *r) {
    skip_blanks(r);
    if (r->at == r->end) return 0;
    deeper(e);
    switch (*r->at) {
    case '(': r->at++, read_list(e, out, r); break;
    case '\'': r->at++, read_quoted(e, out, r); break;
    case ')': fail_at(e, "UnexpectedParenthesis", r); break;
    default: read_word(e, out, r);
    }
    e->depth--;
    return 1;
}
