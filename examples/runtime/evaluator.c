/* evaluator.c: forms become values.

   A form is evaluated in steps. A step either answers the value, or leaves another form in the slot `x`, and its scope
   in the slot `scope`, which is evaluated instead. So a call in the last place uses no stack.

   A scope is a chain of bindings. Where it ends, a symbol's own value counts: the global environment. */
#include "lisp.h"

#include <string.h>

enum { DONE, AGAIN };
enum { QUOTE = 1, IF, DEFINE, LAMBDA, LET, LETREC, SET, BEGIN, WHILE };

void define_forms(evaluator *e) {
    static const char *const names[] = {"quote", "if", "define", "lambda", "let", "letrec", "set!", "begin", "while"};
    slot symbol = heap_push(e);
    uint64_t i;
    for (i = 0; i < sizeof names / sizeof *names; i++) {
        make_symbol(e, symbol, names[i], strlen(names[i]));
        heap_set_word(e, symbol, SYMBOL_FORM, i + 1);
    }
    heap_pop(e, symbol);
}

/* Takes the first form of a list: the list becomes its rest. */
static void next(evaluator *e, slot out, slot list) {
    if (kind_of(e, list) != CELL) fail_with(e, "BadForm", list);
    heap_ref(e, out, list, CAR);
    heap_ref(e, list, list, CDR);
}

/* Takes a symbol. */
static void next_name(evaluator *e, slot out, slot list) {
    next(e, out, list);
    if (kind_of(e, out) != SYMBOL) fail_with(e, "NotASymbol", out);
}

/* Where a name has its value: a binding of the scope, or else the symbol. Both have it in the field VALUE. */
static void find(evaluator *e, slot place, slot name, slot scope) {
    slot other = heap_push(e);
    heap_copy(e, place, scope);
    while (!heap_is_null(e, place)) {
        heap_ref(e, other, place, BINDING_NAME);
        if (heap_same(e, other, name)) break;
        heap_ref(e, place, place, BINDING_NEXT);
    }
    if (heap_is_null(e, place)) heap_copy(e, place, name);
    heap_pop(e, other);
}

/* Its place and its value; it must have one. */
static void look_up(evaluator *e, slot place, slot value, slot name, slot scope) {
    find(e, place, name, scope);
    heap_ref(e, value, place, VALUE);
    if (heap_same(e, value, UNBOUND_SLOT)) fail_with(e, "Unbound", name);
}

/* Evaluates all forms of a body but the last, which is then x. */
static int run_body(evaluator *e, slot x, slot body, slot scope) {
    slot value = heap_push(e);
    next(e, x, body);
    while (!heap_is_null(e, body)) {
        evaluate(e, value, x, scope);
        next(e, x, body);
    }
    heap_pop(e, value);
    return AGAIN;
}

/* Calls f. A primitive answers; of a closure, the last form of its body and its scope are left. */
static int apply(evaluator *e, slot out, slot f, slot first, uint32_t count, slot x, slot scope) {
    slot names, name, body;
    uint32_t i;
    uint32_t kind = kind_of(e, f);
    if (kind == PRIMITIVE) {
        call_primitive(e, out, f, first, count);
        return DONE;
    }
    if (kind == GUARDIAN) {
        call_guardian(e, out, f, first, count);
        return DONE;
    }
    if (kind != CLOSURE) fail_with(e, "NotAFunction", f);
    names = heap_push(e), name = heap_push(e), body = heap_push(e);
    heap_ref(e, names, f, CLOSURE_NAMES);
    heap_ref(e, body, f, CLOSURE_BODY);
    heap_ref(e, scope, f, CLOSURE_SCOPE);
    for (i = 0; !heap_is_null(e, names); i++) {
        next_name(e, name, names);
        if (i < count) bind(e, scope, name, first + i);
    }
    if (i != count) heap_fail(e, "WrongCount", "");
    return run_body(e, x, body, scope);
}

static int apply_form(evaluator *e, slot out, slot head, slot rest, slot x, slot scope) {
    slot f = heap_push(e), form = heap_push(e), first = e->top;
    uint32_t count = 0;
    evaluate(e, f, head, scope);
    while (!heap_is_null(e, rest)) {
        slot value = heap_push(e);
        next(e, form, rest);
        evaluate(e, value, form, scope);
        count++;
    }
    return apply(e, out, f, first, count, x, scope);
}

/* (if test then else); without an else, the empty list */
static int step_if(evaluator *e, slot out, slot rest, slot x, slot scope) {
    slot test = heap_push(e);
    next(e, test, rest);
    evaluate(e, test, test, scope);
    next(e, x, rest);
    if (!heap_same(e, test, FALSE_SLOT)) return AGAIN;
    if (!heap_is_null(e, rest)) {
        next(e, x, rest);
        return AGAIN;
    }
    heap_clear(e, out);
    return DONE;
}

/* (define name form) or (define (name parameters) body): a global value, wherever it stands */
static int step_define(evaluator *e, slot out, slot rest, slot scope) {
    slot name = heap_push(e), value = heap_push(e);
    next(e, name, rest);
    if (kind_of(e, name) == CELL) {
        slot names = heap_push(e);
        heap_copy(e, names, name);
        next_name(e, name, names);
        make_closure(e, value, names, rest, scope);
    } else {
        if (kind_of(e, name) != SYMBOL) fail_with(e, "NotASymbol", name);
        next(e, value, rest);
        evaluate(e, value, value, scope);
    }
    heap_set_ref(e, name, VALUE, value);
    heap_clear(e, out);
    return DONE;
}

static int step_set(evaluator *e, slot out, slot rest, slot scope) {
    slot name = heap_push(e), value = heap_push(e), place = heap_push(e), old = heap_push(e);
    next_name(e, name, rest);
    next(e, value, rest);
    evaluate(e, value, value, scope);
    look_up(e, place, old, name, scope);
    heap_set_ref(e, place, VALUE, value);
    heap_clear(e, out);
    return DONE;
}

/* (let ((name form) ...) body): the forms are evaluated in the outer scope */
static int step_let(evaluator *e, slot rest, slot x, slot scope) {
    slot inner = heap_push(e), pairs = heap_push(e), pair = heap_push(e), name = heap_push(e), value = heap_push(e);
    heap_copy(e, inner, scope);
    next(e, pairs, rest);
    while (!heap_is_null(e, pairs)) {
        next(e, pair, pairs);
        next_name(e, name, pair);
        next(e, value, pair);
        evaluate(e, value, value, scope);
        bind(e, inner, name, value);
    }
    heap_copy(e, scope, inner);
    return run_body(e, x, rest, scope);
}

/* (letrec ((name form) ...) body): the forms are evaluated in the inner scope */
static int step_letrec(evaluator *e, slot rest, slot x, slot scope) {
    slot pairs = heap_push(e), again = heap_push(e), pair = heap_push(e), name = heap_push(e), value = heap_push(e);
    slot place = heap_push(e);
    next(e, pairs, rest);
    heap_copy(e, again, pairs);
    while (!heap_is_null(e, pairs)) {
        next(e, pair, pairs);
        next_name(e, name, pair);
        bind(e, scope, name, UNBOUND_SLOT);
    }
    while (!heap_is_null(e, again)) {
        next(e, pair, again);
        next_name(e, name, pair);
        next(e, value, pair);
        evaluate(e, value, value, scope);
        find(e, place, name, scope);
        heap_set_ref(e, place, VALUE, value);
    }
    return run_body(e, x, rest, scope);
}

/* (while test form ...) */
static int step_while(evaluator *e, slot out, slot rest, slot scope) {
    slot test = heap_push(e), value = heap_push(e), at = heap_push(e);
    next(e, test, rest);
    for (;;) {
        evaluate(e, value, test, scope);
        if (heap_same(e, value, FALSE_SLOT)) break;
        heap_copy(e, at, rest);
        while (!heap_is_null(e, at)) {
            next(e, value, at);
            evaluate(e, value, value, scope);
        }
    }
    heap_clear(e, out);
    return DONE;
}

static int step_form(evaluator *e, slot out, slot x, slot scope) {
    slot head = heap_push(e), rest = heap_push(e);
    heap_ref(e, head, x, CAR);
    heap_ref(e, rest, x, CDR);
    switch (kind_of(e, head) == SYMBOL ? heap_word(e, head, SYMBOL_FORM) : 0) {
    case QUOTE: next(e, out, rest); return DONE;
    case IF: return step_if(e, out, rest, x, scope);
    case DEFINE: return step_define(e, out, rest, scope);
    case LAMBDA:
        next(e, head, rest);
        make_closure(e, out, head, rest, scope);
        return DONE;
    case LET: return step_let(e, rest, x, scope);
    case LETREC: return step_letrec(e, rest, x, scope);
    case SET: return step_set(e, out, rest, scope);
    case BEGIN: return run_body(e, x, rest, scope);
    case WHILE: return step_while(e, out, rest, scope);
    default: return apply_form(e, out, head, rest, x, scope);
    }
}

static int step(evaluator *e, slot out, slot x, slot scope) {
    slot top = e->top;
    int done = DONE;
    heap_poll(e);
    switch (kind_of(e, x)) {
    case SYMBOL: look_up(e, heap_push(e), out, x, scope); break;
    case CELL: done = step_form(e, out, x, scope); break;
    default: heap_copy(e, out, x);
    }
    heap_pop(e, top);
    return done;
}

void evaluate(evaluator *e, slot out, slot form, slot scope) {
    slot x = heap_push(e), inner = heap_push(e);
    deeper(e);
    heap_copy(e, x, form);
    heap_copy(e, inner, scope);
    while (step(e, out, x, inner) == AGAIN) continue;
    e->depth--;
    heap_pop(e, x);
}

void call(evaluator *e, slot out, slot f, slot first, uint32_t count) {
    slot x = heap_push(e), scope = heap_push(e);
    if (apply(e, out, f, first, count, x, scope) == AGAIN) evaluate(e, out, x, scope);
    heap_pop(e, x);
}
