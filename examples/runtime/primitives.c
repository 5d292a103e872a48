/* primitives.c: the functions that are built in. */
#include "lisp.h"

#include <string.h>

typedef void primitive(evaluator *e, slot out, arguments a);

static int64_t number(evaluator *e, arguments a, uint32_t i) {
    return integer_of(e, a.first + i);
}

/* Arithmetic. */

static void add(evaluator *e, slot out, arguments a) {
    int64_t sum = 0;
    uint32_t i;
    for (i = 0; i < a.count; i++)
        if (__builtin_add_overflow(sum, number(e, a, i), &sum)) heap_fail(e, "Overflow", "");
    make_integer(e, out, sum);
}

static void multiply(evaluator *e, slot out, arguments a) {
    int64_t product = 1;
    uint32_t i;
    for (i = 0; i < a.count; i++)
        if (__builtin_mul_overflow(product, number(e, a, i), &product)) heap_fail(e, "Overflow", "");
    make_integer(e, out, product);
}

static void subtract(evaluator *e, slot out, arguments a) {
    int64_t from = a.count == 1 ? 0 : number(e, a, 0), by = number(e, a, a.count - 1), left;
    if (__builtin_sub_overflow(from, by, &left)) heap_fail(e, "Overflow", "");
    make_integer(e, out, left);
}

/* The divisor, which divides. */
static int64_t divisor(evaluator *e, arguments a) {
    int64_t b = number(e, a, 1);
    if (b == 0) heap_fail(e, "DividedByZero", "");
    if (b == -1 && number(e, a, 0) == INT64_MIN) heap_fail(e, "Overflow", "");
    return b;
}

static void quotient(evaluator *e, slot out, arguments a) {
    int64_t b = divisor(e, a);
    make_integer(e, out, number(e, a, 0) / b);
}

static void remainder_of(evaluator *e, slot out, arguments a) {
    int64_t b = divisor(e, a);
    make_integer(e, out, number(e, a, 0) % b);
}

static void equals(evaluator *e, slot out, arguments a) {
    make_boolean(e, out, number(e, a, 0) == number(e, a, 1));
}

static void is_less(evaluator *e, slot out, arguments a) {
    make_boolean(e, out, number(e, a, 0) < number(e, a, 1));
}

static void is_greater(evaluator *e, slot out, arguments a) {
    make_boolean(e, out, number(e, a, 0) > number(e, a, 1));
}

/* Questions. */

static void is_same(evaluator *e, slot out, arguments a) {
    make_boolean(e, out, heap_same(e, a.first, a.first + 1));
}

static void is_false(evaluator *e, slot out, arguments a) {
    make_boolean(e, out, heap_same(e, a.first, FALSE_SLOT));
}

static void is_null(evaluator *e, slot out, arguments a) {
    make_boolean(e, out, heap_is_null(e, a.first));
}

static void is_cell(evaluator *e, slot out, arguments a) {
    make_boolean(e, out, kind_of(e, a.first) == CELL);
}

/* Cells. */

static void check_cell(evaluator *e, slot value) {
    if (kind_of(e, value) != CELL) fail_with(e, "NotACell", value);
}

static void cons(evaluator *e, slot out, arguments a) {
    make_cell(e, out, a.first, a.first + 1);
}

static void car(evaluator *e, slot out, arguments a) {
    check_cell(e, a.first);
    heap_ref(e, out, a.first, CAR);
}

static void cdr(evaluator *e, slot out, arguments a) {
    check_cell(e, a.first);
    heap_ref(e, out, a.first, CDR);
}

static void set_car(evaluator *e, slot out, arguments a) {
    check_cell(e, a.first);
    heap_set_ref(e, a.first, CAR, a.first + 1);
    heap_clear(e, out);
}

static void set_cdr(evaluator *e, slot out, arguments a) {
    check_cell(e, a.first);
    heap_set_ref(e, a.first, CDR, a.first + 1);
    heap_clear(e, out);
}

static void list(evaluator *e, slot out, arguments a) {
    slot made = heap_push(e);
    while (a.count > 0) make_cell(e, made, a.first + --a.count, made);
    heap_copy(e, out, made);
    heap_pop(e, made);
}

/* Vectors. */

static void vector(evaluator *e, slot out, arguments a) {
    slot made = heap_push(e), null = heap_push(e);
    uint32_t i;
    make_vector(e, made, a.count, null);
    for (i = 0; i < a.count; i++) vector_set(e, made, i, a.first + i);
    heap_copy(e, out, made);
    heap_pop(e, made);
}

static void new_vector(evaluator *e, slot out, arguments a) {
    make_vector(e, out, number(e, a, 0), a.first + 1);
}

static void vector_length(evaluator *e, slot out, arguments a) {
    if (kind_of(e, a.first) != VECTOR) fail_with(e, "NotAVector", a.first);
    make_integer(e, out, (int64_t)heap_word(e, a.first, LENGTH));
}

static void vector_ref(evaluator *e, slot out, arguments a) {
    vector_get(e, out, a.first, number(e, a, 1));
}

static void set_vector(evaluator *e, slot out, arguments a) {
    vector_set(e, a.first, number(e, a, 1), a.first + 2);
    heap_clear(e, out);
}

/* The world. */

static void print_all(evaluator *e, slot out, arguments a) {
    print_line(e, a.first, a.count, stdout);
    heap_clear(e, out);
}

static void run_parallel(evaluator *e, slot out, arguments a) {
    parallel(e, out, number(e, a, 0), a.first + 1);
}

static void cycles(evaluator *e, slot out, arguments a) {
    (void)a;
    make_integer(e, out, (int64_t)heap_cycles());
}

static void collect_now(evaluator *e, slot out, arguments a) {
    (void)a;
    heap_collect(e);
    heap_clear(e, out);
}

static void fail(evaluator *e, slot out, arguments a) {
    (void)out;
    fail_with(e, "Failed", a.first);
}

static const struct {
    const char *name;
    uint32_t least, most; /* how many arguments */
    primitive *run;
} primitives[] = {
    {"+", 0, UINT32_MAX, add}, {"*", 0, UINT32_MAX, multiply}, {"-", 1, 2, subtract},
    {"quotient", 2, 2, quotient}, {"remainder", 2, 2, remainder_of},
    {"=", 2, 2, equals}, {"<", 2, 2, is_less}, {">", 2, 2, is_greater},
    {"eq?", 2, 2, is_same}, {"not", 1, 1, is_false}, {"null?", 1, 1, is_null}, {"pair?", 1, 1, is_cell},
    {"cons", 2, 2, cons}, {"car", 1, 1, car}, {"cdr", 1, 1, cdr},
    {"set-car!", 2, 2, set_car}, {"set-cdr!", 2, 2, set_cdr}, {"list", 0, UINT32_MAX, list},
    {"vector", 0, UINT32_MAX, vector}, {"make-vector", 2, 2, new_vector}, {"vector-length", 1, 1, vector_length},
    {"vector-ref", 2, 2, vector_ref}, {"vector-set!", 3, 3, set_vector},
    {"make-ephemeron-table", 0, 0, make_table}, {"table-set!", 3, 3, table_set}, {"table-ref", 2, 3, table_ref},
    {"table-delete!", 2, 2, table_delete}, {"table-count", 1, 1, table_count}, {"make-guardian", 0, 0, make_guardian},
    {"print", 0, UINT32_MAX, print_all}, {"parallel", 2, 2, run_parallel}, {"cycles", 0, 0, cycles},
    {"collect", 0, 0, collect_now}, {"fail", 1, 1, fail},
};

void define_primitives(evaluator *e) {
    slot symbol = heap_push(e), value = heap_push(e);
    uint64_t i;
    for (i = 0; i < sizeof primitives / sizeof *primitives; i++) {
        make_symbol(e, symbol, primitives[i].name, strlen(primitives[i].name));
        make_primitive(e, value, i);
        heap_set_ref(e, symbol, VALUE, value);
    }
    heap_pop(e, symbol);
}

void call_primitive(evaluator *e, slot out, slot p, slot first, uint32_t count) {
    uint64_t i = heap_word(e, p, NUMBER);
    arguments a = {first, count};
    if (count < primitives[i].least || count > primitives[i].most) heap_fail(e, "WrongCount", primitives[i].name);
    primitives[i].run(e, out, a);
}
