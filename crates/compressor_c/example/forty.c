/* A heap at rest in some forty lines: one thread, two memories, roots on a stack. Where the program polls and it is
   due, what the roots reach slides from one memory into the other. Of a million pairs each thousandth is kept; prints
   what was found. A heap that is full, or a collection that is refused, ends the program by name. */
#include "compressor_rest.h"

#include <stdio.h>
#include <stdlib.h>

enum { EDITION = 4, ROOM = 1 << 22, PAIRS = 1000000, KEPT = 1000, MOST_ROOTS = 1 << 10 };

static compressor_space space;
static compressor_buffer buffer;
static uint64_t *memory[2], roots[MOST_ROOTS]; /* the roots are a stack: over a poll an address is kept there alone */
static size_t root_count, collections;

static void die(const char *why) {
    fprintf(stderr, "forty: %s\n", why);
    exit(1);
}

static void heap_lies_in(uint64_t *words, uint64_t live) {
    compressor_space_in(&space, EDITION, words, ROOM, live);
    compressor_buffer_empty(&buffer); /* what it had left is in the memory of before */
    if (compressor_space_limit(&space, live, 2) == 0) die("the heap is full");
}

static void heap_poll(void) {
    if (!compressor_space_due(&space)) return;
    uint64_t *to = memory[space.words == memory[0]];
    const compressor_answer a = compressor_collect(EDITION, space.words, space.used, roots, root_count, to, ROOM);
    if (a.status != COMPRESSOR_DONE) die(compressor_status_text(a.status)); /* the value of a refusal is no count */
    heap_lies_in(to, a.value);
    collections++;
}

static uint64_t pair(uint64_t first, uint64_t rest) { /* it never collects: `rest` still leads there */
    const uint64_t made = compressor_new(&space, &buffer, COMPRESSOR_HEADER_REFS(2, 1), 3);
    if (made == 0) die("more is made between two polls than the room has above its limit");
    compressor_store(&space, made, 0, first);
    compressor_store(&space, made, 1, rest);
    return made;
}

int main(void) {
    int64_t sum = 0;
    for (int k = 0; k < 2; k++)
        if ((memory[k] = (uint64_t *)calloc(ROOM, sizeof **memory)) == NULL) die("no memory");
    heap_lies_in(memory[0], 0);
    roots[root_count++] = 0; /* the list of what is kept */
    for (int i = 1; i <= PAIRS; i++) {
        const uint64_t made = pair(compressor_fixnum(i), roots[0]);
        if (i % (PAIRS / KEPT) == 0) roots[0] = made;
        heap_poll(); /* `made` may lead nowhere now */
    }
    for (uint64_t at = roots[0]; at != 0; at = compressor_load(&space, at, 1))
        sum += compressor_fixnum_value(compressor_load(&space, at, 0));
    printf("%d of %d pairs were kept, over %zu collections: their sum is %lld\n", KEPT, PAIRS, collections,
           (long long)sum);
    return sum != 500500000;
}
