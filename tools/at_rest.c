/* The sample of docs/C.md, At rest, in a loop: each round makes a pair that lives, until the heap is full or a
   collection is refused. at_rest_sample.h is what tools/run-from-c takes out of the document. The sample ends by `die`,
   which says whether all pairs are there. */
#include "compressor_rest.h"

#include <stdio.h>
#include <stdlib.h>

enum { TAG_PAIR = 1, ROOM = 100000 };

static uint64_t words[ROOM], list, rounds;
static compressor_space space;
static compressor_buffer buffer;

static void die(const char *why) {
    uint64_t pairs = 0;
    for (uint64_t at = list; at != 0; at = compressor_load(&space, at, 1))
        pairs += compressor_load(&space, at, 0) == compressor_fixnum(7);
    printf("%s: %s, in some %d sixteenths of the room\n", why, pairs == rounds ? "all pairs" : "not all pairs",
           (int)((pairs * 3 * 16 + ROOM / 2) / ROOM));
    exit(1);
}

int main(void) {
    uint64_t *variables[] = {&list}, roots[1];
    const size_t count = 1, room = ROOM;
    compressor_space_in(&space, 4, words, room, 0);
    compressor_space_limit(&space, 0, 2);
    for (;;) {
        rounds++;
#include "at_rest_sample.h"
    }
}
