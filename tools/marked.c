/* Marks a heap while it goes on, in a space that was turned, as compressor_rest.h says: the marks have a block for each
   64 words of the room, and the space is handed in. tools/run-from-c runs it with AddressSanitizer, which sees each word
   of the marks. BY_USED: marks only for the words that were used when the marking began. WITHOUT_SPACE: the roots are
   kept by the function for a space that is not turned. Either writes outside of the marks, and has to be found. */
#include "compressor_rest.h"

#include <stdio.h>
#include <stdlib.h>

enum { ROOM = 20000, OLD = 200, NEW = 5000, EDITION = 4, KEPT = 64 };

static const uint64_t pair_header = COMPRESSOR_HEADER(2, 0, 0, 1);

static compressor_space space;
static compressor_buffer buffer;
static compressor_barrier barrier;
static uint64_t packet[KEPT];
static uint64_t *waiting, waits;

static void fail(const char *what) {
    printf("marked: %s\n", what);
    exit(1);
}

static void *zeros(size_t count) {
    void *const all = calloc(count, sizeof(uint64_t));
    if (all == NULL) fail("no memory");
    return all;
}

static void done(compressor_answer a, const char *call) {
    if (a.status == COMPRESSOR_DONE) return;
    printf("marked: %s: %s, %llu\n", call, compressor_status_text(a.status), (unsigned long long)a.value);
    exit(1);
}

/* What the barrier has goes to the marker. */
static void hand_on(compressor_barrier *it) {
    while (it->next != packet) waiting[waits++] = *--it->next;
}

static void look_at_all(void) {
    for (hand_on(&barrier); waits > 0; hand_on(&barrier)) {
        const uint64_t object = waiting[--waits];
        for (uint64_t k = 0; k < compressor_shape_at(&space, object).refs; k++)
            compressor_keep_in(&space, &barrier, compressor_load_acquire(&space, object, k));
    }
}

static uint64_t pair(int64_t number, uint64_t rest) {
    const uint64_t made = compressor_new_marked(&space, &buffer, &barrier, pair_header, 3);
    if (made == 0) fail("no room");
    compressor_store(&space, made, 0, compressor_fixnum(number));
    compressor_store(&space, made, 1, rest);
    return made;
}

/* The list has these numbers, down to 0. */
static void is_list(uint64_t at, int64_t length) {
    for (; length > 0; length--, at = compressor_load(&space, at, 1))
        if (at == 0 || compressor_load(&space, at, 0) != compressor_fixnum(length - 1)) fail("another list");
    if (at != 0) fail("a longer list");
}

int main(void) {
    enum { KEPT_LIST, CUT_LIST, NEW_LIST, ROOTS };
    uint64_t *const words = (uint64_t *)zeros(ROOM), *const other = (uint64_t *)zeros(ROOM), *marks;
    uint64_t roots[ROOTS] = {0, 0, 0}, tail, live;
    size_t blocks = (ROOM + 63) / 64;
    compressor_survey survey = COMPRESSOR_EMPTY;
    compressor_answer a;
    compressor_space_in(&space, EDITION, words, ROOM, 0);
    waiting = (uint64_t *)zeros(ROOM);
    barrier.next = packet;
    barrier.end = packet + KEPT;
    barrier.full = hand_on;
    for (int64_t i = 0; i < OLD; i++) {
        roots[KEPT_LIST] = pair(i, roots[KEPT_LIST]);
        roots[CUT_LIST] = pair(i, roots[CUT_LIST]);
    }
    compressor_buffer_empty(&buffer);
    done(compressor_space_turn(&space, 0, roots, ROOTS), "turn");

    /* the first stop */
#ifdef BY_USED
    blocks = (space.used + 63) / 64;
#endif
    marks = (uint64_t *)zeros(blocks);
    barrier.marks = marks;
    for (int k = 0; k < ROOTS; k++) {
#ifdef WITHOUT_SPACE
        compressor_keep(&barrier, roots[k]);
#else
        compressor_keep_in(&space, &barrier, roots[k]);
#endif
    }

    /* the runtime goes on: a tail is cut off and kept in a variable, before the marker has seen it, and it makes much */
    tail = compressor_load(&space, roots[CUT_LIST], 1);
    compressor_store_barrier(&space, &barrier, roots[CUT_LIST], 1, 0);
    for (int64_t i = 0; i < NEW; i++) roots[NEW_LIST] = pair(i, roots[NEW_LIST]);
    look_at_all();
    roots[CUT_LIST] = tail;

    /* the second stop */
    look_at_all();
    if (!compressor_is_marked_in(&space, marks, tail)) fail("what was cut off is not marked");
    barrier.marks = NULL;
    compressor_buffer_empty(&buffer);
    done(compressor_space_turn(&space, 1, roots, ROOTS), "turn to rest");
    if (!compressor_is_marked(marks, roots[NEW_LIST])) fail("what is new is not marked");
    a = compressor_survey_by_marks(EDITION, words, space.used, roots, ROOTS, marks, (space.used + 63) / 64, &survey);
    done(a, "survey");
    live = a.value;
    if (live != 3 * (2 * OLD + NEW)) fail("other words live");
    done(compressor_survey_slide(&survey, words, space.used, 0, other, live), "slide");
    done(compressor_survey_forward(&survey, roots, ROOTS), "forward");
    compressor_survey_drop(&survey);
    compressor_space_in(&space, EDITION, other, ROOM, live);
    is_list(roots[KEPT_LIST], OLD);
    is_list(roots[CUT_LIST], OLD - 1);
    is_list(roots[NEW_LIST], NEW);

    /* no words, no parts */
    compressor_buffer_empty(&buffer);
    if (compressor_new(&space, &buffer, pair_header, 0) != 0 || space.used != live) fail("an object of no words");
    buffer.at = buffer.end = buffer.last = COMPRESSOR_FROM_SPACE + ROOM;
    if (compressor_new(&space, &buffer, pair_header, 0) != 0) fail("an object of no words, behind the room");
    for (uint64_t n = 0; n < 4; n++) {
        size_t count = 1;
        if (compressor_part(live, n, n, &count) != live || count != 0) fail("a part too many has words");
    }
    compressor_space_in(&space, EDITION, other, 100, live);
    if (space.used != 100 || compressor_new(&space, &buffer, pair_header, 3) != 0) fail("words behind the room");
    printf("marked beside what went on, turned: %llu words of %llu live\n", (unsigned long long)live,
           3ull * (2 * OLD + NEW));
    free(words);
    free(other);
    free(waiting);
    free(marks);
    return 0;
}
