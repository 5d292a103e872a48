/* driver SEED CALLS [ROUND]: rounds by chance until so many calls were made, or one round. */
#include "driver.h"

#include <stdio.h>
#include <stdlib.h>

/* A heap, some cycles, and what is left of them at rest. */
static void cycles(void) {
    graph g;
    compressor_heap heap = COMPRESSOR_EMPTY;
    uint64_t count, *rested = NULL;
    graph_any(&g, 1 + (uint32_t)below(4), below(one_in(3) ? 400 : 80));
    count = graph_end(&g);
    if (one_in(2)) refused_heaps(&g, count);
    heap_of(&g, &heap, count);
    for (uint64_t times = 1 + below(4); times > 0; times--) {
        const uint32_t mutators = one_in(12) ? COMPRESSOR_MAX_MUTATORS : 1 + (uint32_t)below(6);
        cycle all, *c = &all;
        cycle_begin(c, &g, &heap, count, mutators, (uint32_t)below(20));
        cycle_run(c, below(800));
        if (one_in(12)) { /* the cycle is given up */
            cycle_free(c);
            graph_free(&g);
            return;
        }
        cycle_finish(c);
        check_end(c);
        if (one_in(2)) {
            bytes dump = {NULL, 0, 0};
            dump_of(&dump, c);
            check_dump(c, &dump);
            free(dump.at);
        }
        count = 64 * c->pages;
        if (times == 1) rested = cycle_rest(c);
        else cycle_next(c, &heap);
        cycle_free(c);
    }
    rest_round(&g, rested, count);
    graph_free(&g);
}

/* Words of a graph at rest, with anything between its objects. */
static uint64_t *lay_at_rest(graph *g, uint64_t *count) {
    uint64_t *words;
    graph_any(g, 1 + (uint32_t)below(4), below(one_in(3) ? 500 : 50));
    graph_spread(g, one_in(2) ? 40 : 3);
    *count = graph_end(g) + below(70);
    if (*count > compressor_max_words(g->edition)) *count = graph_end(g);
    words = (uint64_t *)zeros(*count, sizeof *words);
    for (uint64_t i = 0; i < *count; i++) words[i] = one_in(2) ? any_word() : FROM + below(*count);
    graph_fill(g, FROM, words);
    return words;
}

static void at_rest(void) {
    graph g;
    uint64_t count, *words = lay_at_rest(&g, &count);
    rest_round(&g, words, count);
    graph_free(&g);
}

/* Some heaps whose objects grow old. */
static void grow_old(void) {
    for (uint64_t heaps = 1 + below(8); heaps > 0; heaps--) {
        graph g;
        uint64_t count, *words = lay_at_rest(&g, &count);
        old_round(&g, words, count);
        free(words);
        graph_free(&g);
    }
}

static void round_of(uint64_t seed, uint64_t round) {
    chance_from(seed, round);
    own.refuses = one_in(3);
    if (round % 32 == 0) handles_round();
    else if (round == 1) limits_round();
    else if (round % 8 == 3) threads_round();
    else if (round % 8 == 5) grow_old();
    else if (round % 16 == 7) pins_round();
    else if (round % 2 == 1) at_rest();
    else cycles();
    SAME(blocks_kept(), 0);
}

int main(int count, char **words) {
    const char *asked = getenv("DRIVER_ALL"); /* prints each export */
    const int list = asked != NULL && *asked != 0;
    uint64_t seed, calls, round = 0;
    if (count < 3) {
        fputs("driver: wants SEED CALLS [ROUND]\n", stderr);
        return 2;
    }
    seed = strtoull(words[1], NULL, 10);
    calls = strtoull(words[2], NULL, 10);
    if (count > 3) {
        round_of(seed, strtoull(words[3], NULL, 10));
        print_calls(list);
        return 0;
    }
    while (calls_made() < calls) round_of(seed, round++);
    print_calls(list);
    return all_called() ? 0 : 1;
}
