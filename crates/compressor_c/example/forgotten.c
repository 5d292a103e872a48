/* A runtime that forgets a root, and how that is found. Its heap at rest, of edition four, has ten lists, each in a
   variable of C, and garbage between the last five. At a collection it forgets one variable; then it goes on: it
   puts a pair before each list, walks it, and collects again, now with all variables. Each try is a process of its
   own. With plain addresses a value of before the collection is mostly that of another object. With a space that is
   turned after each collection (compressor_space_turn) it leads nowhere: each try ends by a fault of the memory.
   Prints how many of the ten were found either way. A call for which there was no memory is made once more. */
#include "compressor_rest.h"

#include <stdio.h>
#include <stdlib.h>
#include <sys/wait.h>
#include <unistd.h>

enum { LISTS = 10, LENGTH = 50, ROOM = 16 * LISTS * LENGTH, EDITION = 4 };

/* How a try ends: nobody noticed, or the library or the turn refused something. A signal is a fault of the memory. */
enum { UNNOTICED = 0, REFUSED = 1, BROKEN = 2 };

static const uint64_t pair_header = COMPRESSOR_HEADER_REFS(2, 7);

static uint64_t words[ROOM];
static compressor_space space;
static compressor_buffer buffer;
static uint64_t lists[LISTS];
static uint64_t *variables[LISTS];

static uint64_t pair(int64_t number, uint64_t rest) {
    const uint64_t made = compressor_new(&space, &buffer, pair_header, 3);
    if (made == 0) _exit(BROKEN);
    compressor_store(&space, made, 0, compressor_fixnum(number));
    compressor_store(&space, made, 1, rest);
    return made;
}

static void make_lists(void) {
    compressor_space_in(&space, EDITION, words, ROOM, 0);
    for (int k = 0; k < LISTS; k++) {
        variables[k] = &lists[k];
        for (int i = 0; i < LENGTH; i++) {
            if (k >= LISTS / 2) pair(-1, 0);
            lists[k] = pair(i, lists[k]);
        }
    }
}

/* Ends the try if this was refused. */
static void done(compressor_answer answer) {
    if (answer.status != COMPRESSOR_DONE) _exit(REFUSED);
}

/* A collection that is told of these variables. */
static void collect(uint64_t **told, size_t count, int turns) {
    uint64_t roots[LISTS];
    compressor_answer live;
    compressor_gather(told, count, roots);
    if (turns) done(compressor_space_turn(&space, 1, roots, count));
    live = compressor_collect_in_place(EDITION, words, space.used, roots, count);
    if (live.status == COMPRESSOR_OUT_OF_MEMORY)
        live = compressor_collect_in_place(EDITION, words, space.used, roots, count);
    done(live);
    compressor_space_in(&space, EDITION, words, ROOM, live.value);
    compressor_buffer_empty(&buffer);
    if (turns) done(compressor_space_turn(&space, 0, roots, count));
    compressor_scatter(told, count, roots);
}

static volatile int64_t last_sum; /* so that the numbers are loaded */

/* The runtime goes on with its lists. Whether their numbers are right it does not look. */
static void go_on(void) {
    int64_t sum = 0;
    for (int k = 0; k < LISTS; k++) {
        uint64_t at = lists[k] = pair(LENGTH, lists[k]);
        for (int i = 0; i <= LENGTH && compressor_is_reference(at); i++) {
            sum += compressor_fixnum_value(compressor_load(&space, at, 0));
            at = compressor_load(&space, at, 1);
        }
    }
    last_sum = sum;
}

/* A whole try. It forgets a variable, or none if that is LISTS. */
static void run(int forgotten, int turns) {
    uint64_t *told[LISTS];
    size_t count = 0;
    make_lists();
    for (int k = 0; k < LISTS; k++)
        if (k != forgotten) told[count++] = variables[k];
    collect(told, count, turns);
    go_on();
    collect(variables, LISTS, turns);
    go_on();
    _exit(UNNOTICED);
}

/* Whether what went wrong in such a try was found. */
static int is_found(int forgotten, int turns) {
    int status = 0;
    const pid_t child = fork();
    if (child == 0) run(forgotten, turns);
    if (child < 0 || waitpid(child, &status, 0) != child || (WIFEXITED(status) && WEXITSTATUS(status) > REFUSED)) {
        puts("a try did not run");
        exit(1);
    }
    return WIFSIGNALED(status) || WEXITSTATUS(status) == REFUSED;
}

int main(void) {
    int found[2] = {0, 0};
    for (int turns = 0; turns < 2; turns++) {
        if (is_found(LISTS, turns)) return puts("a fault, and nothing was forgotten"), 1;
        for (int k = 0; k < LISTS; k++) found[turns] += is_found(k, turns);
    }
    printf("forgotten roots that are found: %d of %d, with turns %d\n", found[0], LISTS, found[1]);
    return found[1] != LISTS;
}
