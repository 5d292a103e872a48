/* The sample of docs/RUNTIMES.md, Room, by which memory goes back to the system. give_back_sample.h is what
   tools/run-from-c takes out of the document. All words of a memory are written; then what lies behind the limit is
   given back: it is zero, and no longer resident, and what lies below is as it was. */
#define _DEFAULT_SOURCE
#include "compressor_rest.h"

#include <stdio.h>
#include <sys/mman.h>
#include <unistd.h>

#include "give_back_sample.h"

enum { ROOM = 1 << 21, LIVE = 1000, PAGE_WORDS = 512 };

/* How many pages of these words are resident. */
static size_t resident(uint64_t *words) {
    static unsigned char is_there[ROOM / PAGE_WORDS];
    size_t count = 0;
    if (mincore(words, ROOM * sizeof *words, is_there) != 0) return 0;
    for (size_t k = 0; k < ROOM / PAGE_WORDS; k++) count += is_there[k] & 1u;
    return count;
}

int main(void) {
    compressor_space space = {0, NULL, 0, 0, 0, 0, 0, 0, NULL, 0, 0, 0, NULL};
    void *mapped = mmap(NULL, ROOM * sizeof(uint64_t), PROT_READ | PROT_WRITE, MAP_PRIVATE | MAP_ANONYMOUS, -1, 0);
    uint64_t *words = (uint64_t *)mapped, left = 0;
    size_t before, after;
    if (mapped == MAP_FAILED || sysconf(_SC_PAGESIZE) != 8 * PAGE_WORDS) return 1;
    for (uint64_t i = 0; i < ROOM; i++) words[i] = i + 1;
    compressor_space_in(&space, 4, words, ROOM, LIVE);
    if (compressor_space_limit(&space, LIVE, 2) == 0) return 1;
    before = resident(words);
    give_back(&space);
    after = resident(words);
    for (uint64_t i = 0; i < space.limit; i++) left += words[i] == i + 1;
    for (uint64_t i = space.limit + PAGE_WORDS; i < ROOM; i++) left += words[i] == 0;
    printf("resident pages: %zu, then %zu of %d\n", before, after, ROOM / PAGE_WORDS);
    return !(before == ROOM / PAGE_WORDS && after <= space.limit / PAGE_WORDS + 1 && left >= ROOM - PAGE_WORDS);
}
