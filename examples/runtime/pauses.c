/* pauses.c: each pause of an evaluator, kept until the end, and written then: so nothing is written in a pause. */
#include "collector.h"

#include <stdlib.h>

typedef struct pause_kept {
    uint64_t since, length; /* nanoseconds */
    uint32_t evaluator;
} pause_kept;

static struct {
    pause_kept *at;
    size_t count, room;
} kept;

int heap_keep_pause(const evaluator *e, uint64_t since, uint64_t length) {
    const pause_kept it = {since, length, e->number};
    if (kept.count == kept.room) {
        const size_t room = kept.room == 0 ? 4096 : 2 * kept.room;
        pause_kept *more = (pause_kept *)realloc(kept.at, room * sizeof *more);
        if (!more) return 0;
        kept.at = more;
        kept.room = room;
    }
    kept.at[kept.count++] = it;
    return 1;
}

void heap_tell_pauses(FILE *to) {
    size_t k;
    for (k = 0; k < kept.count; k++)
        fprintf(to, "%.3f %.3f %u\n", heap_micro(kept.at[k].since - heap.began), heap_micro(kept.at[k].length),
                kept.at[k].evaluator);
    free(kept.at);
    kept.at = NULL;
    kept.count = kept.room = 0;
}
