/* list.h: a list of so many cells, whose image under a function is a new list, again and again. A cell: next; value.
   Live: two lists, 6 words a cell. */
#ifndef LIST_H
#define LIST_H

enum { LIST_ROUNDS = 40 };

/* The successors of the values of the old list, which goes as it is read; from 0 on, where there is none. */
static ref list_image(mutator *m, ref old, int length) {
    ref *const at = push(m, old), *const first = push(m, 0), *const last = push(m, 0);
    for (int k = 0; k < length; k++) {
        ref *const cell = push(m, heap_new(m, 1, 1));
        heap_set_word(m, cell, 1, 0, *at != 0 ? heap_word(m, *at, 1, 0) + 1 : (uint64_t)k);
        if (*at != 0) {
            const ref seen = *at;
            *at = heap_ref(m, seen, 0);
            if (BY_HAND) heap_free(m, seen);
        }
        if (*last != 0) heap_set_ref(m, last, 0, cell);
        else *first = *cell;
        *last = *cell;
        m->top = cell;
    }
    m->top = at;
    return *first;
}

static uint64_t list_images(mutator *m, int length) {
    ref *const list = push(m, 0);
    uint64_t sum = 0;
    for (int round = 0; round < LIST_ROUNDS; round++) {
        *list = list_image(m, *list, length);
        for (ref cell = *list; cell != 0; cell = heap_ref(m, cell, 0)) sum += heap_word(m, cell, 1, 0);
    }
    m->top = list;
    return sum;
}

#endif
