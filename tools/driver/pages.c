/* The slide of a surveyed heap, page by page, beside a model: which handle has which page, and which pages are home. */
#include "driver.h"

#include <stdlib.h>

enum { SHARES = 3, HOME = -1, WAITS = -2 };

typedef struct slide {
    const uint64_t *words;
    uint64_t count, live, size, pages;
    uint64_t *to;
    int *who; /* of each page: the share that has it, or HOME or WAITS */
    compressor_pages handles[SHARES];
    uint64_t turn[SHARES]; /* the page that it has, plus 1 */
    int is_built[SHARES];
} slide;

static uint64_t first_of(const slide *s, uint64_t page) { return page * s->size; }
static uint64_t length_of(const slide *s, uint64_t page) {
    const uint64_t left = s->live - first_of(s, page);
    return left < s->size ? left : s->size;
}

/* The first page that is not home, or the number of pages. */
static uint64_t away(const slide *s) {
    uint64_t page = 0;
    while (page < s->pages && s->who[page] == HOME) page++;
    return page;
}

static void claim_page(slide *s, int k) {
    const uint64_t page = below(s->pages + 1);
    if (s->turn[k] > 0) {
        ANSWERS(COMPRESSOR_TURN_TAKEN, s->turn[k] - 1, pages_claim, &s->handles[k], page);
    } else if (page >= s->pages) {
        ANSWERS(COMPRESSOR_NO_SUCH_PAGE, page, pages_claim, &s->handles[k], page);
    } else if (s->who[page] == HOME) {
        ANSWERS(COMPRESSOR_PAGE_HOME, page, pages_claim, &s->handles[k], page);
    } else if (s->who[page] != WAITS) {
        ANSWERS(COMPRESSOR_PAGE_BUSY, page, pages_claim, &s->handles[k], page);
    } else {
        DONE(0, pages_claim, &s->handles[k], page);
        s->who[page] = k;
        s->turn[k] = page + 1;
        s->is_built[k] = 0;
    }
}

static void back(slide *s, int k) {
    s->who[s->turn[k] - 1] = WAITS;
    s->turn[k] = 0;
}

static void build_page(slide *s, int k) {
    compressor_pages *own = &s->handles[k];
    if (s->turn[k] == 0 || s->is_built[k]) {
        uint64_t word[1] = {5};
        ANSWERS(COMPRESSOR_NO_TURN, 0, pages_build, own, s->words, s->count, word, 1);
        SAME(word[0], 5);
        return;
    }
    const uint64_t page = s->turn[k] - 1, length = length_of(s, page);
    if (one_in(4)) {
        ANSWERS(COMPRESSOR_OTHER_LENGTH, length, pages_build, own, s->words, s->count, s->to + first_of(s, page),
                one_in(2) ? length - 1 : length + 1);
        back(s, k);
    } else if (one_in(4) && s->count > 0) {
        ANSWERS(COMPRESSOR_OTHER_COUNT, 0, pages_build, own, s->words, s->count - 1, s->to + first_of(s, page), length);
        back(s, k);
    } else {
        DONE(0, pages_build, own, s->words, s->count, s->to + first_of(s, page), length);
        s->is_built[k] = 1;
    }
}

static void publish_page(slide *s, int k) {
    if (s->turn[k] == 0) {
        ANSWERS(COMPRESSOR_NO_TURN, 0, pages_publish, &s->handles[k]);
    } else if (!s->is_built[k]) {
        ANSWERS(COMPRESSOR_NOT_BUILT, s->turn[k] - 1, pages_publish, &s->handles[k]);
    } else {
        DONE(0, pages_publish, &s->handles[k]);
        s->who[s->turn[k] - 1] = HOME;
        s->turn[k] = 0;
    }
}

/* It does not end, while a page is not home, or another handle keeps a share. */
static void refuse_end(slide *s, int k, compressor_survey *survey) {
    const uint64_t page = s->turn[k] > 0 ? s->turn[k] - 1 : away(s);
    if (page < s->pages) ANSWERS(COMPRESSOR_NOT_HOME, page, pages_end, &s->handles[k], survey);
    else ANSWERS(COMPRESSOR_STILL_SHARED, 0, pages_end, &s->handles[k], survey);
}

/* Slides the heap of the survey into `to`, page by page, by some handles. The survey is there again then. */
void slide_pages(compressor_survey *survey, const uint64_t *words, uint64_t count, uint64_t live, uint64_t *to) {
    slide all = {words, count, live, 1 + below(one_in(2) ? 9 : 200), 0, to, NULL,
                 {COMPRESSOR_EMPTY, COMPRESSOR_EMPTY, COMPRESSOR_EMPTY}, {0, 0, 0}, {0, 0, 0}};
    slide *s = &all;
    s->pages = (live + s->size - 1) / s->size;
    s->who = (int *)zeros(s->pages + 1, sizeof *s->who);
    for (uint64_t page = 0; page < s->pages; page++) s->who[page] = WAITS;
    ANSWERS(COMPRESSOR_NO_SIZE, 0, pages_begin, survey, 0, &s->handles[0]);
    DONE(s->pages, pages_begin, survey, s->size, &s->handles[0]);
    for (int k = 1; k < SHARES; k++) DONE(0, pages_share, &s->handles[0], &s->handles[k]);
    while (away(s) < s->pages) {
        const int k = (int)below(SHARES);
        const uint64_t what = below(16);
        if (what == 0) refuse_end(s, k, survey);
        else if (what < 6) claim_page(s, k);
        else if (what < 11) build_page(s, k);
        else publish_page(s, k);
        if (s->turn[0] == 0 && s->turn[1] == 0 && s->turn[2] == 0 && away(s) < s->pages) {
            const uint64_t page = away(s);
            DONE(0, pages_claim, &s->handles[k], page);
            s->who[page] = k;
            s->turn[k] = page + 1;
            s->is_built[k] = 0;
        }
    }
    for (int k = 0; k < SHARES; k++) refuse_end(s, k, survey);
    for (int k = 0; k + 1 < SHARES; k++) DROP(pages_drop, &s->handles[k]);
    DONE(0, pages_end, &s->handles[SHARES - 1], survey);
    free(s->who);
}
