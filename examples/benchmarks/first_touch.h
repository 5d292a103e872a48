/* first_touch.h: ours at rest, in two halves of the budget; a pause has the survey and the roots. A page is built by
   the first that touches it, and by who takes room for new objects: all are home when half of the room is used.
   TOUCH_BY is the way in which a touch is noticed, and UNIT_WORDS are the words of a page (../first_touch/touch.h). */
#include "../first_touch/touch.h"

static compressor_touch noticed;

#define BEFORE_CHUNK(m) before_chunk(m)
#define LOAD(object, k) (look(object, k), compressor_load(&space, object, k))
#define STORE(object, k, value) (look(object, k), compressor_store(&space, object, k, value))

static inline void before_chunk(mutator *m);
static inline void look(ref object, size_t k) {
    if (TOUCH_BY == TOUCH_INLINE) compressor_touch_word(&noticed, object + 1 + k);
}

#include "lent.h"

static uint64_t pages_of_chunk;
static int is_sliding;

static inline void before_chunk(mutator *m) {
    touch_enter((uint32_t)(m - mutators));
    if (!touch_all_home()) touch_step(pages_of_chunk);
}

static void refused(uint64_t page, compressor_answer answer) {
    (void)page;
    die(compressor_status_text(answer.status));
}

static inline void collector_start(size_t budget_words) {
    const size_t room = budget_words / 2;
    const char *const error = touch_open(TOUCH_BY, room, UNIT_WORDS, (uint32_t)mutator_count, &noticed, refused);
    if (error != NULL) die(error);
    lent_in(touch_words(), room);
}

static inline void finish_slide(void) {
    compressor_survey survey = COMPRESSOR_EMPTY;
    if (!is_sliding) return;
    done(touch_end(&survey));
    done(compressor_survey_return(&survey, &tables));
}

static inline uint64_t collect(void) {
    compressor_survey survey = COMPRESSOR_EMPTY;
    finish_slide();
    const size_t count = roots_gather();
    const uint64_t live = done(
        compressor_survey_by_roots_lent(&tables, EDITION, space.words, space.used, all_roots, count, &survey));
    done(compressor_survey_forward(&survey, all_roots, count));
    roots_scatter();
    const uint64_t missing = touch_begin(&survey, space.used, live, 0);
    is_sliding = 1;
    pages_of_chunk = missing / ((space.room - live) / (2 * COMPRESSOR_CHUNK) + 1) + 1;
    space_moved(touch_words(), live);
    return live;
}
