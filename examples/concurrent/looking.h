/* looking.h: the other marking: by looks, which the library makes (compressor_lane_begin). Each marker has a lane, and
   hands in copies of objects; threads note what they write to on cards. What was written to since it was looked at is
   looked at again: by a marker once nothing waits, and what is left at the second stop. New objects are not marked:
   they are found by what leads to them. Without memory a marking gives up, and says so at its end. */
#ifndef LOOKING_H
#define LOOKING_H

#include "compressor_rest.h"

enum { MOST_LOOKERS = 2 };

/* Makes cards and bits for so many words, and starts threads, of which one calls is_done(marking), without a lock, when
   nothing is left but what is written to from then on. Null, or the name of an error. end: joins and frees. */
const char *looking_start(const compressor_space *space, size_t words, uint32_t markers, void (*is_done)(uint64_t));
void looking_end(void);

/* While all threads stand still. begin: a marking of this number, which is not 0, from these roots; 0 if there is no
   memory. finish: looks at all that is left, and ends it with these roots, as compressor_looks_finish does. */
int looking_begin(const uint64_t *roots, size_t count, uint64_t number);
compressor_answer looking_finish(const uint64_t *roots, size_t count, compressor_survey *survey);

/* The cards, for stores. */
unsigned char *looking_cards(void);

#endif
