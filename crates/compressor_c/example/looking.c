/* A cycle by C that looks at everything: counts, roots, builds, pages of the plan and while mutators go on, images, the
   dump, its audit and what is said of it, the words that come to rest, and what another collector left.
   Prints what is wrong, or one line. A call for which there was no memory is made once more, so one allocation may be
   refused anywhere. */
#include "compressor.h"

#include <stdio.h>
#include <stdlib.h>
#include <string.h>

static const uint64_t FROM_SPACE = COMPRESSOR_FROM_SPACE;
static const uint64_t TO_SPACE = COMPRESSOR_TO_SPACE;

static void is(int so, int line) {
    if (so) return;
    printf("not so: line %d\n", line);
    exit(1);
}

static void answered(compressor_answer a, uint32_t status, uint64_t value, int line) {
    if (a.status == status && a.value == value) return;
    printf("line %d: %s, value %llu\n", line, compressor_status_text(a.status), (unsigned long long)a.value);
    exit(1);
}

#define IS(what) is(what, __LINE__)

/* The call answers this; it is made once more if there was no memory for it. */
#define ANSWERS(call, status_is, value_is)                          \
    do {                                                            \
        compressor_answer a_ = call;                                \
        if (a_.status == COMPRESSOR_OUT_OF_MEMORY) a_ = call;       \
        answered(a_, status_is, value_is, __LINE__);                \
    } while (0)

/* The call is done, and its value goes into this variable. */
#define INTO(variable, call)                                        \
    do {                                                            \
        compressor_answer a_ = call;                                \
        if (a_.status == COMPRESSOR_OUT_OF_MEMORY) a_ = call;       \
        answered(a_, COMPRESSOR_DONE, a_.value, __LINE__);          \
        variable = a_.value;                                        \
    } while (0)

/* zeros, asked for once more if there are none */
static uint8_t *zeros(size_t count) {
    uint8_t *all = (uint8_t *)calloc(count, 1);
    if (all == 0) all = (uint8_t *)calloc(count, 1);
    IS(all != 0);
    return all;
}

/* The header word of an object of edition one: it says this shape, and no other. */
static uint64_t header_of(uint32_t refs, uint32_t data, uint32_t tag) {
    const compressor_shape shape = {refs, 0, data, tag};
    compressor_shape said;
    uint64_t header = 0;
    IS(compressor_shape_header(1, shape, &header));
    said = compressor_shape_of(1, header);
    IS(memcmp(&said, &shape, sizeof said) == 0 && compressor_shape_words(said) == (uint64_t)1 + refs + data);
    return header;
}

/* A heap of three objects, of which the one in the middle is not marked. */
static void make_heap(compressor_heap *heap) {
    const uint64_t pair = header_of(1, 1, 0);
    const uint64_t words[8] = {pair, FROM_SPACE + 5, 7, header_of(0, 1, 0), 8, pair, 0, 9};
    const uint32_t marks[2] = {0, 5};
    const uint64_t roots[2] = {FROM_SPACE, FROM_SPACE + 5};
    ANSWERS(compressor_heap_by_marks(1, words, 8, marks, 2, roots, 2, heap), COMPRESSOR_DONE, 0);
}

enum { IMAGE = 24 + 8 * 8 + 4 * 2 + 8 * 2 };

/* The image of a heap, into a buffer that is longer, and read again from it. */
static void images(compressor_heap *heap, compressor_heap *again) {
    uint8_t bytes[IMAGE + 8];
    memset(bytes, 0xee, sizeof bytes);
    ANSWERS(compressor_heap_write(heap, bytes, 0), COMPRESSOR_TOO_SHORT, IMAGE);
    ANSWERS(compressor_heap_write(heap, bytes, IMAGE - 1), COMPRESSOR_TOO_SHORT, IMAGE);
    IS(bytes[0] == 0xee);
    ANSWERS(compressor_heap_write(again, bytes, IMAGE), COMPRESSOR_EMPTY_HANDLE, 0);
    IS(bytes[0] == 0xee);
    ANSWERS(compressor_heap_write(heap, bytes, sizeof bytes), COMPRESSOR_DONE, IMAGE);
    IS(memcmp(bytes, "COMPHEAP", 8) == 0 && bytes[8] == 1 && bytes[IMAGE - 8] == 5 && bytes[IMAGE] == 0xee);

    ANSWERS(compressor_heap_read(bytes, IMAGE - 1, again), COMPRESSOR_IMAGE_TRUNCATED, 0);
    ANSWERS(compressor_heap_read(bytes, IMAGE + 1, again), COMPRESSOR_IMAGE_TRAILING, 0);
    bytes[8] = 5;
    ANSWERS(compressor_heap_read(bytes, IMAGE, again), COMPRESSOR_IMAGE_BAD_MAGIC, 0);
    bytes[8] = 1;
    ANSWERS(compressor_heap_read(bytes, IMAGE, again), COMPRESSOR_DONE, 0);
    ANSWERS(compressor_heap_read(bytes, IMAGE, again), COMPRESSOR_NOT_EMPTY, 0);
    ANSWERS(compressor_heap_write(again, bytes, 1), COMPRESSOR_TOO_SHORT, IMAGE);

    compressor_heap large = COMPRESSOR_EMPTY;
    ANSWERS(compressor_heap_by_marks(4, NULL, 0, NULL, 0, NULL, 0, &large), COMPRESSOR_DONE, 0);
    ANSWERS(compressor_heap_write(&large, bytes, sizeof bytes), COMPRESSOR_DONE, 24);
    IS(bytes[8] == 4);
    compressor_heap_drop(&large);
    ANSWERS(compressor_heap_read(bytes, 24, &large), COMPRESSOR_DONE, 0);
    compressor_heap_drop(&large);
}

/* n in four and in eight bytes, little-endian; each answers where the next field begins. */
static uint8_t *four(uint8_t *at, uint32_t n) {
    for (int i = 0; i < 4; i++) at[i] = (uint8_t)(n >> 8 * i);
    return at + 4;
}
static uint8_t *eight(uint8_t *at, uint64_t n) {
    return four(four(at, (uint32_t)n), (uint32_t)(n >> 32));
}

enum { MOVED = 24 + 4 * 2 + 8 * 2 + 8 * 8 };

/* What another collector left of the heap, judged as it is, and with changes: the second object came first. */
static void judged(compressor_heap *heap) {
    const uint64_t pair = header_of(1, 1, 0);
    const uint64_t words[8] = {pair, 0, 9, 0, pair, TO_SPACE, 7, 0};
    uint8_t bytes[MOVED + 1] = "COMPMOVE", *places, *roots, *at;
    places = four(four(four(four(bytes + 8, 1), 2), 2), 8);
    roots = four(four(places, 4), 0);
    at = eight(eight(roots, TO_SPACE + 4), TO_SPACE);
    for (int i = 0; i < 8; i++) at = eight(at, words[i]);
    IS(at == bytes + MOVED);
    ANSWERS(compressor_heap_judge(heap, bytes, MOVED), COMPRESSOR_DONE, 6);
    ANSWERS(compressor_heap_judge(heap, bytes, MOVED - 1), COMPRESSOR_FILE_TRUNCATED, 0);
    ANSWERS(compressor_heap_judge(heap, bytes, MOVED + 1), COMPRESSOR_FILE_TRAILING, 0);
    bytes[8] = 2;
    ANSWERS(compressor_heap_judge(heap, bytes, MOVED), COMPRESSOR_MOVED_WRONG_HEAD, 0);
    bytes[8] = 1;
    places[0] = 6;
    ANSWERS(compressor_heap_judge(heap, bytes, MOVED), COMPRESSOR_MOVED_PLACE_OUTSIDE, 0);
    places[0] = 2;
    ANSWERS(compressor_heap_judge(heap, bytes, MOVED), COMPRESSOR_MOVED_OVERLAP, 1);
    places[0] = 4;
    roots[8] = 4;
    ANSWERS(compressor_heap_judge(heap, bytes, MOVED), COMPRESSOR_MOVED_WRONG_ROOT, 1);
    roots[8] = 0;
    roots[8 * 2 + 8 * 6] = 8;
    compressor_answer told = compressor_heap_judge(heap, bytes, MOVED);
    if (told.status == COMPRESSOR_OUT_OF_MEMORY) told = compressor_heap_judge(heap, bytes, MOVED);
    answered(told, COMPRESSOR_MOVED_WRONG_WORD, 0, __LINE__);
    IS(told.other == 2);
}

/* The counts of the heap and of its plan, where the plan leads, and a share of it. */
static void plans(compressor_heap *heap, compressor_plan *plan, compressor_plan *share) {
    uint64_t page[65], lost[7] = {FROM_SPACE + 5, 0, FROM_SPACE + 3, FROM_SPACE, FROM_SPACE + 1, 7, UINT64_MAX};
    compressor_heap_facts own;
    compressor_plan_facts facts;
    ANSWERS(compressor_heap_facts_of(heap, &own), COMPRESSOR_DONE, 0);
    IS(own.words == 8 && own.marked == 2 && own.roots == 2 && own.edition == 1 && own.unused == 0);
    ANSWERS(compressor_plan_share(plan, share), COMPRESSOR_EMPTY_HANDLE, 0);
    ANSWERS(compressor_heap_plan(heap, plan), COMPRESSOR_DONE, 0);
    ANSWERS(compressor_heap_facts_of(heap, &own), COMPRESSOR_EMPTY_HANDLE, 0);
    ANSWERS(compressor_plan_facts_of(plan, &facts), COMPRESSOR_DONE, 0);
    IS(facts.live_words == 6 && facts.pages == 1 && facts.most_fresh_pages == 4096);
    IS(facts.roots == 2 && facts.edition == 1 && facts.unused == 0);

    memset(page, 0xee, sizeof page);
    ANSWERS(compressor_plan_page(plan, 1, page), COMPRESSOR_NO_SUCH_PAGE, 1);
    IS(page[0] == page[64]);
    ANSWERS(compressor_plan_page(plan, 0, page), COMPRESSOR_DONE, 0);
    IS(page[0] == header_of(1, 1, 0) && page[1] == TO_SPACE + 3 && page[2] == 7 && page[5] == 9);
    IS(page[6] == 0 && page[63] == 0 && page[64] != 0);

    ANSWERS(compressor_plan_forward(plan, lost, 7), COMPRESSOR_DONE, 0);
    IS(lost[0] == TO_SPACE + 3 && lost[1] == 0 && lost[2] == 0 && lost[3] == TO_SPACE);
    IS(lost[4] == 0 && lost[5] == 0 && lost[6] == 0);
    ANSWERS(compressor_plan_forward(plan, lost, 0), COMPRESSOR_DONE, 0);

    ANSWERS(compressor_plan_share(plan, share), COMPRESSOR_DONE, 0);
    ANSWERS(compressor_plan_share(plan, share), COMPRESSOR_NOT_EMPTY, 1);
}

/* What a mutator did: how many pages it built, how many entries it wrote, and how many words its objects have. */
static void did(compressor_mutator *m, uint64_t builds, uint64_t entries, uint64_t made_words, int line) {
    compressor_mutator_facts facts;
    answered(compressor_mutator_facts_of(m, &facts), COMPRESSOR_DONE, 0, line);
    is(facts.builds == builds && facts.entries == entries && facts.made_words == made_words, line);
    is(facts.pages == 3 && facts.compacted_pages == 1 && facts.roots == 2, line);
    is(facts.edition == 1 && facts.mutators == 2 && facts.number < 2, line);
}

/* The headers of an object that slid, and of one that the first mutator made. */
static void headers(compressor_mutator *m, compressor_mutator *n, uint64_t slid, uint64_t made) {
    compressor_shape shape;
    uint64_t header;
    ANSWERS(compressor_mutator_header(m, slid), COMPRESSOR_DONE, header_of(1, 1, 0));
    ANSWERS(compressor_mutator_header(n, slid), COMPRESSOR_DONE, header_of(1, 1, 0));
    INTO(header, compressor_mutator_header(m, made));
    shape = compressor_shape_of(1, header);
    IS(shape.refs == 1 && shape.weak == 0 && shape.data == 1 && shape.tag == 5 && header == header_of(1, 1, 5));
    ANSWERS(compressor_mutator_header(m, 0), COMPRESSOR_NULL_OBJECT, 0);
    ANSWERS(compressor_mutator_header(m, slid + 1), COMPRESSOR_NOT_A_START, slid + 1);
    ANSWERS(compressor_mutator_header(m, made + 3), COMPRESSOR_NOT_A_START, made + 3);
    ANSWERS(compressor_mutator_header(m, FROM_SPACE), COMPRESSOR_NOT_A_START, FROM_SPACE);
}

/* What two mutators do and see, one after the other. Answers the page of the object that the first one makes. */
static uint64_t go_on(compressor_mutator *m, compressor_mutator *n, uint64_t roots[3]) {
    uint64_t page[64], made, value;
    roots[0] = roots[1] = roots[2] = 1;
    ANSWERS(compressor_mutator_roots(m, roots, 1), COMPRESSOR_TOO_SHORT, 2);
    IS(roots[0] == 1);
    ANSWERS(compressor_mutator_roots(m, roots, 3), COMPRESSOR_DONE, 2);
    IS(roots[0] == TO_SPACE && roots[1] == TO_SPACE + 3 && roots[2] == 1);
    ANSWERS(compressor_mutator_header(m, roots[1]), COMPRESSOR_DONE, header_of(1, 1, 0));

    did(m, 0, 0, 0, __LINE__); /* a header needs no page */
    ANSWERS(compressor_mutator_touch(m, 0), COMPRESSOR_DONE, 1);
    did(m, 1, 0, 0, __LINE__);
    ANSWERS(compressor_mutator_build(m, 0), COMPRESSOR_DONE, 0);
    ANSWERS(compressor_mutator_build(m, 1), COMPRESSOR_NO_SUCH_BUILD, 1);
    did(n, 0, 0, 0, __LINE__);

    INTO(value, compressor_mutator_write_data(m, roots[0], 0, 70));
    IS(value == 0);
    INTO(made, compressor_mutator_alloc(m, header_of(1, 1, 5)));
    headers(m, n, roots[1], made);
    did(m, 2, 2, 3, __LINE__);
    did(n, 0, 0, 0, __LINE__);

    memset(page, 0xee, sizeof page);
    value = page[0];
    ANSWERS(compressor_mutator_page(n, 3, page), COMPRESSOR_NO_SUCH_PAGE, 3);
    IS(page[0] == value);
    ANSWERS(compressor_mutator_page(n, 0, page), COMPRESSOR_DONE, 1);
    IS(page[1] == TO_SPACE + 3 && page[2] == 70 && page[4] == 0 && page[5] == 9 && page[6] == 0);
    did(n, 0, 0, 0, __LINE__);
    uint64_t own = (made - TO_SPACE) / 64;
    ANSWERS(compressor_mutator_page(n, 3 - own, page), COMPRESSOR_DONE, 0);
    IS(page[2] == 0);
    ANSWERS(compressor_mutator_build(n, 0), COMPRESSOR_DONE, 3 - own);
    return own;
}

/* What is left of the cycle. */
static void look(compressor_end *end, uint32_t first, uint64_t own) {
    uint64_t roots[3] = {1, 1, 1};
    uint32_t other = 1 - first;
    compressor_end_facts facts;
    compressor_entry entry;
    ANSWERS(compressor_end_facts_of(end, &facts), COMPRESSOR_DONE, 0);
    IS(facts.live_words == 6 + 3 && facts.pages == 3 && facts.compacted_pages == 1 && facts.rest_words == 3 * 64);
    IS(facts.roots == 2 && facts.edition == 1 && facts.mutators == 2);
    ANSWERS(compressor_end_entry(end, 0, 0, &entry), COMPRESSOR_DONE, 0);
    IS(entry.stamp == 0 && entry.value == 70 && entry.writer == first && entry.offset == 2);
    IS(entry.kind == COMPRESSOR_KIND_DATA);
    ANSWERS(compressor_end_entry(end, own, 0, &entry), COMPRESSOR_DONE, 0);
    IS(entry.stamp == 1 && entry.value == header_of(1, 1, 5) && entry.kind == COMPRESSOR_KIND_HEADER);
    ANSWERS(compressor_end_entry(end, 0, 1, &entry), COMPRESSOR_NO_SUCH_ENTRY, 1);
    ANSWERS(compressor_end_entry(end, 3, 0, &entry), COMPRESSOR_NO_SUCH_PAGE, 3);
    ANSWERS(compressor_end_roots(end, roots, 0), COMPRESSOR_TOO_SHORT, 2);
    ANSWERS(compressor_end_roots(end, roots, 2), COMPRESSOR_DONE, 2);
    IS(roots[0] == TO_SPACE && roots[1] == TO_SPACE + 3 && roots[2] == 1);
    ANSWERS(compressor_end_builds(end, first), COMPRESSOR_DONE, 2);
    ANSWERS(compressor_end_build(end, first, 0), COMPRESSOR_DONE, 0);
    ANSWERS(compressor_end_build(end, first, 1), COMPRESSOR_DONE, own);
    ANSWERS(compressor_end_build(end, first, 2), COMPRESSOR_NO_SUCH_BUILD, 2);
    ANSWERS(compressor_end_builds(end, other), COMPRESSOR_DONE, 1);
    ANSWERS(compressor_end_build(end, other, 0), COMPRESSOR_DONE, 3 - own);
    ANSWERS(compressor_end_builds(end, 2), COMPRESSOR_NO_SUCH_MUTATOR, 2);
    ANSWERS(compressor_end_build(end, 2, 0), COMPRESSOR_NO_SUCH_MUTATOR, 2);
}

/* Words and roots come to rest, in an array in which a survey finds what they reach. Nobody built page 0 if not
   `built`. */
static void rests(compressor_end *end, int built, uint64_t own) {
    static uint64_t words[3 * 64 + 1];
    uint64_t roots[3] = {1, 1, 1};
    compressor_survey survey = COMPRESSOR_EMPTY;
    compressor_answer told;
    memset(words, 0xee, sizeof words);
    told = compressor_end_rest(end, words, 3 * 64 - 1, roots, 2);
    answered(told, COMPRESSOR_TOO_SHORT, 3 * 64, __LINE__);
    IS(told.other == 0);
    told = compressor_end_rest(end, words, 3 * 64, roots, 1);
    answered(told, COMPRESSOR_TOO_SHORT, 2, __LINE__);
    IS(told.other == 1 && words[0] == words[3 * 64] && roots[0] == 1);
    ANSWERS(compressor_end_rest(end, words, 3 * 64 + 1, roots, 3), COMPRESSOR_DONE, 3 * 64);
    IS(roots[0] == FROM_SPACE && roots[1] == compressor_rested(TO_SPACE + 3) && roots[2] == 1);
    IS(words[0] == header_of(1, 1, 0) && words[1] == FROM_SPACE + 3 && words[2] == (built ? 70 : 7));
    IS(words[4] == 0 && words[5] == 9 && words[6] == 0 && words[3 * 64 - 1] == 0 && words[3 * 64] != 0);
    if (built) IS(words[64 * own] == header_of(1, 1, 5));
    ANSWERS(compressor_survey_by_roots(1, words, 3 * 64, roots, 2, &survey), COMPRESSOR_DONE, 6);
    compressor_survey_drop(&survey);
}

/* What is wrong with these bytes. */
static void says(compressor_plan *plan, const uint8_t *bytes, size_t size, uint32_t options, const char *text) {
    uint8_t out[64];
    const size_t length = strlen(text);
    memset(out, 0xee, sizeof out);
    if (length > 0)
        ANSWERS(compressor_plan_explain(plan, bytes, size, options, out, length - 1), COMPRESSOR_TOO_SHORT, length);
    ANSWERS(compressor_plan_explain(plan, bytes, size, 5, out, sizeof out), COMPRESSOR_BAD_OPTIONS, 5);
    ANSWERS(compressor_plan_explain(plan, bytes, 7, options, out, sizeof out), COMPRESSOR_FILE_TRUNCATED, 0);
    IS(out[0] == 0xee);
    ANSWERS(compressor_plan_explain(plan, bytes, size, options, out, sizeof out), COMPRESSOR_DONE, length);
    IS(memcmp(out, text, length) == 0 && out[length] == 0xee);
}

/* A cycle in which nobody does anything: its dump is lawful, but not whole, and it comes to rest. */
static void idle(compressor_plan *plan) {
    compressor_crew crew = COMPRESSOR_EMPTY;
    compressor_end end = COMPRESSOR_EMPTY;
    uint64_t size;
    uint8_t bytes[1000];
    ANSWERS(compressor_plan_flip(plan, 1, 4097, &crew), COMPRESSOR_TOO_MANY_PAGES, 4096);
    ANSWERS(compressor_plan_flip(plan, 1, 2, &crew), COMPRESSOR_DONE, 1);
    ANSWERS(compressor_crew_finish(&crew, &end), COMPRESSOR_DONE, 6);
    INTO(size, compressor_end_write(&end, bytes, sizeof bytes));
    ANSWERS(compressor_plan_audit(plan, bytes, size, 0), COMPRESSOR_DONE, 6);
    ANSWERS(compressor_plan_audit(plan, bytes, size, COMPRESSOR_WHOLE), COMPRESSOR_PAGE_MISSING, 0);
    says(plan, bytes, size, COMPRESSOR_WHOLE, "page 0 of 1 was never built");
    rests(&end, 0, 0);
    compressor_end_drop(&end);

    /* the same words as a file of words */
    const uint64_t pair = header_of(1, 1, 0), words[6] = {pair, TO_SPACE + 3, 7, pair, 0, 9};
    memcpy(bytes, "COMPWORD", 8);
    uint8_t *at = eight(eight(four(four(four(bytes + 8, 1), 6), 2), TO_SPACE), TO_SPACE + 3);
    for (int i = 0; i < 6; i++) at = eight(at, words[i]);
    size = (uint64_t)(at - bytes);
    ANSWERS(compressor_plan_audit(plan, bytes, size, COMPRESSOR_WORDS), COMPRESSOR_DONE, 6);
    ANSWERS(compressor_plan_audit(plan, bytes, size, COMPRESSOR_WORDS | COMPRESSOR_WHOLE), COMPRESSOR_DONE, 6);
    ANSWERS(compressor_plan_audit(plan, bytes, size, 0), COMPRESSOR_FILE_BAD_MAGIC, 0);
}

/* The dump of the cycle, judged as it is, and with changes. Answers how many bytes it has. */
static size_t audits(compressor_plan *plan, compressor_end *end, uint64_t live) {
    uint8_t nothing[1] = {0xee};
    compressor_answer told = compressor_end_write(end, nothing, 0);
    if (told.status == COMPRESSOR_OUT_OF_MEMORY) told = compressor_end_write(end, nothing, 0);
    answered(told, COMPRESSOR_TOO_SHORT, told.value, __LINE__);
    uint64_t size = told.value;
    uint8_t *bytes = zeros(size + 1);
    ANSWERS(compressor_end_write(end, bytes, size - 1), COMPRESSOR_TOO_SHORT, size);
    IS(bytes[0] == 0);
    ANSWERS(compressor_end_write(end, bytes, size + 1), COMPRESSOR_DONE, size);
    IS(memcmp(bytes, "COMPDUMP", 8) == 0);

    ANSWERS(compressor_plan_audit(plan, bytes, size, 0), COMPRESSOR_DONE, live);
    ANSWERS(compressor_plan_audit(plan, bytes, size, COMPRESSOR_WHOLE), COMPRESSOR_DONE, live);
    ANSWERS(compressor_plan_audit(plan, bytes, size, COMPRESSOR_WORDS), COMPRESSOR_FILE_BAD_MAGIC, 0);
    ANSWERS(compressor_plan_audit(plan, bytes, size, 4), COMPRESSOR_BAD_OPTIONS, 4);
    says(plan, bytes, size, 0, "");
    ANSWERS(compressor_plan_audit(plan, bytes, size - 1, 0), COMPRESSOR_FILE_TRUNCATED, 0);
    ANSWERS(compressor_plan_audit(plan, bytes, size + 1, 0), COMPRESSOR_FILE_TRAILING, 0);
    bytes[0] ^= 1;
    ANSWERS(compressor_plan_audit(plan, bytes, size, 0), COMPRESSOR_FILE_BAD_MAGIC, 0);
    bytes[0] ^= 1;
    bytes[size - 8] += 1; /* the live words */
    ANSWERS(compressor_plan_audit(plan, bytes, size, 0), COMPRESSOR_WRONG_TOTAL, 0);
    says(plan, bytes, size, 0, "live words 10, not 9");
    bytes[size - 8] -= 1;
    bytes[28 + 2 * 8 + 1 + 5 * 8] += 1; /* word 5 of page 0 */
    ANSWERS(compressor_plan_audit(plan, bytes, size, 0), COMPRESSOR_WRONG_WORD, TO_SPACE + 5);
    bytes[28 + 2 * 8 + 1 + 5 * 8] -= 1;
    bytes[8] = 2; /* the edition */
    ANSWERS(compressor_plan_audit(plan, bytes, size, 0), COMPRESSOR_WRONG_HEAD, 0);
    says(plan, bytes, size, COMPRESSOR_WHOLE, "edition 2, not 1");
    free(bytes);
    return size;
}

int main(void) {
    compressor_heap heap = COMPRESSOR_EMPTY, again = COMPRESSOR_EMPTY, next = COMPRESSOR_EMPTY;
    compressor_plan plan = COMPRESSOR_EMPTY, share = COMPRESSOR_EMPTY;
    compressor_crew crew = COMPRESSOR_EMPTY;
    compressor_mutator m = COMPRESSOR_EMPTY, n = COMPRESSOR_EMPTY;
    compressor_end end = COMPRESSOR_EMPTY;
    uint64_t roots[3], first;
    make_heap(&heap);
    images(&heap, &again);
    judged(&again);
    plans(&again, &plan, &share);
    ANSWERS(compressor_heap_write(&again, (uint8_t *)roots, 0), COMPRESSOR_EMPTY_HANDLE, 0);
    ANSWERS(compressor_heap_plan(&heap, &plan), COMPRESSOR_NOT_EMPTY, 1);
    idle(&share);
    ANSWERS(compressor_plan_flip(&plan, 2, 2, &crew), COMPRESSOR_DONE, 2);
    compressor_plan_drop(&plan);
    INTO(first, compressor_crew_take(&crew, &m));
    ANSWERS(compressor_crew_take(&crew, &n), COMPRESSOR_DONE, 1 - first);
    uint64_t own = go_on(&m, &n, roots);
    ANSWERS(compressor_crew_give(&crew, &m), COMPRESSOR_DONE, 0);
    ANSWERS(compressor_crew_give(&crew, &n), COMPRESSOR_DONE, 0);
    ANSWERS(compressor_mutator_roots(&m, roots, 3), COMPRESSOR_EMPTY_HANDLE, 0);
    ANSWERS(compressor_crew_finish(&crew, &end), COMPRESSOR_DONE, 6 + 3);
    look(&end, (uint32_t)first, own);
    size_t size = audits(&share, &end, 6 + 3);
    rests(&end, 1, own);
    ANSWERS(compressor_end_next_by_roots(&end, roots, 2, &heap), COMPRESSOR_NOT_EMPTY, 1);
    ANSWERS(compressor_end_next_by_roots(&end, roots, 2, &next), COMPRESSOR_DONE, 0);
    ANSWERS(compressor_heap_write(&next, (uint8_t *)roots, 0), COMPRESSOR_TOO_SHORT, 24 + 8 * 3 * 64 + 4 * 2 + 8 * 2);
    compressor_heap_drop(&next);
    compressor_plan_drop(&share);
    compressor_heap_drop(&heap);
    printf("an image of %d bytes, and a dump of %zu bytes, which is lawful\n", IMAGE, size);
    return 0;
}
