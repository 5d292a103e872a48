/* young.c: young collections of a heap at rest. A table grows old, while its entries change and much dies young: what is
   young is collected by cards, by a list of stores, and by age; weak words of old objects become null; and a store that
   marked no card is found by name. Judges itself: each collection leaves as many words as were worked out, and the
   table has what was stored there. */
#define COMPRESSOR_CHECK_OLD
#include "compressor_rest.h"

#include <stdio.h>
#include <stdlib.h>
#include <string.h>

enum { EDITION = 4, ROOM = 1 << 16, CARDS = ROOM / 64, ENTRIES = 500, PAIR = 3, TABLE = ENTRIES + 2, NURSERY = 4096 };

static uint64_t words[ROOM];
static unsigned char cards[CARDS];
static compressor_space space;
static compressor_buffer buffer;
static compressor_old old;
/* Roots: a table of references and a weak word, and what is being made. */
static uint64_t roots[3];
#define table (roots[0])
#define list (roots[1])
#define last (roots[2])

static void is(int so, int line) {
    if (so) return;
    printf("not so: line %d\n", line);
    exit(1);
}
#define IS(what) is(what, __LINE__)

static uint64_t answered(compressor_answer a, uint32_t status, int line) {
    if (a.status != status)
        printf("%s, value %llu: ", compressor_status_text(a.status), (unsigned long long)a.value);
    is(a.status == status, line);
    return a.value;
}
#define DONE(call) answered(call, COMPRESSOR_DONE, __LINE__)
#define REFUSED(status_is, call) answered(call, status_is, __LINE__)

static uint64_t pair(int64_t number, uint64_t other) {
    const uint64_t made = compressor_new(&space, &buffer, COMPRESSOR_HEADER_REFS(2, 1), PAIR);
    IS(made != 0);
    compressor_store(&space, made, 0, compressor_fixnum(number)); /* it is new: no card */
    compressor_store(&space, made, 1, other);
    return made;
}
static void put(uint64_t k, uint64_t value) { compressor_store_card(&space, cards, table, k, value); }
static int64_t number_of(uint64_t it) { return compressor_fixnum_value(compressor_load(&space, it, 0)); }
static uint64_t index_of(uint64_t object, uint64_t k) { return object - COMPRESSOR_FROM_SPACE + 1 + k; }

static uint64_t collect(enum compressor_ages ages) {
    const uint64_t live = DONE(compressor_space_collect(&space, &old, ages, cards, roots, 3));
    compressor_buffer_empty(&buffer);
    return live;
}
static uint64_t watermark(void) { return DONE(compressor_watermark(&old)); }

static void begin(void) {
    compressor_answer a;
    memset(words, 0, sizeof words);
    memset(cards, 0, sizeof cards);
    memset(roots, 0, sizeof roots);
    memset(&space, 0, sizeof space);
    compressor_space_in(&space, EDITION, words, ROOM, 0);
    compressor_buffer_empty(&buffer);
    a = compressor_old_reserve(ROOM, &old);
    if (a.status == COMPRESSOR_OUT_OF_MEMORY) a = compressor_old_reserve(ROOM, &old);
    DONE(a);
    table = compressor_new(&space, &buffer, COMPRESSOR_HEADER(ENTRIES, 1, 0, 2), TABLE);
    IS(table != 0 && collect(COMPRESSOR_ALL) == TABLE && watermark() == TABLE);
}

/* Entries change, and of what is made most dies at once: as many collections as that makes are young, but for those that
   the rule wants of all. */
static void by_the_rule(uint64_t *young, uint64_t *all) {
    static int64_t wanted[ENTRIES];
    int64_t n;
    *young = *all = 0;
    for (n = 0; n < ENTRIES; n++) wanted[n] = -1;
    IS(compressor_space_nursery(&space, NURSERY, ROOM / 2) == NURSERY && space.limit == TABLE + NURSERY);
    for (n = 0; n < 100000; n++) {
        last = pair(n, last == 0 || number_of(last) % 8 == 0 ? 0 : last);
        if (n % 100 == 0) {
            const int64_t k = n / 100 % ENTRIES;
            put((uint64_t)k, pair(n, 0));
            wanted[k] = n;
        }
        if (!compressor_space_due(&space)) continue;
        if (compressor_space_wants_all(&space, &old, cards, ROOM / 2)) {
            collect(COMPRESSOR_ALL);
            ++*all;
        } else {
            collect(COMPRESSOR_YOUNG);
            ++*young;
        }
        IS(compressor_space_nursery(&space, NURSERY, ROOM / 2) != 0 && watermark() == space.used);
    }
    last = 0;
    for (n = 0; n < ENTRIES; n++) {
        const uint64_t it = compressor_load(&space, table, (uint64_t)n);
        IS(wanted[n] < 0 ? it == 0 : number_of(it) == wanted[n]);
        put((uint64_t)n, 0);
    }
    IS(collect(COMPRESSOR_ALL) == TABLE);
}

/* A weak word of an old object leads to a young one: it keeps nothing, follows, and is null then. */
static void weak_words(void) {
    list = pair(1, 0);
    put(ENTRIES, list);
    last = list = pair(2, 0); /* what the weak word leads to lies before it, and dies */
    IS(collect(COMPRESSOR_YOUNG) == TABLE + PAIR && compressor_load(&space, table, ENTRIES) == 0);
    pair(3, 0);
    last = pair(4, 0);
    put(ENTRIES, last);
    IS(collect(COMPRESSOR_YOUNG) == TABLE + 2 * PAIR && compressor_load(&space, table, ENTRIES) == last);
    IS(number_of(last) == 4);
    /* both are old: they die in a collection of all alone */
    last = list = 0;
    IS(collect(COMPRESSOR_YOUNG) == TABLE + 2 * PAIR && compressor_load(&space, table, ENTRIES) != 0);
    IS(collect(COMPRESSOR_ALL) == TABLE && compressor_load(&space, table, ENTRIES) == 0);
}

/* Stores are listed, in place of cards. What is listed twice does no harm; data is no field. */
static void by_fields(void) {
    uint64_t fields[5], live;
    compressor_store(&space, table, 300, pair(300, 0));
    compressor_store(&space, table, 7, pair(7, pair(8, 0)));
    compressor_store(&space, table, ENTRIES, pair(9, 0));
    fields[0] = index_of(table, 300);
    fields[1] = index_of(table, 7);
    fields[2] = index_of(table, 300);
    fields[3] = index_of(table, ENTRIES);
    fields[4] = index_of(table, ENTRIES + 1); /* no word of the table */
    REFUSED(COMPRESSOR_NOT_A_FIELD,
            compressor_collect_young_by(&old, EDITION, words, space.used, fields, 5, roots, 3));
    fields[0] = index_of(table, 300); /* it has been sorted */
    fields[1] = index_of(table, 7);
    fields[2] = index_of(table, 300);
    fields[3] = index_of(table, ENTRIES);
    live = DONE(compressor_collect_young_by(&old, EDITION, words, space.used, fields, 4, roots, 3));
    IS(live == TABLE + 3 * PAIR && watermark() == live);
    compressor_space_in(&space, EDITION, words, ROOM, live);
    compressor_buffer_empty(&buffer);
    IS(number_of(compressor_load(&space, table, 300)) == 300 && compressor_load(&space, table, ENTRIES) == 0);
    IS(number_of(compressor_load(&space, compressor_load(&space, table, 7), 1)) == 8);
    put(300, 0);
    put(7, 0);
    IS(collect(COMPRESSOR_ALL) == TABLE);
}

/* What survives one collection is young still, and may die in the next; what survives two is old. */
static void by_age(void) {
    put(1, pair(1, 0));
    put(2, pair(2, 0));
    IS(collect(COMPRESSOR_AGING) == TABLE + 2 * PAIR && watermark() == TABLE);
    IS(cards[index_of(table, 1) / 64] != 0); /* the call made the cards: it leads above still */
    put(1, 0);
    put(3, pair(3, 0));
    IS(collect(COMPRESSOR_AGING) == TABLE + 2 * PAIR && watermark() == TABLE + PAIR);
    put(2, 0);
    IS(collect(COMPRESSOR_AGING) == TABLE + 2 * PAIR && watermark() == TABLE + 2 * PAIR);
    IS(number_of(compressor_load(&space, table, 3)) == 3);
    put(3, 0);
    IS(collect(COMPRESSOR_ALL) == TABLE);
}

/* A store that marks no card is found, and a header that changed. A collection of all believes nothing. */
static void forgotten(void) {
    const uint64_t header = *compressor_at(&space, table);
    compressor_store(&space, table, 400, pair(400, 0));
    IS(REFUSED(COMPRESSOR_LEADS_ABOVE, compressor_space_collect(&space, &old, COMPRESSOR_YOUNG, cards, roots, 3)) ==
       index_of(table, 400));
    *compressor_at(&space, table) = COMPRESSOR_HEADER(ENTRIES + 1, 1, 0, 2);
    IS(REFUSED(COMPRESSOR_NOT_A_ROW, compressor_space_collect(&space, &old, COMPRESSOR_AGING, cards, roots, 3)) == 0);
    *compressor_at(&space, table) = header;
    IS(collect(COMPRESSOR_ALL) == TABLE + PAIR && number_of(compressor_load(&space, table, 400)) == 400);
    IS(REFUSED(COMPRESSOR_FEW_WORDS,
               compressor_collect_young(&old, EDITION, words, TABLE, cards, CARDS, roots, 3)) == TABLE + PAIR);
    IS(REFUSED(COMPRESSOR_FEW_CARDS,
               compressor_collect_young(&old, EDITION, words, space.used, cards, 1, roots, 3)) ==
       compressor_cards_of(TABLE + PAIR));
}

/* While C has the address of a young object, no young collection is made: the watermark goes up behind it, and it
   stays. Then all is collected around it, the tables are put back to watermark 0 and raised to what that left, and
   young collections go on. */
static void pinned(void) {
    uint64_t runs[2], pin, kept;
    compressor_answer a;
    put(400, 0);
    IS(collect(COMPRESSOR_ALL) == TABLE);
    pair(1, 0); /* dies */
    pin = pair(2, 0);
    put(2, pin);
    IS(DONE(compressor_space_raise(&space, &old, cards)) == space.used && watermark() == space.used);
    compressor_buffer_empty(&buffer);
    IS(compressor_load(&space, table, 2) == pin && number_of(pin) == 2);
    kept = space.used;
    put(3, pair(3, pin)); /* the first one that is young */
    IS(collect(COMPRESSOR_YOUNG) == kept + PAIR && compressor_load(&space, table, 2) == pin);
    put(3, 0);
    a = compressor_space_collect_pinned(&space, roots, 3, &pin, 1, runs, 2);
    if (a.status == COMPRESSOR_OUT_OF_MEMORY) a = compressor_space_collect_pinned(&space, roots, 3, &pin, 1, runs, 2);
    IS(DONE(a) == TABLE + PAIR);
    IS(space.used == TABLE + 2 * PAIR && runs[0] == TABLE && runs[1] == TABLE + PAIR);
    IS(DONE(compressor_collect_all(&old, EDITION, words, 0, roots, 0)) == 0 && watermark() == 0); /* nothing is old */
    IS(REFUSED(COMPRESSOR_NOT_A_ROW, compressor_old_raise(&old, EDITION, words, ROOM, TABLE + 1)) == TABLE);
    IS(DONE(compressor_space_raise(&space, &old, cards)) == TABLE + 2 * PAIR);
    compressor_buffer_empty(&buffer);
    put(4, pair(4, pair(5, pin)));
    IS(collect(COMPRESSOR_YOUNG) == TABLE + 4 * PAIR && compressor_load(&space, table, 2) == pin);
    put(2, 0);
    put(4, 0);
    IS(collect(COMPRESSOR_ALL) == TABLE);
}

int main(void) {
    uint64_t young, all;
    begin();
    by_the_rule(&young, &all);
    weak_words();
    by_fields();
    by_age();
    forgotten();
    pinned();
    compressor_old_return(&old);
    IS(old.at == NULL);
    printf("young: %llu collections of what is young and %llu of all; by cards, by a list of stores, by age\n",
           (unsigned long long)young, (unsigned long long)all);
    return 0;
}
