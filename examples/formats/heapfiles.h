/* Writes heap images, dumps, words and moved heaps, the files that `compressor` judges (docs/FORMATS.md). C11 and no
 * library but the standard one. All numbers are written little-endian, whatever the machine is.
 *
 * Each hf_write_ call writes one whole file to a stream and answers whether all of it was taken. It checks nothing
 * else: what is wrong with a file is for the judge to say. Close the stream, and look at what fclose answers. */
#ifndef HEAPFILES_H
#define HEAPFILES_H

#include <stdbool.h>
#include <stdint.h>
#include <stdio.h>

#define HF_FROM_SPACE (UINT64_C(1) << 32) /* the address of from-space word 0 */
#define HF_TO_SPACE (UINT64_C(1) << 33)   /* the address of to-space word 0 */
#define HF_PAGE_WORDS 64

/* Lists that the caller keeps. */
struct hf_words { const uint64_t *items; uint32_t count; };
struct hf_indices { const uint32_t *items; uint32_t count; };

/* The heap with which a cycle begins. */
struct hf_image {
    uint32_t edition;
    struct hf_words words;   /* from-space, a row of objects without gaps */
    struct hf_indices marks; /* at which words marked objects start, rising */
    struct hf_words roots;   /* from-space addresses, or 0 */
};

/* What is left, if live objects slid in their order: the live words without gaps. */
struct hf_slid {
    uint32_t edition;
    struct hf_words roots, words; /* a root is a to-space address, or 0 */
};

/* What is left, if each object moved to a place of its own. */
struct hf_moved {
    uint32_t edition;
    struct hf_indices places; /* of each marked object, as an index into the words, in the order of the marks */
    struct hf_words roots;    /* to-space addresses, or 0 */
    struct hf_words words;    /* the target space; what lies in no object is free */
};

/* What is left, page by page, if mutators wrote and allocated while the collection went on. */
enum hf_kind { HF_HEADER, HF_REFERENCE, HF_DATA, HF_WEAK };
struct hf_entry { uint64_t stamp, value; uint8_t writer, kind, offset; };
struct hf_page {
    const uint64_t *words; /* 64 of them, or NULL if the page was never built */
    const struct hf_entry *entries;
    uint32_t entry_count;
};
struct hf_dump {
    uint32_t edition, fresh;
    const struct hf_page *pages; /* the fresh ones are the last */
    uint32_t page_count;
    struct hf_words roots;
    const struct hf_indices *builds; /* for each mutator the pages that it built, in its order */
    uint32_t mutators;
    uint64_t live;
};

/* The header of an object. From edition three on the form with room for all three counts is taken if they fit. */
static inline uint64_t hf_header(uint32_t edition, uint64_t references, uint64_t data, uint64_t weak, uint64_t tag)
{
    if (edition == 1)
        return references | data << 16 | tag << 32;
    if (edition == 2 || (references < 1 << 16 && data < 1 << 16 && weak < 1 << 16))
        return references | data << 16 | weak << 32 | tag << 48;
    if (weak)
        return weak | data << 31 | tag << 48 | UINT64_C(3) << 62;
    if (data < references)
        return references | data << 31 | tag << 48 | UINT64_C(1) << 62;
    return data | references << 31 | tag << 48 | UINT64_C(2) << 62;
}

static inline bool hf_put(FILE *f, uint64_t value, int bytes)
{
    bool whole = true;
    for (int i = 0; whole && i < bytes; i++)
        whole = putc((int)(value >> 8 * i & 0xff), f) != EOF;
    return whole;
}

static inline bool hf_put_words(FILE *f, struct hf_words list)
{
    bool whole = true;
    for (uint32_t i = 0; whole && i < list.count; i++)
        whole = hf_put(f, list.items[i], 8);
    return whole;
}

static inline bool hf_put_indices(FILE *f, struct hf_indices list)
{
    bool whole = true;
    for (uint32_t i = 0; whole && i < list.count; i++)
        whole = hf_put(f, list.items[i], 4);
    return whole;
}

static inline bool hf_put_head(FILE *f, const char *magic, uint32_t edition)
{
    return fputs(magic, f) != EOF && hf_put(f, edition, 4);
}

static inline bool hf_write_image(FILE *f, const struct hf_image *x)
{
    return hf_put_head(f, "COMPHEAP", x->edition) && hf_put(f, x->words.count, 4) && hf_put(f, x->marks.count, 4)
        && hf_put(f, x->roots.count, 4) && hf_put_words(f, x->words) && hf_put_indices(f, x->marks)
        && hf_put_words(f, x->roots);
}

static inline bool hf_write_words(FILE *f, const struct hf_slid *x)
{
    return hf_put_head(f, "COMPWORD", x->edition) && hf_put(f, x->words.count, 4) && hf_put(f, x->roots.count, 4)
        && hf_put_words(f, x->roots) && hf_put_words(f, x->words);
}

static inline bool hf_write_moved(FILE *f, const struct hf_moved *x)
{
    return hf_put_head(f, "COMPMOVE", x->edition) && hf_put(f, x->places.count, 4) && hf_put(f, x->roots.count, 4)
        && hf_put(f, x->words.count, 4) && hf_put_indices(f, x->places) && hf_put_words(f, x->roots)
        && hf_put_words(f, x->words);
}

static inline bool hf_put_page(FILE *f, const struct hf_page *page)
{
    if (!page->words)
        return hf_put(f, 0, 1);
    struct hf_words words = {page->words, HF_PAGE_WORDS};
    bool whole = hf_put(f, 1, 1) && hf_put_words(f, words) && hf_put(f, page->entry_count, 4);
    for (uint32_t k = 0; whole && k < page->entry_count; k++) {
        const struct hf_entry *e = &page->entries[k];
        whole = hf_put(f, e->stamp, 8) && hf_put(f, e->writer, 1) && hf_put(f, e->kind, 1) && hf_put(f, e->offset, 1)
            && hf_put(f, e->value, 8);
    }
    return whole;
}

static inline bool hf_write_dump(FILE *f, const struct hf_dump *x)
{
    bool whole = hf_put_head(f, "COMPDUMP", x->edition) && hf_put(f, x->mutators, 4) && hf_put(f, x->fresh, 4)
        && hf_put(f, x->page_count, 4) && hf_put(f, x->roots.count, 4) && hf_put_words(f, x->roots);
    for (uint32_t p = 0; whole && p < x->page_count; p++)
        whole = hf_put_page(f, &x->pages[p]);
    for (uint32_t m = 0; whole && m < x->mutators; m++)
        whole = hf_put(f, x->builds[m].count, 4) && hf_put_indices(f, x->builds[m]);
    return whole && hf_put(f, x->live, 8);
}

#endif
