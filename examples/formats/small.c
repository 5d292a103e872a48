/* An example of heapfiles.h: writes the small heaps that ./check knows byte by byte, into a folder.
 *
 *     cc -std=c11 small.c -o small && ./small FOLDER */
#include "heapfiles.h"

#include <stdlib.h>

#define COUNT(a) (uint32_t)(sizeof(a) / sizeof *(a))
#define WORDS(a) {a, COUNT(a)}
#define FROM(i) (HF_FROM_SPACE + (i))
#define TO(i) (HF_TO_SPACE + (i))

static const char *folder;

static FILE *open_file(const char *name)
{
    char path[1024];
    snprintf(path, sizeof path, "%s/%s", folder, name);
    FILE *f = fopen(path, "wb");
    if (!f) {
        perror(path);
        exit(1);
    }
    return f;
}

static void close_file(FILE *f, bool whole)
{
    if (fclose(f) || !whole) {
        fputs("small: a file could not be written\n", stderr);
        exit(1);
    }
}

/* One object of one word. */
static void smallest(void)
{
    const uint64_t words[] = {hf_header(1, 0, 0, 0, 7)}, roots[] = {FROM(0)}, roots_after[] = {TO(0)};
    const uint32_t marks[] = {0}, built[] = {0};
    const struct hf_image image = {1, WORDS(words), WORDS(marks), WORDS(roots)};
    FILE *f = open_file("smallest.img");
    close_file(f, hf_write_image(f, &image));

    uint64_t page[HF_PAGE_WORDS] = {words[0]}; /* the other words are zeros */
    const struct hf_page pages[] = {{page, NULL, 0}};
    const struct hf_indices builds[] = {WORDS(built)};
    const struct hf_dump dump = {1, 0, pages, 1, WORDS(roots_after), builds, 1, 1};
    f = open_file("smallest.dump");
    close_file(f, hf_write_dump(f, &dump));

    const struct hf_slid slid = {1, WORDS(roots_after), WORDS(words)};
    f = open_file("smallest.words");
    close_file(f, hf_write_words(f, &slid));
}

/* Three objects. The first has weak words, the middle one is not marked. They slide; or they change places. */
static void weak(void)
{
    const uint64_t first = hf_header(2, 0, 1, 2, 1), last = hf_header(2, 1, 0, 0, 3);
    const uint64_t words[] = {first, FROM(4), FROM(5), 9, hf_header(2, 0, 0, 0, 2), last, FROM(0)};
    const uint64_t roots[] = {FROM(5)};
    const uint32_t marks[] = {0, 5};
    const struct hf_image image = {2, WORDS(words), WORDS(marks), WORDS(roots)};
    FILE *f = open_file("weak.img");
    close_file(f, hf_write_image(f, &image));

    const uint64_t slid_words[] = {first, 0, TO(4), 9, last, TO(0)}, slid_roots[] = {TO(4)};
    const struct hf_slid slid = {2, WORDS(slid_roots), WORDS(slid_words)};
    f = open_file("weak.words");
    close_file(f, hf_write_words(f, &slid));

    const uint64_t moved_words[] = {last, TO(3), 77, first, 0, TO(0), 9}, moved_roots[] = {TO(0)};
    const uint32_t places[] = {3, 0};
    const struct hf_moved moved = {2, WORDS(places), WORDS(moved_roots), WORDS(moved_words)};
    f = open_file("weak.moved");
    close_file(f, hf_write_moved(f, &moved));
}

/* A dump with a write by the second of two mutators, and a fresh page that nobody built. */
static void written(void)
{
    const uint64_t words[] = {hf_header(1, 0, 1, 0, 1), 11}, roots[] = {FROM(0)}, roots_after[] = {TO(0)};
    const uint32_t marks[] = {0}, built[] = {0};
    const struct hf_image image = {1, WORDS(words), WORDS(marks), WORDS(roots)};
    FILE *f = open_file("written.img");
    close_file(f, hf_write_image(f, &image));

    uint64_t page[HF_PAGE_WORDS] = {words[0], 12};
    const struct hf_entry entries[] = {{.stamp = 0, .writer = 1, .kind = HF_DATA, .offset = 1, .value = 12}};
    const struct hf_page pages[] = {{page, entries, COUNT(entries)}, {NULL, NULL, 0}};
    const struct hf_indices builds[] = {{NULL, 0}, WORDS(built)};
    const struct hf_dump dump = {1, 1, pages, COUNT(pages), WORDS(roots_after), builds, COUNT(builds), 2};
    f = open_file("written.dump");
    close_file(f, hf_write_dump(f, &dump));
}

/* The four forms of headers in edition three, as mere words. */
static void headers(void)
{
    const uint64_t words[] = {
        hf_header(3, 1, 2, 3, 4),
        hf_header(3, 70000, 2, 0, 3),
        hf_header(3, 2, 70000, 0, 3),
        hf_header(3, 0, 2, 70000, 3),
    };
    const struct hf_slid slid = {3, {NULL, 0}, WORDS(words)};
    FILE *f = open_file("headers.words");
    close_file(f, hf_write_words(f, &slid));
}

int main(int argc, char **argv)
{
    if (argc != 2) {
        fputs("usage: small FOLDER\n", stderr);
        return 2;
    }
    folder = argv[1];
    smallest();
    weak();
    written();
    headers();
    return 0;
}
