/* main.c: the command line, the first heap, and the threads of the evaluators. */
#define _POSIX_C_SOURCE 200809L
#include "lisp.h"

#include <errno.h>
#include <pthread.h>
#include <stdlib.h>
#include <string.h>

#define STACK_BYTES ((size_t)256 << 20) /* of C, for each evaluator: enough for MOST_DEPTH */

static const char usage[] =
    "usage: lisp [--collector rest|touch|flip] [--evaluators 1..4] [--pages 1..512] [--limit WORDS] [--statistics]\n"
    "            [--pauses FILE] PROGRAM\n";

static char *program;
static size_t program_length;
static const char *pauses_path; /* null if none is asked for */

/* Evaluator 0 reads and evaluates the program; the others help. */
static void *run(void *given) {
    evaluator *e = (evaluator *)given;
    if (setjmp(e->base) == 0) {
        if (e->number > 0) help(e);
        else {
            slot form = heap_push(e), scope = heap_push(e);
            reader r;
            r.at = program;
            r.end = program + program_length;
            r.line = 1;
            define_forms(e);
            define_primitives(e);
            while (read_form(e, form, &r)) evaluate(e, form, form, scope);
            heap_stop(NULL);
        }
    }
    return NULL;
}

/* The first heap: the world. All stacks begin with it, false, true, and the value of symbols that have none. */
static const char *start(const struct heap_options *options) {
    uint64_t words[1 + WORLD_FIELDS], roots[FIRST_SLOTS];
    memset(words, 0, sizeof words);
    words[0] = heap_header(WORLD_FIELDS, 0, WORLD);
    roots[WORLD_SLOT] = heap_first_address(0);
    roots[FALSE_SLOT] = heap_first_small(BOOLEAN, 0);
    roots[TRUE_SLOT] = heap_first_small(BOOLEAN, 1);
    roots[UNBOUND_SLOT] = heap_first_small(UNBOUND, 0);
    return heap_start(options, words, 1 + WORLD_FIELDS, roots, FIRST_SLOTS);
}

/* Runs the evaluators to their end. */
static void run_all(void) {
    pthread_t threads[MOST_EVALUATORS];
    pthread_attr_t attributes;
    uint32_t n = heap_evaluators(), begun;
    pthread_attr_init(&attributes);
    pthread_attr_setstacksize(&attributes, STACK_BYTES);
    for (begun = 0; begun < n; begun++)
        if (pthread_create(&threads[begun], &attributes, run, heap_evaluator(begun)) != 0) break;
    pthread_attr_destroy(&attributes);
    if (begun < n) heap_stop("NoThread");
    while (begun > 0) pthread_join(threads[--begun], NULL);
}

static int told(const char *error) {
    fflush(stdout);
    fprintf(stderr, "lisp: %s\n", error);
    return 1;
}

/* Null, or the name of an error. */
static const char *read_program(const char *path) {
    FILE *f = fopen(path, "rb");
    size_t room = 0, got = 1;
    int failed;
    if (!f) return "CannotOpen(program)";
    while (got > 0) {
        if (program_length == room) {
            char *more = (char *)realloc(program, room += 65536);
            if (!more) {
                fclose(f);
                return "OutOfMemory";
            }
            program = more;
        }
        got = fread(program + program_length, 1, room - program_length, f);
        program_length += got;
    }
    failed = ferror(f);
    fclose(f);
    return failed ? "ReadFailed(program)" : NULL;
}

/* The number that a word is, if it is one from least to most. */
static int number_in(const char *word, uint64_t least, uint64_t most, uint64_t *out) {
    char *end;
    if (!word || *word < '0' || *word > '9') return 0;
    errno = 0;
    *out = strtoull(word, &end, 10);
    return errno == 0 && *end == 0 && *out >= least && *out <= most;
}

/* The path of the program, or null if the words are wrong. */
static const char *read_options(char **words, struct heap_options *options) {
    const char *path = NULL;
    uint64_t n = 0;
    for (; *words; words++) {
        if (strcmp(*words, "--collector") == 0) {
            if (!*++words) return NULL;
            options->by = heap_collector(*words);
            if (!options->by) {
                fprintf(stderr, "lisp: NoSuchCollector(%s)\n", *words);
                return NULL;
            }
        } else if (strcmp(*words, "--evaluators") == 0) {
            if (!number_in(*++words, 1, MOST_EVALUATORS, &n)) return NULL;
            options->evaluators = (uint32_t)n;
        } else if (strcmp(*words, "--pages") == 0) {
            if (!number_in(*++words, 1, MOST_PAGES, &n)) return NULL;
            options->pages = (uint32_t)n;
        } else if (strcmp(*words, "--limit") == 0) {
            if (!number_in(*++words, 1, (uint64_t)1 << 31, &options->limit)) return NULL;
        } else if (strcmp(*words, "--statistics") == 0) {
            options->measured = 1;
        } else if (strcmp(*words, "--pauses") == 0) {
            pauses_path = *++words;
            if (!pauses_path) return NULL;
            options->keeps_pauses = 1;
        } else if (path || **words == '-') {
            return NULL;
        } else {
            path = *words;
        }
    }
    return path;
}

/* The most memory that was resident, in KiB; 0 if the system does not say. */
static unsigned long peak_memory(void) {
    char line[128];
    unsigned long kib = 0;
    FILE *f = fopen("/proc/self/status", "r");
    while (f && fgets(line, sizeof line, f))
        if (sscanf(line, "VmHWM: %lu", &kib) == 1) break;
    if (f) fclose(f);
    return kib;
}

/* Null, or the name of an error. */
static const char *write_pauses(void) {
    FILE *f = fopen(pauses_path, "w");
    int failed;
    if (!f) return "CannotOpen(pauses)";
    heap_tell_pauses(f);
    failed = ferror(f);
    return fclose(f) != 0 || failed ? "WriteFailed(pauses)" : NULL;
}

/* Reads and runs the program. */
static const char *run_program(const char *path, const struct heap_options *options) {
    const char *error = read_program(path);
    if (error) return error;
    error = start(options);
    if (!error) run_all();
    error = heap_end();
    if (options->measured) {
        heap_statistics(stderr);
        fprintf(stderr, "peak memory %lu KiB\n", peak_memory());
    }
    if (pauses_path && !error) error = write_pauses();
    return error;
}

int main(int count, char **words) {
    struct heap_options options = {heap_collector("rest"), 2, 32, (uint64_t)1 << 22, 0, 0};
    const char *error, *path = count > 0 ? read_options(words + 1, &options) : NULL;
    if (!path) {
        fputs(usage, stderr);
        return 2;
    }
    error = run_program(path, &options);
    free(program);
    if (error) return told(error);
    return fflush(stdout) != 0 || ferror(stdout) ? told("CannotPrint") : 0;
}
