/* Refuses one allocation of a program, whose number, from 1, the environment names in REFUSE, with REFUSE_ON also
   each later one, and each of more bytes than it names in REFUSE_ABOVE. To be loaded before the C library. Where
   there is such an allocation, the file that REFUSE_TOLD names is made. It includes nothing: the kit's compiler has
   no headers. */
typedef unsigned long size;

extern void *dlsym(void *, const char *);
extern char *getenv(const char *);
extern long atol(const char *);
extern int creat(const char *, unsigned);
extern int close(int);
extern int *__errno_location(void);

/* the library that is loaded next */
#define NEXT ((void *)-1L)

/* the error number of a refused allocation */
#define OUT_OF_MEMORY 12

static long count;
static long refused = -1;
static int on;
static size above;
static const char *told;
static void *(*real_malloc)(size);
static void *(*real_realloc)(void *, size);
static void *(*real_calloc)(size, size);
static int (*real_posix_memalign)(void **, size, size);
static void *(*real_aligned_alloc)(size, size);

/* While the names are looked up, a calloc of that search has none: it is refused, and the search goes on without. */
static int searching;

static void find(void) {
    if (real_aligned_alloc || searching) return;
    searching = 1;
    real_malloc = (void *(*)(size))dlsym(NEXT, "malloc");
    real_realloc = (void *(*)(void *, size))dlsym(NEXT, "realloc");
    real_calloc = (void *(*)(size, size))dlsym(NEXT, "calloc");
    real_posix_memalign = (int (*)(void **, size, size))dlsym(NEXT, "posix_memalign");
    real_aligned_alloc = (void *(*)(size, size))dlsym(NEXT, "aligned_alloc");
    searching = 0;
}

__attribute__((constructor)) static void begin(void) {
    find();
    const char *number = getenv("REFUSE");
    const char *limit = getenv("REFUSE_ABOVE");
    above = limit ? (size)atol(limit) : 0;
    told = getenv("REFUSE_TOLD");
    on = getenv("REFUSE_ON") != 0;
    refused = number ? atol(number) : 0;
}

static int is_refused(size bytes) {
    if (refused < 0) return 0;
    long it = __atomic_add_fetch(&count, 1, __ATOMIC_SEQ_CST);
    int is_next = on ? it >= refused : it == refused;
    if (!is_next && (!above || bytes <= above)) return 0;
    int file = told ? creat(told, 0666) : -1;
    if (file >= 0) close(file);
    *__errno_location() = OUT_OF_MEMORY;
    return 1;
}

void *malloc(size bytes) {
    find();
    return !real_malloc || is_refused(bytes) ? 0 : real_malloc(bytes);
}

void *realloc(void *p, size bytes) {
    find();
    return !real_realloc || is_refused(bytes) ? 0 : real_realloc(p, bytes);
}

void *calloc(size number, size bytes) {
    find();
    size all = bytes && number > ~0UL / bytes ? ~0UL : number * bytes;
    return !real_calloc || is_refused(all) ? 0 : real_calloc(number, bytes);
}

int posix_memalign(void **p, size alignment, size bytes) {
    find();
    return !real_posix_memalign || is_refused(bytes) ? OUT_OF_MEMORY : real_posix_memalign(p, alignment, bytes);
}

void *aligned_alloc(size alignment, size bytes) {
    find();
    return !real_aligned_alloc || is_refused(bytes) ? 0 : real_aligned_alloc(alignment, bytes);
}
