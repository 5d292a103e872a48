/* A JVMTI agent that copies HotSpot's heap, word for word, at the start and at the finish of one collection. Both
 * copies are made inside the pause, so no Java thread runs between them. It moves nothing itself.
 *
 * Just before the collection it paints the heap: each unlocked object without an identity hash gets one that no other
 * object has, written into its mark word as HotSpot itself would do it. A collector must keep hashes, so in the copy
 * after the collection each object can be told, wherever it was put.
 *
 * A copy (before.raw, after.raw) is a row of words, in the machine's order:
 *
 *     COPY_MAGIC, hash shift, offsets of a mirror's size and of its count of static references, offsets of
 *     Reference.referent and Reference.discovered and of the static SoftReference.clock, the mirror of SoftReference
 *     number of spaces; for each its name (16 bytes), bottom, top, and the words between them
 *     number of roots; for each what its slot holds
 *     number of classes; for each its address, layout helper, superclass, number of reference blocks, the blocks
 *     (offset in 4 bytes, number of fields in 4 bytes), length of its name, the name
 *     COPY_MAGIC
 *
 * Roots are the slots of JNI global references, which the collector itself updates. */
#include "hotspot.h"

#include <jvmti.h>
#include <stdlib.h>

#define COPY_MAGIC UINT64_C(0x31504145484d564a) /* "JVMHEAP1" */
#define MOST_ROOTS 4096

enum state { IDLE, ARMED, COLLECTING, DONE };
static enum state state;
static char folder[512];
static bool is_young;
static jobject roots[MOST_ROOTS];
static int root_count;
static uint64_t referent_at, discovered_at, clock_at;
static jobject soft_reference;

/* ---- painting */

#define HASH_MASK UINT64_C(0x7fffffff)

struct hashes { uint64_t *items; uint64_t count, room; };

static bool is_unlocked(uint64_t mark)
{
    return (mark & 3) == 1;
}

static uint64_t hash_of(uint64_t mark)
{
    return mark >> hash_shift & HASH_MASK;
}

static void add_hash(struct hashes *list, uint64_t hash)
{
    if (list->count == list->room) {
        list->room = 2 * list->room + 1024;
        list->items = realloc(list->items, 8 * list->room);
        if (!list->items)
            die("no memory for", "hashes");
    }
    list->items[list->count++] = hash;
}

static int compare(const void *a, const void *b)
{
    uint64_t x = *(const uint64_t *)a, y = *(const uint64_t *)b;
    return (x > y) - (x < y);
}

/* Goes through all objects of all spaces. Each space must be a row of objects without gaps. */
static void each_object(void (*visit)(uint64_t object, void *data), void *data)
{
    for (int s = 0; s < space_count; s++) {
        uint64_t object = spaces[s].bottom;
        while (object < spaces[s].top) {
            uint64_t size = size_of_object(object);
            visit(object, data);
            object += 8 * size;
        }
        if (object != spaces[s].top)
            die("no row of objects in", spaces[s].name);
    }
}

static void visit_nothing(uint64_t object, void *data)
{
    (void)object;
    (void)data;
}

static void note_hash(uint64_t object, void *data)
{
    uint64_t mark = AT(uint64_t, object, 0);
    if (is_unlocked(mark) && hash_of(mark))
        add_hash(data, hash_of(mark));
}

/* The next number that is no object's hash. `taken` rises. */
struct painter { struct hashes taken; uint64_t next, seen; };

static uint64_t fresh_hash(struct painter *p)
{
    p->next++;
    while (p->seen < p->taken.count && p->taken.items[p->seen] <= p->next)
        if (p->taken.items[p->seen++] == p->next)
            p->next++;
    return p->next;
}

static void paint_object(uint64_t object, void *data)
{
    uint64_t mark = AT(uint64_t, object, 0);
    if (is_unlocked(mark) && !hash_of(mark))
        AT(uint64_t, object, 0) = mark | fresh_hash(data) << hash_shift;
}

static void paint(void)
{
    struct painter painter = {0};
    each_object(note_hash, &painter.taken);
    qsort(painter.taken.items, painter.taken.count, 8, compare);
    each_object(paint_object, &painter);
    free(painter.taken.items);
}

/* ---- the copy */

static void put(FILE *f, uint64_t word)
{
    fwrite(&word, 8, 1, f);
}

/* What the slot of a JNI global reference holds. Its low bits say what kind it is. */
static uint64_t slot(jobject root)
{
    return *(uint64_t *)((uint64_t)root & ~UINT64_C(3));
}

static void put_head(FILE *f)
{
    put(f, COPY_MAGIC);
    put(f, hash_shift);
    put(f, mirror_size_at);
    put(f, *(int32_t *)static_at("java_lang_Class", "_static_oop_field_count_offset"));
    put(f, referent_at);
    put(f, discovered_at);
    put(f, clock_at);
    put(f, slot(soft_reference));
}

static void put_spaces(FILE *f)
{
    put(f, space_count);
    for (int s = 0; s < space_count; s++) {
        fwrite(spaces[s].name, 16, 1, f);
        put(f, spaces[s].bottom);
        put(f, spaces[s].top);
        fwrite((void *)spaces[s].bottom, 1, spaces[s].top - spaces[s].bottom, f);
    }
}

static void put_klass(FILE *f, uint64_t klass)
{
    char name[256];
    name_of(klass, name);
    int32_t layout = AT(int32_t, klass, layout_at);
    bool is_array = layout < 0;
    int blocks = is_array ? 0 : AT(int32_t, klass, offset_of("InstanceKlass", "_nonstatic_oop_map_size"));
    put(f, klass);
    put(f, (int64_t)layout);
    put(f, AT(uint64_t, klass, offset_of("Klass", "_super")));
    put(f, blocks);
    /* The blocks of references stand after the class itself and its tables of virtual and interface methods. */
    uint64_t tables = AT(int32_t, klass, offset_of("Klass", "_vtable_len"));
    if (!is_array)
        tables += AT(int32_t, klass, offset_of("InstanceKlass", "_itable_len"));
    uint64_t at = klass + size_of_type("InstanceKlass") + 8 * tables;
    for (int b = 0; b < blocks; b++)
        put(f, AT(uint64_t, at, 8 * b));
    put(f, strlen(name));
    fwrite(name, strlen(name), 1, f);
}

static void write_copy(const char *name)
{
    char path[600];
    snprintf(path, sizeof path, "%s/%s.raw", folder, name);
    FILE *f = fopen(path, "wb");
    if (!f)
        die("cannot create", path);
    put_head(f);
    put_spaces(f);
    put(f, root_count);
    for (int i = 0; i < root_count; i++)
        put(f, slot(roots[i]));
    put(f, klass_count);
    for (int i = 0; i < KLASS_SLOTS; i++)
        if (klasses[i])
            put_klass(f, klasses[i]);
    put(f, COPY_MAGIC);
    if (ferror(f) | fclose(f))
        die("cannot write", path);
}

/* After a young collection eden is empty, but for the object for which there was no room, still without a header. */
static void leave_out_eden(void)
{
    int kept = 0;
    for (int s = 0; s < space_count; s++)
        if (strncmp(spaces[s].name, "eden", 4))
            spaces[kept++] = spaces[s];
    space_count = kept;
}

static void JNICALL on_start(jvmtiEnv *jvmti)
{
    (void)jvmti;
    if (state != ARMED)
        return;
    state = COLLECTING;
    find_spaces();
    find_layouts();
    paint();
    write_copy("before");
}

static void JNICALL on_finish(jvmtiEnv *jvmti)
{
    (void)jvmti;
    if (state != COLLECTING)
        return;
    state = DONE;
    find_spaces();
    find_layouts();
    if (is_young)
        leave_out_eden();
    each_object(visit_nothing, NULL); /* sees the classes */
    write_copy("after");
}

/* ---- what Zoo.java calls */

/* An instance field's id is its offset, and two bits below it. */
static uint64_t offset_of_java(JNIEnv *env, jclass class, const char *field, const char *type)
{
    return (uint64_t)(*env)->GetFieldID(env, class, field, type) >> 2;
}

JNIEXPORT void JNICALL Java_Zoo_arm(JNIEnv *env, jclass zoo, jstring into, jboolean young, jclass soft, jlong clock)
{
    (void)zoo;
    const char *path = (*env)->GetStringUTFChars(env, into, NULL);
    snprintf(folder, sizeof folder, "%s", path);
    (*env)->ReleaseStringUTFChars(env, into, path);
    jclass reference = (*env)->FindClass(env, "java/lang/ref/Reference");
    referent_at = offset_of_java(env, reference, "referent", "Ljava/lang/Object;");
    discovered_at = offset_of_java(env, reference, "discovered", "Ljava/lang/ref/Reference;");
    clock_at = (uint64_t)clock;
    soft_reference = (*env)->NewGlobalRef(env, soft);
    is_young = young;
    state = ARMED;
}

JNIEXPORT jboolean JNICALL Java_Zoo_isDone(JNIEnv *env, jclass zoo)
{
    (void)env;
    (void)zoo;
    return state == DONE;
}

JNIEXPORT void JNICALL Java_Zoo_root(JNIEnv *env, jclass zoo, jobject object)
{
    (void)zoo;
    if (root_count == MOST_ROOTS)
        die("too many", "roots");
    roots[root_count++] = (*env)->NewGlobalRef(env, object);
}

JNIEXPORT jint JNICALL Agent_OnLoad(JavaVM *vm, char *options, void *reserved)
{
    (void)options;
    (void)reserved;
    jvmtiEnv *jvmti;
    if ((*vm)->GetEnv(vm, (void **)&jvmti, JVMTI_VERSION_1_2))
        return 1;
    jvmtiCapabilities wanted = {.can_generate_garbage_collection_events = 1};
    jvmtiEventCallbacks calls = {.GarbageCollectionStart = on_start, .GarbageCollectionFinish = on_finish};
    return (*jvmti)->AddCapabilities(jvmti, &wanted)
        || (*jvmti)->SetEventCallbacks(jvmti, &calls, sizeof calls)
        || (*jvmti)->SetEventNotificationMode(jvmti, JVMTI_ENABLE, JVMTI_EVENT_GARBAGE_COLLECTION_START, NULL)
        || (*jvmti)->SetEventNotificationMode(jvmti, JVMTI_ENABLE, JVMTI_EVENT_GARBAGE_COLLECTION_FINISH, NULL);
}
