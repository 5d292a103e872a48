/* What the agent must know of HotSpot: where its heap's spaces are, and how long an object is. All offsets come from
 * gHotSpotVMStructs and its sisters, the tables that libjvm exports for debuggers (jhsdb reads them too), so one agent
 * serves several JDKs and collectors. Nothing here calls the VM; it only reads memory, inside a pause. */
#ifndef HOTSPOT_H
#define HOTSPOT_H

#define _GNU_SOURCE
#include <dlfcn.h>
#include <stdbool.h>
#include <stdint.h>
#include <stdio.h>
#include <string.h>
#include <unistd.h>

#define AT(type, pointer, offset) (*(type *)((char *)(pointer) + (offset)))

static void die(const char *why, const char *what)
{
    fprintf(stderr, "agent: %s %s\n", why, what);
    _exit(3);
}

/* ---- the tables */

static uint64_t exported(const char *symbol)
{
    uint64_t *p = dlsym(RTLD_DEFAULT, symbol);
    if (!p)
        die("libjvm does not export", symbol);
    return *p;
}

/* The row of the field, or NULL. */
static char *row_of(const char *type, const char *field)
{
    char *row = (char *)exported("gHotSpotVMStructs");
    uint64_t t = exported("gHotSpotVMStructEntryTypeNameOffset"), f = exported("gHotSpotVMStructEntryFieldNameOffset");
    for (; AT(char *, row, t); row += exported("gHotSpotVMStructEntryArrayStride"))
        if (!strcmp(AT(char *, row, t), type) && !strcmp(AT(char *, row, f), field))
            return row;
    return NULL;
}

/* The type's name in this JDK: of two names that which has the field. */
static const char *either(const char *newer, const char *older, const char *field)
{
    return row_of(newer, field) ? newer : older;
}

static uint64_t offset_of(const char *type, const char *field)
{
    char *row = row_of(type, field);
    if (!row)
        die("no field", field);
    return AT(uint64_t, row, exported("gHotSpotVMStructEntryOffsetOffset"));
}

/* Where the static field stands, or NULL. */
static void *static_at(const char *type, const char *field)
{
    char *row = row_of(type, field);
    return row ? AT(void *, row, exported("gHotSpotVMStructEntryAddressOffset")) : NULL;
}

static uint64_t size_of_type(const char *type)
{
    char *row = (char *)exported("gHotSpotVMTypes");
    uint64_t t = exported("gHotSpotVMTypeEntryTypeNameOffset");
    for (; AT(char *, row, t); row += exported("gHotSpotVMTypeEntryArrayStride"))
        if (!strcmp(AT(char *, row, t), type))
            return AT(uint64_t, row, exported("gHotSpotVMTypeEntrySizeOffset"));
    die("no type", type);
    return 0;
}

static uint64_t long_constant(const char *name)
{
    char *row = (char *)exported("gHotSpotVMLongConstants");
    uint64_t n = exported("gHotSpotVMLongConstantEntryNameOffset");
    for (; AT(char *, row, n); row += exported("gHotSpotVMLongConstantEntryArrayStride"))
        if (!strcmp(AT(char *, row, n), name))
            return AT(uint64_t, row, exported("gHotSpotVMLongConstantEntryValueOffset"));
    die("no constant", name);
    return 0;
}

static int32_t int_constant(const char *name)
{
    char *row = (char *)exported("gHotSpotVMIntConstants");
    uint64_t n = exported("gHotSpotVMIntConstantEntryNameOffset");
    for (; AT(char *, row, n); row += exported("gHotSpotVMIntConstantEntryArrayStride"))
        if (!strcmp(AT(char *, row, n), name))
            return AT(int32_t, row, exported("gHotSpotVMIntConstantEntryValueOffset"));
    die("no constant", name);
    return 0;
}

/* ---- the spaces, in the order in which a full collection goes through them: old, eden, from, to; G1: by number */

struct space { char name[16]; uint64_t bottom, top; };
#define MOST_SPACES 4096
static struct space spaces[MOST_SPACES];
static int space_count;

static void add_space(const char *name, void *space, const char *low, const char *high)
{
    if (space_count == MOST_SPACES)
        die("too many", "spaces");
    struct space *s = &spaces[space_count++];
    snprintf(s->name, sizeof s->name, "%s", name);
    s->bottom = AT(uint64_t, space, offset_of(low, "_bottom"));
    s->top = AT(uint64_t, space, offset_of(high, "_top"));
}

static int32_t tag_of(const char *kind, const char *tag)
{
    char name[64];
    snprintf(name, sizeof name, "%s::%s", kind, tag);
    return int_constant(name);
}

/* Each region in use is a space, with its kind and its number as a name. */
static void find_regions(void *heap)
{
    const char *region = either("G1HeapRegion", "HeapRegion", "_bottom");
    const char *manager = either("G1HeapRegionManager", "HeapRegionManager", "_regions");
    const char *kind = either("G1HeapRegionType", "HeapRegionType", "_tag");
    int32_t eden = tag_of(kind, "EdenTag"), survivor = tag_of(kind, "SurvTag");
    int32_t humongous = tag_of(kind, "StartsHumongousTag");
    uint64_t tag_at = offset_of(region, "_type") + offset_of(kind, "_tag");
    char *table = (char *)heap + offset_of("G1CollectedHeap", "_hrm") + offset_of(manager, "_regions");
    void **regions = AT(void **, table, offset_of("G1HeapRegionTable", "_base"));
    uint64_t length = AT(uint64_t, table, offset_of("G1HeapRegionTable", "_length"));
    for (unsigned i = 0; i < length && i < MOST_SPACES; i++) {
        void *r = regions[i];
        if (!r || AT(uint64_t, r, offset_of(region, "_bottom")) == AT(uint64_t, r, offset_of(region, "_top")))
            continue;
        int32_t tag = AT(int32_t, r, tag_at);
        if (tag == humongous)
            die("not provided for:", "a humongous object");
        char name[16];
        snprintf(name, sizeof name, "%s%u", tag == eden ? "eden" : tag == survivor ? "survivor" : "old", i);
        add_space(name, r, region, region);
    }
}

/* The same of Shenandoah. In a pause that no concurrent collection began before, no object has a second copy. */
static void find_shenandoah(void *heap)
{
    const char *region = "ShenandoahHeapRegion";
    void **regions = AT(void **, heap, offset_of("ShenandoahHeap", "_regions"));
    uint64_t length = AT(uint64_t, heap, offset_of("ShenandoahHeap", "_num_regions"));
    int32_t humongous = tag_of(region, "_humongous_start"), pinned = tag_of(region, "_pinned_humongous_start");
    for (unsigned i = 0; i < length; i++) {
        void *r = regions[i];
        if (AT(uint64_t, r, offset_of(region, "_bottom")) == AT(uint64_t, r, offset_of(region, "_top")))
            continue;
        int32_t state = AT(int32_t, r, offset_of(region, "_state"));
        if (state == humongous || state == pinned)
            die("not provided for:", "a humongous object");
        char name[16];
        snprintf(name, sizeof name, "region%u", i);
        add_space(name, r, region, region);
    }
}

static void find_spaces(void)
{
    void *heap = *(void **)static_at("Universe", "_collectedHeap");
    uint64_t *shenandoah = static_at("ShenandoahHeapRegion", "RegionSizeBytes");
    void **parallel = static_at("ParallelScavengeHeap", "_old_gen");
    void **g1 = static_at("HeapRegion", "GrainBytes");
    if (!g1)
        g1 = static_at("G1HeapRegion", "GrainBytes");
    space_count = 0;
    if (g1 && *g1) {
        find_regions(heap);
    } else if (shenandoah && *shenandoah) {
        find_shenandoah(heap);
    } else if (parallel && *parallel) {
        void *young = *(void **)static_at("ParallelScavengeHeap", "_young_gen");
        const char *space = "MutableSpace";
        add_space("old", AT(void *, *parallel, offset_of("PSOldGen", "_object_space")), space, space);
        add_space("eden", AT(void *, young, offset_of("PSYoungGen", "_eden_space")), space, space);
        add_space("from", AT(void *, young, offset_of("PSYoungGen", "_from_space")), space, space);
        add_space("to", AT(void *, young, offset_of("PSYoungGen", "_to_space")), space, space);
    } else {
        const char *serial = either("SerialHeap", "GenCollectedHeap", "_old_gen");
        const char *low = either("ContiguousSpace", "Space", "_bottom"), *high = "ContiguousSpace";
        void *old = AT(void *, heap, offset_of(serial, "_old_gen"));
        void *young = AT(void *, heap, offset_of(serial, "_young_gen"));
        add_space("old", AT(void *, old, offset_of("TenuredGeneration", "_the_space")), low, high);
        add_space("eden", AT(void *, young, offset_of("DefNewGeneration", "_eden_space")), low, high);
        add_space("from", AT(void *, young, offset_of("DefNewGeneration", "_from_space")), low, high);
        add_space("to", AT(void *, young, offset_of("DefNewGeneration", "_to_space")), low, high);
    }
}

/* ---- the classes of the objects that were seen */

#define KLASS_SLOTS 65536
static uint64_t klasses[KLASS_SLOTS], mirror_klass;
static int klass_count;

static void name_of(uint64_t klass, char name[256])
{
    char *symbol = AT(char *, klass, offset_of("Klass", "_name"));
    int length = symbol ? AT(uint16_t, symbol, offset_of("Symbol", "_length")) : 0;
    if (length > 255)
        length = 255;
    if (length)
        memcpy(name, symbol + offset_of("Symbol", "_body"), length);
    name[length] = 0;
}

static void see_klass(uint64_t klass)
{
    uint64_t i = (klass >> 3) * UINT64_C(0x9E3779B97F4A7C15) >> 48;
    while (klasses[i] && klasses[i] != klass)
        i = (i + 1) % KLASS_SLOTS;
    if (klasses[i])
        return;
    if (++klass_count > KLASS_SLOTS / 2)
        die("too many", "classes");
    klasses[i] = klass;
    char name[256];
    name_of(klass, name);
    if (!strcmp(name, "java/lang/Class"))
        mirror_klass = klass;
    uint64_t super = AT(uint64_t, klass, offset_of("Klass", "_super"));
    if (super)
        see_klass(super);
}

/* ---- objects: word 0 is the mark word, word 1 the klass, and of an array a length follows */

static uint64_t layout_at, mirror_size_at, hash_shift;

static void find_layouts(void)
{
    layout_at = offset_of("Klass", "_layout_helper");
    mirror_size_at = *(int32_t *)static_at("java_lang_Class", "_oop_size_offset");
    hash_shift = long_constant("markWord::hash_shift");
    memset(klasses, 0, sizeof klasses);
    klass_count = 0;
}

/* How many words the object has. Its class is then one of those that were seen. */
static uint64_t size_of_object(uint64_t object)
{
    uint64_t klass = AT(uint64_t, object, 8);
    see_klass(klass);
    int32_t layout = AT(int32_t, klass, layout_at);
    if (klass == mirror_klass)
        return AT(int32_t, object, mirror_size_at);
    if (layout > 0)
        return (layout & ~7) / 8;
    uint64_t length = AT(uint32_t, object, 16);
    return ((length << (layout & 0xff)) + (layout >> 16 & 0xff) + 7) / 8;
}

#endif
