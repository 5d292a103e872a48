/* plain.c: the programs with plain loads and stores: a page that is not home traps. */
#define PROGRAMS programs_plain
#define LOAD(object, k) compressor_load(&heap_space, object, k)
#define STORE(object, k, value) compressor_store(&heap_space, object, k, value)
#define STORE_REF(m, object, k, value) heap_store(m, object, k, value)
#include "programs.c"
