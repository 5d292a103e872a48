/* marking.c: the marker of ../concurrent: a runtime copies it, and marking.h, beside touch_heap.c. */
#include "../concurrent/marking.c"
