/* marking.c: the marker of ../concurrent: a runtime copies it, and marking.h, beside touch.h. */
#include "../concurrent/marking.c"
