/* version_text.c: what the archive was made of and proved by. tools/join hands it the lines as COMPRESSOR_TOLD, and
   links it into the archive. */
#include "compressor.h"

#ifndef COMPRESSOR_TOLD
#define COMPRESSOR_TOLD "proof    not known: nobody told what this was made of, or what proved it\n"
#endif

const char *compressor_version_text(void) { return "compressor " COMPRESSOR_VERSION_TEXT "\n" COMPRESSOR_TOLD; }
