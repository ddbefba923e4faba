/* Refuses the request for memory whose number is in REFUSE_AT, the first being 1, and with REFUSE_LATER all later ones too, and
   writes at the end to REFUSE_COUNT how many requests came. It is preloaded by tests/refusals. */
#define _GNU_SOURCE
#include "preload.h"

__attribute__((constructor)) static void begin(void) { read_number("REFUSE_AT", "REFUSE_LATER"); }

static int refused(void) {
    calls++;
    return at && (calls == at || (later && calls > at));
}

void *malloc(size_t size) { NEXT(malloc); return refused() ? NULL : next(size); }
void *realloc(void *old, size_t size) { NEXT(realloc); return refused() ? NULL : next(old, size); }
void *aligned_alloc(size_t align, size_t size) { NEXT(aligned_alloc); return refused() ? NULL : next(align, size); }
int posix_memalign(void **out, size_t align, size_t size) { NEXT(posix_memalign); return refused() ? 12 : next(out, align, size); }

__attribute__((destructor)) static void end(void) { write_counts("REFUSE_COUNT", -1); }
