/* The allocator of the archive, three calls over malloc, realloc and free, and its version. The three are weak: a
   program that defines all of them has its own. A size of 0 takes a block of the alignment's size, and a failed call
   answers a pointer that is not null, which nothing reads. */
#include "bale.h"
#include <stdlib.h>

#define WEAK __attribute__((weak))

typedef struct {
    bool ok;
    void *p;
} tried;

WEAK tried rattle_alloc(size_t size, size_t align);
WEAK tried rattle_realloc(void *p, size_t kept, size_t size, size_t align);
WEAK void rattle_dealloc(void *p);

static char none;

static tried tried_of(void *p) {
    tried t = {p != NULL, p != NULL ? p : &none};
    return t;
}

tried rattle_alloc(size_t size, size_t align) { return tried_of(malloc(size != 0 ? size : align)); }

tried rattle_realloc(void *p, size_t kept, size_t size, size_t align) {
    (void)kept;
    return tried_of(realloc(p, size != 0 ? size : align));
}

void rattle_dealloc(void *p) { free(p); }

#ifdef BALE_UNPROVED
const char *bale_version(void) { return BALE_VERSION " (unproved)"; }
#else
const char *bale_version(void) { return BALE_VERSION; }
#endif
