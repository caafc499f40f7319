/* The three functions of docs/C.md, "Your own allocator", over malloc: for processors for which the Rattle kit has none. No
 * proof covers them. An align divides 16, to which malloc aligns too. */
#include "allocator.h"

#include <stdalign.h>
#include <stdlib.h>

_Static_assert(alignof(max_align_t) >= 16, "malloc aligns to 16");

struct tried rattle_alloc(size_t size, size_t align) {
    (void)align;
    return tried(malloc(size ? size : 1));
}

struct tried rattle_realloc(void *at, size_t kept, size_t size, size_t align) {
    (void)kept;
    (void)align;
    return tried(realloc(at, size ? size : 1));
}

void rattle_dealloc(void *at) {
    free(at);
}
