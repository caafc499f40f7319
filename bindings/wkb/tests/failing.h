/* In place of the C library's allocator: the growth whose number is failing, none at 0, fails, and blocks that are held are counted. One file of a program
 * includes it. */
#include "../../c/allocator.h"

#include <stdlib.h>

static size_t growths, failing, blocks;

static struct tried grown(void *old, size_t size) {
    void *at = ++growths == failing ? NULL : realloc(old, size ? size : 1);
    blocks += at && !old;
    return tried(at);
}

struct tried rattle_alloc(size_t size, size_t align) {
    (void)align;
    return grown(NULL, size);
}

struct tried rattle_realloc(void *at, size_t kept, size_t size, size_t align) {
    (void)kept;
    (void)align;
    return grown(at, size);
}

void rattle_dealloc(void *at) {
    blocks--;
    free(at);
}
