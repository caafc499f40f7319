// A library for LD_PRELOAD that refuses one growth of the memory of a proved program, which takes it by malloc and realloc alone, and counts the blocks that it
// holds. REFUSED_GROWTH in the environment is that growth's number, counted from 1 once the libraries are loaded. The failure is printed on standard output, and at
// the end how many blocks are left. The functions of glibc behind malloc, realloc and free have the names below.
#include <stdio.h>
#include <stdlib.h>

void *__libc_malloc(size_t size);
void *__libc_realloc(void *memory, size_t size);
void __libc_free(void *memory);

// How many growths there are up to the one to refuse; 0 where none is left to refuse.
static long growths_left, blocks;

__attribute__((constructor)) static void read_environment(void) {
    const char *number = getenv("REFUSED_GROWTH");
    growths_left = number ? strtol(number, NULL, 10) : 0;
    blocks = 0;
}

__attribute__((destructor)) static void tell_blocks(void) {
    dprintf(1, "blocks left: %ld\n", blocks);
}

// Counts a growth, and returns whether it is the one to refuse.
static _Bool is_refused(void) {
    return growths_left > 0 && --growths_left == 0 && dprintf(1, "growth refused\n");
}

void *malloc(size_t size) {
    void *memory = is_refused() ? NULL : __libc_malloc(size);
    blocks += memory != NULL;
    return memory;
}

void *realloc(void *memory, size_t size) {
    void *grown = is_refused() ? NULL : __libc_realloc(memory, size);
    blocks += memory == NULL && grown != NULL;
    return grown;
}

void free(void *memory) {
    blocks -= memory != NULL;
    __libc_free(memory);
}
