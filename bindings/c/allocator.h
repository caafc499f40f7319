/* The three functions of docs/C.md, "Your own allocator". */
#include <stddef.h>
#include <stdint.h>

struct tried {
    uintptr_t ok;
    void *at;
};

#ifdef __cplusplus
extern "C" {
#endif
struct tried rattle_alloc(size_t size, size_t align);
struct tried rattle_realloc(void *at, size_t kept, size_t size, size_t align);
void rattle_dealloc(void *at);
#ifdef __cplusplus
}
#endif

/* Where an allocation fails, the address is one that nothing is read from. */
static struct tried tried(void *at) {
    static char nothing;
    struct tried answer = {at != NULL, at ? at : &nothing};
    return answer;
}
