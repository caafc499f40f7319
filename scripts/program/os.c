/* What the program i_shape_tool asks of the system beside libc: the words that it was started with, and errno. It is for a machine for which the Rattle kit
 * has no such functions of its own. No proof covers them. */
#include <errno.h>
#include <stddef.h>
#include <stdint.h>
#include <sys/types.h>

enum { NO_WORD = -1, NO_ROOM = -2 };

ssize_t rattle_arg(size_t place, uint8_t *out, size_t room);
int32_t rattle_errno(void);
void rattle_set_errno(int32_t error);

static char **words;
static size_t word_count;

/* glibc hands what main gets to each constructor too. */
__attribute__((constructor)) static void keep_words(int count, char **given) {
    words = given;
    word_count = (size_t)count;
}

/* Writes the word at a place to the front of out and returns its length, NO_WORD where there is none at that place, or NO_ROOM where it is longer than out, which
 * is full then. */
ssize_t rattle_arg(size_t place, uint8_t *out, size_t room) {
    if (place >= word_count) return NO_WORD;
    size_t length = 0;
    for (const char *at = words[place]; *at; at++) {
        if (length == room) return NO_ROOM;
        out[length++] = (uint8_t)*at;
    }
    return (ssize_t)length;
}

int32_t rattle_errno(void) {
    return errno;
}

void rattle_set_errno(int32_t error) {
    errno = error;
}
