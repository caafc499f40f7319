/* As much of a C library as bindings/c/test.c needs in a WebAssembly module, over the allocator of the module. What is printed lies at `printed`, and ends
 * with a 0. */
#include <pthread.h>
#include <stdint.h>
#include <stdio.h>
#include <stdlib.h>
#include <string.h>

typedef __builtin_va_list va_list;

enum { MOST_PRINTED = 65536 };

static char text[MOST_PRINTED];
static int length;

static void print_character(char character) {
    if (length + 1 < MOST_PRINTED) text[length++] = character;
}

static void print_number(int number) {
    if (number < 0) print_character('-');
    unsigned rest = number < 0 ? 0u - (unsigned)number : (unsigned)number;
    unsigned place = 1;
    while (rest / place >= 10) place *= 10;
    for (; place > 0; place /= 10) print_character((char)('0' + rest / place % 10));
}

/* With %s and %d alone. */
int printf(const char *format, ...) {
    va_list arguments;
    __builtin_va_start(arguments, format);
    for (; *format; format++) {
        if (*format != '%') {
            print_character(*format);
        } else if (*++format == 's') {
            for (const char *each = __builtin_va_arg(arguments, const char *); *each; each++) print_character(*each);
        } else if (*format == 'd') {
            print_number(__builtin_va_arg(arguments, int));
        } else {
            __builtin_trap();
        }
    }
    __builtin_va_end(arguments);
    return 0;
}

void *i_shape_take(size_t size);
void i_shape_give(void *at);

void *malloc(size_t size) {
    return i_shape_take(size);
}

void free(void *at) {
    if (at) i_shape_give(at);
}

void abort(void) {
    __builtin_trap();
}

void *memset(void *at, int byte, size_t size) {
    for (volatile unsigned char *to = at; size > 0; size--) *to++ = (unsigned char)byte;
    return at;
}

int memcmp(const void *a, const void *b, size_t size) {
    for (const unsigned char *x = a, *y = b; size > 0; size--, x++, y++)
        if (*x != *y) return *x < *y ? -1 : 1;
    return 0;
}

int pthread_create(pthread_t *thread, const void *attributes, void *(*run)(void *), void *argument) {
    (void)attributes;
    *thread = 0;
    run(argument);
    return 0;
}

int pthread_join(pthread_t thread, void **answer) {
    (void)thread;
    (void)answer;
    return 0;
}

int main(void);

int run(void) {
    return main();
}

const char *printed(void) {
    return text;
}
