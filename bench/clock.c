/* The clock that the rounds switch on and off. */
#define _POSIX_C_SOURCE 200809L
#include <time.h>

static double since, taken;

static double now(void)
{
    struct timespec t;
    clock_gettime(CLOCK_MONOTONIC, &t);
    return (double)t.tv_sec * 1e9 + (double)t.tv_nsec;
}

void bench_clock_on(void)
{
    since = now();
}

void bench_clock_off(void)
{
    taken += now() - since;
}

/* The nanoseconds taken since the last question. */
double bench_clock_taken(void)
{
    double sum = taken;
    taken = 0;
    return sum;
}
