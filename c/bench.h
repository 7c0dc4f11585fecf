/* What the programs that measure calls share. */
#ifndef BENCH_H
#define BENCH_H

#include <time.h>

/* The compiler must have written the place, and know nothing more of what is in memory. */
#define USED(place) __asm__ volatile("" : : "r"(place) : "memory")

/* The CPU time of this process so far, in nanoseconds. */
static inline double cpu_time(void) {
    struct timespec now;
    clock_gettime(CLOCK_PROCESS_CPUTIME_ID, &now);
    return now.tv_sec * 1e9 + now.tv_nsec;
}

#endif
