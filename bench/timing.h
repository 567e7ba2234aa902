// Times in nanoseconds: the clock's, the thread's own, and the median and quartiles of many.
#ifndef TIMING_H
#define TIMING_H
#include <stdio.h>
#include <stdlib.h>
#include <time.h>

static double clock_of(clockid_t id) {
    struct timespec t;
    clock_gettime(id, &t);
    return 1e9 * (double)t.tv_sec + (double)t.tv_nsec;
}

static inline double now(void) { return clock_of(CLOCK_MONOTONIC); }

// The thread's own time, so that what else the machine does weighs less.
static double spent(void) { return clock_of(CLOCK_THREAD_CPUTIME_ID); }

static int by_size(const void *a, const void *b) {
    double x = *(const double *)a, y = *(const double *)b;
    return (x > y) - (x < y);
}

// Sorts the times, and prints their least, median and quartiles.
static inline void report(const char *name, double *times, int count) {
    qsort(times, (size_t)count, sizeof *times, by_size);
    printf("%-8s least %8.0f ns, median %8.0f, quartiles %8.0f and %8.0f\n", name, times[0], times[count / 2], times[count / 4], times[3 * count / 4]);
}

// The median of the ratios of times that were taken one after the other, so that a busy machine weighs on both; and the ratio of the least times.
static inline void compare(double *ours, double *theirs, int count) {
    double *ratios = malloc((size_t)count * sizeof *ratios);
    if (!ratios) abort();
    for (int i = 0; i < count; i++) ratios[i] = ours[i] / theirs[i];
    qsort(ratios, (size_t)count, sizeof *ratios, by_size);
    report("rattle", ours, count);
    report("c", theirs, count);
    printf("ratio    %.2f (of the least times %.2f)\n", ratios[count / 2], ours[0] / theirs[0]);
    free(ratios);
}
#endif
