// The median and quartiles of many timings, of their ratios and differences, and how they are written for bench/report.
#ifndef SPREAD_H
#define SPREAD_H
#include "timing.h"
#include <string.h>

enum { MOST_TURNS = 401 };

typedef struct {
    double low, median, high;
} spread;

static spread spread_of(const double *values, int count) {
    static double sorted[MOST_TURNS];
    memcpy(sorted, values, (size_t)count * sizeof *values);
    qsort(sorted, (size_t)count, sizeof *sorted, by_size);
    return (spread){sorted[count / 4], sorted[count / 2], sorted[3 * count / 4]};
}

static spread ratio_of(const double *upper, const double *lower, int count) {
    static double ratios[MOST_TURNS];
    for (int i = 0; i < count; i++) ratios[i] = upper[i] / lower[i];
    return spread_of(ratios, count);
}

static inline spread difference_of(const double *more, const double *less, int count) {
    static double differences[MOST_TURNS];
    for (int i = 0; i < count; i++) differences[i] = more[i] - less[i];
    return spread_of(differences, count);
}

static void put_spread(FILE *fields, spread s) { fprintf(fields, "\t%.6g\t%.6g\t%.6g", s.low, s.median, s.high); }
#endif
