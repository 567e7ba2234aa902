// A job is a workload on so many units with a schedule to its end; how it is run and timed.
#ifndef JOBS_H
#define JOBS_H
#include "../library/include/kurvneist.h"
#include "engine.h"
#include "timing.h"
#include "workload.h"

enum { LONGEST = 1 << 24 };

// How long a timing takes at least, in nanoseconds.
static double least_timing = 1e6;

typedef struct {
    const workload *w;
    uint8_t units;
    const uint8_t *schedule;
    size_t entries;
} job;

typedef struct {
    uint8_t refusal, work[KURVNEIST_WORK_LENGTH], net[KURVNEIST_NET_LENGTH], output[KURVNEIST_OUTPUT_LENGTH];
    uint64_t answer[KURVNEIST_ANSWER_LENGTH];
} result;

static void run(reducer *reduce, const job *j, result *r) {
    r->refusal = reduce(j->w->packed.bytes, packed_length(&j->w->packed), j->w->line, j->w->length, j->units, UINT32_MAX, 0, j->schedule, j->entries,
        r->work, sizeof r->work, r->net, sizeof r->net, r->output, sizeof r->output, r->answer);
}

// Nanoseconds for one run.
static double timed(reducer *reduce, const job *j, int inner) {
    static result r;
    double start = spent();
    for (int i = 0; i < inner; i++) run(reduce, j, &r);
    return (spent() - start) / inner;
}

// How many runs a timing needs.
static int inner_of(reducer *reduce, const job *j) {
    double once = timed(reduce, j, 1);
    for (int inner = 1;; inner *= 2) {
        once = timed(reduce, j, inner);
        if (once * inner >= least_timing / 2 || inner >= 1 << 16) return once * inner >= least_timing ? inner : 1 + (int)(least_timing / once);
    }
}

// A schedule of units in turn, as long as the run, which has to finish.
static job job_of(reducer *reduce, const workload *w, uint8_t units) {
    static uint8_t turns[9][LONGEST];
    static result r;
    job j = {w, units, turns[units], LONGEST};
    if (units > 1 && !turns[units][1])
        for (size_t i = 0; i < LONGEST; i++) turns[units][i] = (uint8_t)(i % units);
    run(reduce, &j, &r);
    if (r.refusal || r.answer[KURVNEIST_ENDING] != KURVNEIST_FINISHED) {
        printf("%s: refusal %u, ending %u\n", w->name, r.refusal, (unsigned)r.answer[KURVNEIST_ENDING]);
        exit(1);
    }
    j.entries = r.answer[KURVNEIST_ENTRIES];
    return j;
}
#endif
