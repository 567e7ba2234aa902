// How long a schedule suffices: what kurvneist_bound tells of each workload beside what two and eight units in turn use, and how long it takes against a run of one unit
// with as many entries as it needs. Prints a line for each workload and writes the same to a file of tab-separated fields, for bench/report.
#include "jobs.h"
#include "spread.h"

// How long all timings of a row take together, in nanoseconds.
static double row_time = 1.5e9;
static FILE *fields;

typedef struct {
    uint64_t orders, forks, rounds;
} bound;

static uint8_t ask(const workload *w, uint64_t told[KURVNEIST_BOUND_LENGTH]) {
    static result r;
    return kurvneist_bound(w->packed.bytes, packed_length(&w->packed), w->line, w->length, UINT32_MAX, 0, r.work, sizeof r.work, r.net, sizeof r.net, told);
}

static void stop(const workload *w, const char *why) {
    printf("%s: %s\n", w->title, why);
    exit(1);
}

// What is told, which has to be what a run of one unit says.
static bound bound_of(const workload *w, const job *alone) {
    static result r;
    uint64_t told[KURVNEIST_BOUND_LENGTH];
    if (ask(w, told) || told[KURVNEIST_BOUND_ENDING] != KURVNEIST_FINISHED) stop(w, "nothing is known");
    run(kurvneist_reduce, alone, &r);
    bound b = {told[KURVNEIST_BOUND_ORDERS], told[KURVNEIST_BOUND_FORKS], told[KURVNEIST_BOUND_ORDERS] + 4 * told[KURVNEIST_BOUND_FORKS]};
    if (b.orders != alone->entries || b.forks != r.answer[KURVNEIST_GRANTED] + r.answer[KURVNEIST_KEPT]) stop(w, "S or F is not that of one unit");
    return b;
}

// The rounds that so many units in turn use, which have to be enough.
static uint64_t used(const workload *w, uint8_t units, bound b) {
    uint64_t rounds = (job_of(kurvneist_reduce, w, units).entries + units - 1) / units;
    if (rounds > b.rounds) stop(w, "the rounds don't suffice");
    return rounds;
}

static double timed_bound(const workload *w, int inner) {
    uint64_t told[KURVNEIST_BOUND_LENGTH];
    double start = spent();
    for (int i = 0; i < inner; i++) ask(w, told);
    return (spent() - start) / inner;
}

static void row(const workload *w) {
    static double ours[MOST_TURNS], runs[MOST_TURNS];
    job alone = job_of(kurvneist_reduce, w, 1);
    bound b = bound_of(w, &alone);
    uint64_t two = used(w, 2, b), eight = used(w, 8, b);
    int inner = inner_of(kurvneist_reduce, &alone), turns = 0;
    double start = now();
    for (; turns < MOST_TURNS && (turns < 11 || now() - start < row_time); turns++) {
        ours[turns] = timed_bound(w, inner);
        runs[turns] = timed(kurvneist_reduce, &alone, inner);
    }
    spread told = spread_of(ours, turns), run = spread_of(runs, turns), ratio = ratio_of(ours, runs, turns);
    printf("%s: S %.0f, F %.0f, rounds that suffice %.0f, used by two units %.0f, by eight %.0f; told in %.2f us, one unit runs %.2f us, ratio %.2f (%.2f to %.2f)\n",
        w->title, (double)b.orders, (double)b.forks, (double)b.rounds, (double)two, (double)eight, told.median / 1e3, run.median / 1e3, ratio.median, ratio.low, ratio.high);
    fflush(stdout);
    fprintf(fields, "bound\t%s\t%.0f\t%.0f\t%.0f\t%.0f\t%.0f\t%d", w->title, (double)b.orders, (double)b.forks, (double)b.rounds, (double)two, (double)eight, turns);
    put_spread(fields, told), put_spread(fields, run), put_spread(fields, ratio);
    fprintf(fields, "\n");
}

// bench_bound FILE [quick] writes the fields to FILE.
int main(int argc, char **argv) {
    static workload workloads[MAIN_WORKLOADS];
    make_workloads(workloads);
    if (argc < 2 || !(fields = fopen(argv[1], "w"))) return 2;
    if (argc == 3) least_timing = 2e5, row_time = 5e7;
    for (int i = 0; i < MAIN_WORKLOADS; i++) row(&workloads[i]);
    return fclose(fields) != 0;
}
