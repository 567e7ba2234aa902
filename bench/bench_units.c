// How eight units share a run where FORK takes the idle unit of the lowest number, as before Change 9, and where it takes the one idle longest; and what both
// take in C. The library doesn't tell which unit did what, so the unverified engine of engine.c counts. Prints what it measures and writes the same to a file
// of tab-separated fields, for bench/report.
#include "jobs.h"
#include "spread.h"

enum { UNITS = 8, LINES = 64 };

// How long all timings of a row take together, in nanoseconds.
static double row_time = 6e8;
static FILE *fields;

unit_counts counted;

// The rules for FORK, and the engines that have them.
enum { BEFORE, AFTER, RULES };

static reducer *const timed_by[RULES] = {c_reduce_lowest, c_reduce}, *const counted_by[RULES] = {c_reduce_lowest_counted, c_reduce_counted};
static const char *const rule_names[RULES] = {"lowest number", "idle longest"};

// Counting.

// Runs of one line or more by one of the rules, and what they count together.
typedef struct {
    job jobs[LINES];
    size_t entries, granted;
    unit_counts counts;
} share;

static void fail(const workload *w, const char *what) {
    printf("%s: %s\n", w->name, what);
    exit(1);
}

static void same_answer(reducer *reduce, const job *j, const result *r, const char *otherwise) {
    static result other;
    memset(&other, 0xa5, sizeof other);
    run(reduce, j, &other);
    if (memcmp(r, &other, sizeof other)) fail(j->w, otherwise);
}

// A line's run; before it unit 0 alone is busy.
static void add_run(share *s, int line, const workload *w, int rule, result *r) {
    job *j = &s->jobs[line];
    *j = job_of(timed_by[rule], w, UNITS);
    memset(r, 0xa5, sizeof *r);
    counted = s->counts;
    for (int u = 0; u < UNITS; u++) counted.busy[u] = u == 0;
    run(counted_by[rule], j, r);
    s->counts = counted;
    s->entries += r->answer[KURVNEIST_ENTRIES];
    s->granted += r->answer[KURVNEIST_GRANTED];
    same_answer(timed_by[rule], j, r, "counting changes the answer");
}

// Finished runs by both rules have the same term and rewrites.
static int same_posting(const result *a, const result *b) {
    return a->answer[KURVNEIST_REWRITES] == b->answer[KURVNEIST_REWRITES] && a->answer[KURVNEIST_LENGTH] == b->answer[KURVNEIST_LENGTH] &&
        !memcmp(a->output, b->output, a->answer[KURVNEIST_LENGTH]);
}

static void add_line(share *shares, int line, const workload *w) {
    static result r[RULES];
    for (int rule = 0; rule < RULES; rule++) add_run(&shares[rule], line, w, rule, &r[rule]);
    same_answer(kurvneist_reduce, &shares[AFTER].jobs[line], &r[AFTER], "the library's answer differs");
    if (!same_posting(&r[BEFORE], &r[AFTER])) fail(w, "the rules give different terms or rewrites");
}

static void put_share(const share *s, int rule) {
    size_t orders = 0, busiest = 0, least = SIZE_MAX, at_work = 0;
    for (int u = 0; u < UNITS; u++) {
        size_t n = s->counts.orders[u];
        orders += n;
        at_work += n > 0;
        if (n > busiest) busiest = n;
        if (n < least) least = n;
    }
    printf("  %-13s %7zu entries %5zu granted %6zu orders, of the units", rule_names[rule], s->entries, s->granted, orders);
    for (int u = 0; u < UNITS; u++) printf(" %.1f", 100.0 * (double)s->counts.orders[u] / (double)orders);
    printf(" %%, %zu changes\n", s->counts.changes);
    fprintf(fields, "\t%zu\t%zu\t%zu\t%zu\t%zu\t%zu\t%zu", s->entries, s->granted, orders, busiest, least, at_work, s->counts.changes);
}

// Timing.

static double times[RULES][MOST_TURNS];

// Nanoseconds for a line.
static double timed_lines(int rule, const job *jobs, int lines, int inner) {
    static result r;
    double start = spent();
    for (int i = 0; i < inner; i++)
        for (int line = 0; line < lines; line++) run(timed_by[rule], &jobs[line], &r);
    return (spent() - start) / inner / lines;
}

static int time_in_turn(const share *shares, int lines) {
    int inner = 1 + inner_of(timed_by[BEFORE], &shares[BEFORE].jobs[0]) / lines, turns = 0;
    double start = now();
    for (; turns < MOST_TURNS && (turns < 11 || now() - start < row_time); turns++)
        for (int rule = 0; rule < RULES; rule++) times[rule][turns] = timed_lines(rule, shares[rule].jobs, lines, inner);
    return turns;
}

// One row: a workload's line over and over, or different lines one after another.
static void row(const workload *w, int lines, const char *title) {
    static share shares[RULES];
    memset(shares, 0, sizeof shares);
    for (int line = 0; line < lines; line++) add_line(shares, line, &w[line]);
    int turns = time_in_turn(shares, lines);
    spread before = spread_of(times[BEFORE], turns), after = spread_of(times[AFTER], turns), ratio = ratio_of(times[AFTER], times[BEFORE], turns);
    printf("%s: C by the lowest number %.2f us a line, by the idle longest %.2f", title, before.median / 1e3, after.median / 1e3);
    printf(", ratio %.2f [%.2f %.2f] (%d turns)\n", ratio.median, ratio.low, ratio.high, turns);
    fprintf(fields, "share\t%s\t%s\t%d\t%d", w->name, title, lines, turns);
    for (int rule = 0; rule < RULES; rule++) put_share(&shares[rule], rule);
    put_spread(fields, before), put_spread(fields, after), put_spread(fields, ratio);
    fprintf(fields, "\n");
    fflush(stdout);
}

static void different_payees(size_t symbols, const char *title) {
    static workload payees[LINES];
    memset(payees, 0, sizeof payees);
    for (int i = 0; i < LINES; i++) {
        make_payee(&payees[i], symbols, 5);
        ready(&payees[i]);
    }
    row(payees, LINES, title);
}

// bench_units FILE [quick] writes the fields to FILE.
int main(int argc, char **argv) {
    static workload workloads[MAIN_WORKLOADS];
    make_workloads(workloads);
    if (argc < 2 || !(fields = fopen(argv[1], "w"))) return 2;
    if (argc == 3) least_timing = 2e5, row_time = 5e7;
    for (int i = 0; i < MAIN_WORKLOADS; i++) row(&workloads[i], 1, workloads[i].title);
    different_payees(200, "64 different payee lines of up to 200 symbols, 57 rules");
    different_payees(1000, "64 different payee lines of up to 1,000 symbols, 57 rules");
    return fclose(fields) != 0;
}
