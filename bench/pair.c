// Two versions of the library in one process, timed in turn over the workloads of the benchmark. bench/pair links it and sums up what it prints: for each
// turn of a row the link order, the row's number, its kind, its name, the number of rules where it grows, the units, the nanoseconds of a run before, and how
// many times as long one takes after. Rows of the kind `line` are of what a run takes above one of a single symbol by the same book.
#include "jobs.h"

reducer before_reduce, after_reduce;

static const unsigned rules[] = {1, 2, 4, 8, 16, 32, 64, 128, 255};

enum { EQUAL = 3, GROWING = sizeof rules / sizeof *rules, WORKLOADS = MAIN_WORKLOADS + EQUAL + 2 * GROWING, ROWS = 2 * MAIN_WORKLOADS + EQUAL + GROWING };

// Each version has a schedule of its own length, since a run may take other entries where answers differ.
typedef struct {
    const char *kind;
    unsigned rules;
    job before, after, before_base, after_base; // the bases only of lines
} pair;

static workload workloads[WORKLOADS];
static pair pairs[ROWS];

static void add_pair(int row, const workload *w, uint8_t units) {
    pairs[row] = (pair){.kind = "run", .before = job_of(before_reduce, w, units), .after = job_of(after_reduce, w, units)};
}

static void add_line(int row, workload *w, workload *base, unsigned count) {
    make_rules(w, count);
    make_rules_base(base, count);
    add_pair(row, ready(w), 1);
    ready(base);
    pairs[row].kind = "line";
    pairs[row].rules = count;
    pairs[row].before_base = job_of(before_reduce, base, 1);
    pairs[row].after_base = job_of(after_reduce, base, 1);
}

static void make_pairs(void) {
    static const unsigned differing[EQUAL] = {1, 250, 0};
    workload *w = &workloads[MAIN_WORKLOADS];
    int row = 0;
    make_workloads(workloads);
    for (int i = 0; i < MAIN_WORKLOADS; i++) add_pair(row++, &workloads[i], 1), add_pair(row++, &workloads[i], 8);
    for (int i = 0; i < EQUAL; i++, w++) {
        make_both(w, 500, differing[i]);
        add_pair(row++, ready(w), 1);
    }
    for (int i = 0; i < GROWING; i++, w += 2) add_line(row++, w, w + 1, rules[i]);
}

// All but the net's area, which a version from before Change 8 is not lent.
static int same_result(const result *a, const result *b) {
    return a->refusal == b->refusal && !memcmp(a->work, b->work, sizeof a->work) && !memcmp(a->output, b->output, sizeof a->output) &&
        !memcmp(a->answer, b->answer, sizeof a->answer);
}

static int same_answer(const pair *p) {
    static result before, after;
    memset(&before, 0xa5, sizeof before);
    memset(&after, 0xa5, sizeof after);
    run(before_reduce, &p->before, &before);
    run(after_reduce, &p->after, &after);
    if (same_result(&before, &after)) return 1;
    fprintf(stderr, "%s: %s, %u units: the answers differ\n", p->before.w->name, p->before.w->title, p->before.units);
    return 0;
}

// A timing behind one that doesn't count: processors learn a run that is repeated, and the other version makes them forget it.
static double warm(reducer *reduce, const job *j, int inner) {
    timed(reduce, j, inner);
    return timed(reduce, j, inner);
}

// A run's time, of a line less that of its base.
static double time_of(reducer *reduce, const job *j, const job *base, int inner) {
    double all = warm(reduce, j, inner);
    return base->w ? all - warm(reduce, base, inner) : all;
}

static void time_row(const char *order, int row, int turns) {
    const pair *p = &pairs[row];
    const workload *w = p->before.w;
    int inner = inner_of(before_reduce, &p->before);
    for (int i = 0; i < turns; i++) {
        double before = time_of(before_reduce, &p->before, &p->before_base, inner), after = time_of(after_reduce, &p->after, &p->after_base, inner);
        printf("%s\t%d\t%s\t%s: %s", order, row + 1, p->kind, w->name, w->title);
        if (p->rules) printf(", the line alone, %u rules", p->rules);
        printf("\t%u\t%u\t%.1f\t%.5f\n", p->rules, p->before.units, before, after / before);
    }
}

// pair ORDER TURNS [--answers-differ]
int main(int argc, char **argv) {
    int same = 1;
    if (argc < 3) return 2;
    make_pairs();
    for (int row = 0; row < ROWS && argc == 3; row++) same &= same_answer(&pairs[row]);
    for (int row = 0; row < ROWS && same; row++) time_row(argv[1], row, atoi(argv[2]));
    return !same;
}
