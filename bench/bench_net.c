// The library's building of a net against the unverified one of net.h, and against reading the same book, on books whose left sides part early and late.
#include "long_books.h"
#include "net.h"
#include "reader.h"
#include "timing.h"
#include "workload.h"

enum { TURNS = 301, NETS = 6 };

// How long the timings of one turn take about, in nanoseconds.
static const double TURN = 1e5;

uint8_t bench_book_read(const uint8_t *book, size_t len, uint16_t day, uint8_t *operators, uint32_t *rules);
void bench_rule_build(const uint8_t *book, size_t len, const uint8_t *operators, const uint32_t *rules, uint8_t *net, size_t net_length);

typedef struct {
    uint8_t operators[4352];
    uint32_t rules[512];
    uint8_t net[3840];
} library;

typedef struct {
    tables t;
    net n;
} unverified;

static library ours;
static unverified theirs;

static void read_ours(const packer *p) {
    if (bench_book_read(p->bytes, packed_length(p), LONG_DAY, ours.operators, ours.rules)) abort();
}

static void build_ours(const packer *p) { bench_rule_build(p->bytes, packed_length(p), ours.operators, ours.rules, ours.net, sizeof ours.net); }

static void read_theirs(const packer *p) {
    if (c_read_book(p->bytes, packed_length(p), LONG_DAY, &theirs.t)) abort();
}

static void build_theirs(const packer *p) { net_build(&theirs.n, p->bytes, packed_length(p), theirs.t.lefts, theirs.t.rules, theirs.t.arities); }

typedef void work_on_book(const packer *);

static double timed(work_on_book *f, const packer *p, int inner) {
    double start = spent();
    for (int i = 0; i < inner; i++) f(p);
    return (spent() - start) / inner;
}

static int inner_of(work_on_book *f, const packer *p) { return 1 + (int)(TURN / timed(f, p, 20)); }

// Both have the same roots, depths, paths and buckets, which stand first in both areas.
static int same(const packer *p) {
    read_ours(p), read_theirs(p);
    memset(ours.net, 0xa5, sizeof ours.net);
    memset(&theirs.n, 0xa5, sizeof theirs.n);
    build_ours(p), build_theirs(p);
    return !memcmp(ours.net, &theirs.n, offsetof(net, next));
}

static double quartile(double *times, int of_four) {
    qsort(times, TURNS, sizeof *times, by_size);
    return times[TURNS * of_four / 4];
}

// One book: timings in turn, and how long building takes against reading.
static void time_book(const char *title, const packer *p) {
    static double reading[TURNS], building[TURNS], c_building[TURNS], ratios[TURNS];
    int a = inner_of(read_ours, p), b = inner_of(build_ours, p), c = inner_of(build_theirs, p);
    for (int i = 0; i < TURNS; i++) {
        reading[i] = timed(read_ours, p, a);
        building[i] = timed(build_ours, p, b);
        c_building[i] = timed(build_theirs, p, c);
        ratios[i] = building[i] / reading[i];
    }
    printf("building the net of %s; the same net\n", title);
    compare(building, c_building, TURNS);
    printf("reading takes %.0f ns; building / reading %.2f (%.2f to %.2f) of %s\n", quartile(reading, 2), quartile(ratios, 2), quartile(ratios, 1),
        quartile(ratios, 3), title);
}

int main(void) {
    static workload payees[3];
    make_books();
    make_payee(&payees[0], 200, 203);
    make_payee(&payees[1], 200, 5);
    make_roots(&payees[2], 200);
    const packer *of[NETS] = {&ready(&payees[0])->packed, &ready(&payees[1])->packed, &ready(&payees[2])->packed, &books[UNDATED], &books[EARLY], &books[LATE]};
    static const char *const titles[NETS] = {"the payee book of 255 rules", "the payee book of 57 rules", "a book of 52 rules, one a root",
        "255 rules of 64 symbols that part early, without a day", "255 rules of 64 symbols that part early, with a day",
        "255 rules of 64 symbols that part at the last one, with a day"};
    for (int i = 0; i < NETS; i++)
        if (!same(of[i])) {
            printf("the nets differ: %s\n", titles[i]);
            return 1;
        }
    for (int i = 0; i < NETS; i++) {
        read_ours(of[i]), read_theirs(of[i]);
        time_book(titles[i], of[i]);
    }
    return 0;
}
