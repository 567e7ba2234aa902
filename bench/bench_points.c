// Runs with a name: kurvneist_park against kurvneist_reduce, with an empty buffer of points and with eight full slots; beside that, what C takes to read the books of
// eight such slots alone; and a run that is cut, and so saved. Prints a line for each measurement and writes the same to a file of tab-separated fields, for bench/report.
#include "../library/include/kurvneist.h"
#include "long_books.h"
#include "reader.h"
#include "spread.h"
#include "workload.h"

// PAYEE is the main workload of 200 symbols by 57 rules.
enum { PAYEE = 3, ENTRIES = 1 << 20, SLOT = KURVNEIST_POINTS_LENGTH / KURVNEIST_MOST_NAMES };

// How long a timing takes at least, and all timings of a row together, in nanoseconds.
static double least_timing = 1e6, row_time = 1.5e9;
static FILE *fields;

static const uint8_t schedule[ENTRIES]; // unit 0 throughout

// A line by a book, cut in the middle, on one unit.
typedef struct {
    const char *title;
    const packer *book;
    const uint8_t *line;
    size_t length, entries, middle;
    uint64_t rewrites;
} run;

typedef struct {
    uint8_t refusal, output[KURVNEIST_OUTPUT_LENGTH];
    uint64_t answer[KURVNEIST_ANSWER_LENGTH];
} result;

// Areas and points: none, and eight slots that are full.

static uint8_t work[KURVNEIST_WORK_LENGTH], net[KURVNEIST_NET_LENGTH];
static uint8_t empty[KURVNEIST_POINTS_LENGTH], full[KURVNEIST_POINTS_LENGTH];

static const uint8_t names[KURVNEIST_MOST_NAMES] = "abcdefgh"; // a byte each

static void reduce(const run *r, size_t entries, result *to) {
    to->refusal = kurvneist_reduce(r->book->bytes, packed_length(r->book), r->line, r->length, 1, UINT32_MAX, LONG_DAY, schedule, entries, work, sizeof work, net,
        sizeof net, to->output, sizeof to->output, to->answer);
}

static void park(const run *r, size_t entries, const uint8_t *name, uint8_t *points, result *to) {
    to->refusal = kurvneist_park(r->book->bytes, packed_length(r->book), r->line, r->length, 1, UINT32_MAX, LONG_DAY, schedule, entries, name, 1, work, sizeof work,
        net, sizeof net, points, KURVNEIST_POINTS_LENGTH, to->output, sizeof to->output, to->answer);
}

static int ends(const result *r, unsigned ending) { return !r->refusal && r->answer[KURVNEIST_ENDING] == ending; }

static void stop(const char *why) {
    printf("%s\n", why);
    exit(1);
}

// Making runs.

// A workload's line, to its end.
static void make_line_run(const workload *w, run *r) {
    static result to;
    *r = (run){.title = w->title, .book = &w->packed, .line = w->line, .length = w->length};
    reduce(r, ENTRIES, &to);
    if (!ends(&to, KURVNEIST_FINISHED)) stop("a line doesn't finish");
    r->entries = to.answer[KURVNEIST_ENTRIES];
    r->rewrites = to.answer[KURVNEIST_REWRITES];
    r->middle = r->entries / 2;
}

// The bytes of a slot up to the last one that isn't zero.
static size_t used(const uint8_t *slot) {
    size_t n = SLOT;
    while (n && !slot[n - 1]) n--;
    return n;
}

// Where the run's point has the most bytes, with as many frames as there are symbols in work.
static void find_middle(run *r) {
    static uint8_t points[KURVNEIST_POINTS_LENGTH];
    static result to;
    size_t most = 0;
    for (size_t entries = 32; entries <= 4096; entries += 32) {
        memset(points, 0, SLOT);
        park(r, entries, names, points, &to);
        if (!ends(&to, KURVNEIST_CUT)) break;
        if (used(points) > most) most = used(points), r->middle = entries;
    }
    if (!most) stop("the longest book's line isn't cut");
}

// A part in a part, as deep as 1,024 symbols go: an operator with its other arguments, which are constants, and the next part last.
static void make_deep_run(run *r, const char *title, int book, unsigned operator, unsigned arity, unsigned constant) {
    static uint8_t lines[BOOKS][SYMBOLS];
    uint8_t *line = lines[book];
    size_t n = 0;
    while (n + 2 * arity + 1 <= SYMBOLS) {
        line[n++] = (uint8_t)operator;
        for (unsigned i = 1; i < arity; i++, n++) line[n] = (uint8_t)(constant + n % 2);
    }
    line[n++] = (uint8_t)constant;
    *r = (run){.title = title, .book = &books[book], .line = line, .length = n};
    find_middle(r);
}

// Eight points of a run in its middle; the bytes of one.
static size_t fill(const run *r) {
    static result to;
    memset(full, 0, sizeof full);
    for (unsigned i = 0; i < KURVNEIST_MOST_NAMES; i++) {
        park(r, r->middle, names + i, full, &to);
        if (!ends(&to, KURVNEIST_CUT)) stop("a run that fills a slot isn't cut");
    }
    return used(full);
}

// Timing.

// To the end without a name, with one beside no points, and beside eight; then in the middle without a name, and saved; and the eight books read by C.
enum { UNNAMED, EMPTY, FULL, CUT, SAVED, CALLS, C_READS = CALLS, WAYS };

static const packer *slot_book; // of the eight full slots

static double times[WAYS][MOST_TURNS];

// On the day 0 no rule of a dated book stands, so that none has to be found.
static void c_reads(void) {
    static tables t;
    for (unsigned i = 0; i < KURVNEIST_MOST_NAMES; i++)
        if (c_read_book(slot_book->bytes, packed_length(slot_book), 0, &t)) stop("C refuses a book");
}

static void call(int way, const run *r, result *to) {
    switch (way) {
    case UNNAMED: reduce(r, r->entries, to); break;
    case EMPTY: park(r, r->entries, names, empty, to); break;
    case FULL: park(r, r->entries, names, full, to); break;
    case CUT: reduce(r, r->middle, to); break;
    case C_READS: c_reads(); break;
    // Of a free slot nothing but the first byte is read.
    default: empty[0] = 0, park(r, r->middle, names, empty, to), empty[0] = 0;
    }
}

static double timed(int way, const run *r, int inner) {
    static result to;
    double start = spent();
    for (int i = 0; i < inner; i++) call(way, r, &to);
    return (spent() - start) / inner;
}

// A name changes no answer, and a run that isn't cut no point.
static void check(const run *r) {
    static uint8_t before[KURVNEIST_POINTS_LENGTH];
    static result expected, got;
    memcpy(before, full, sizeof full);
    for (int way = UNNAMED; way < CALLS; way++) {
        result *to = way == UNNAMED || way == CUT ? &expected : &got;
        memset(to, 0xa5, sizeof *to);
        call(way, r, to);
        if (!ends(to, way < CUT ? KURVNEIST_FINISHED : KURVNEIST_CUT)) stop("a run ends otherwise than it should");
        if (to == &got && memcmp(&expected, &got, sizeof got)) stop("the answers differ");
    }
    if (memcmp(before, full, sizeof full)) stop("a run that isn't cut changed a point");
}

static int time_in_turn(const run *r) {
    int inner[WAYS], turns = 0;
    for (int way = 0; way < WAYS; way++) inner[way] = 1 + (int)(least_timing / timed(way, r, 1));
    double start = now();
    for (; turns < MOST_TURNS && (turns < 11 || now() - start < row_time); turns++)
        for (int way = 0; way < WAYS; way++) times[way][turns] = timed(way, r, inner[way]);
    return turns;
}

static void print_spread(const char *what, spread s, double unit) { printf(", %s %.2f [%.2f %.2f]", what, s.median / unit, s.low / unit, s.high / unit); }

// One row: the run, beside eight points of another or of its own.
static void row(const run *r, const run *slots) {
    size_t bytes = fill(slots);
    slot_book = slots->book;
    check(r);
    int turns = time_in_turn(r);
    spread plain = spread_of(times[UNNAMED], turns), named = spread_of(times[EMPTY], turns), beside = spread_of(times[FULL], turns);
    spread by_plain = ratio_of(times[EMPTY], times[UNNAMED], turns), more = difference_of(times[FULL], times[UNNAMED], turns);
    spread cut = spread_of(times[CUT], turns), saved = spread_of(times[SAVED], turns), by_cut = ratio_of(times[SAVED], times[CUT], turns);
    spread c = spread_of(times[C_READS], turns);
    printf("%s, %zu entries; slots: %s, %zu bytes each", r->title, r->entries, slots->title, bytes);
    printf(": without a name %.2f us, with one %.2f, beside eight %.2f", plain.median / 1e3, named.median / 1e3, beside.median / 1e3);
    print_spread("with / without (goal 2)", by_plain, 1), print_spread("eight slots, us more (goal 300)", more, 1e3);
    printf("; C reads eight such books in %.2f us", c.median / 1e3);
    printf("; cut %.2f us, saved %.2f", cut.median / 1e3, saved.median / 1e3), print_spread("saved / cut (goal 2)", by_cut, 1);
    printf(" (%d turns)\n", turns);
    fflush(stdout);
    fprintf(fields, "points\t%s\t%s\t%zu\t%zu\t%zu\t%.0f\t%d", r->title, slots->title, r->length, bytes, r->entries, (double)r->rewrites, turns);
    const spread all_of_row[] = {plain, named, by_plain, beside, more, cut, saved, by_cut, c};
    for (size_t i = 0; i < sizeof all_of_row / sizeof *all_of_row; i++) put_spread(fields, all_of_row[i]);
    fprintf(fields, "\n");
}

// bench_points FILE [quick] writes the fields to FILE.
int main(int argc, char **argv) {
    static workload lines[MAIN_WORKLOADS];
    static run runs[MAIN_WORKLOADS], deep[BOOKS];
    if (argc < 2 || !(fields = fopen(argv[1], "w"))) return 2;
    if (argc == 3) least_timing = 2e5, row_time = 1e8;
    make_books();
    make_workloads(lines);
    for (int i = 0; i < MAIN_WORKLOADS; i++) make_line_run(&lines[i], &runs[i]);
    make_deep_run(&deep[UNDATED], "largest undated book", UNDATED, 1, 1, 0);
    make_deep_run(&deep[EARLY], "largest dated book", EARLY, 1, 1, 0);
    make_deep_run(&deep[LATE], "dated book whose left sides differ last", LATE, 0, 7, 2);
    for (int i = 0; i < MAIN_WORKLOADS; i++) row(&runs[i], &runs[i]);
    for (int book = UNDATED; book < BOOKS; book++) row(&runs[PAYEE], &deep[book]);
    return fclose(fields) != 0;
}
