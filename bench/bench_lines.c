// Many lines by one book: kurvneist_reduce for each line against kurvneist_reduce_lines for many, and the same of the unverified engines of engine.c. Prints a
// line for each measurement and writes the same to a file of tab-separated fields, for bench/report.
#include "lines.h"
#include "long_books.h"
#include "net.h"
#include "reader.h"
#include "spread.h"
#include "workload.h"

enum { LINES = MOST_LINES, ENTRIES = 1 << 20 };

// How long a timing takes at least, and all timings of a row together, in nanoseconds.
static double least_timing = 1e6, row_time = 1.5e9;
static FILE *fields;

// Lines by a book on one unit, all in one batch.
typedef struct {
    const char *name;
    unsigned symbols, rules;
    batch all;
    size_t starts[LINES + 1]; // of the lines, each behind its length
    double entries, rewrites; // of a line, on average
} line_set;

// Making lines.

static uint8_t bytes[LINES * (2 + SYMBOLS)];

static void begin(line_set *s, const char *name, unsigned symbols, unsigned rules, const packer *book) {
    static const uint8_t schedule[ENTRIES]; // unit 0 throughout
    *s = (line_set){.name = name, .symbols = symbols, .rules = rules};
    s->all = (batch){book->bytes, bytes, schedule, packed_length(book), 0, ENTRIES, MOST_ROOM, UINT32_MAX, 0, 1};
}

static void add_line(line_set *s, unsigned i, const uint8_t *line, size_t length) {
    s->starts[i] = s->all.lines_length;
    s->starts[i + 1] = s->all.lines_length = put_line(bytes, s->starts[i], line, length);
}

static uint64_t number_at(const uint8_t *at, unsigned n) {
    uint64_t value = 0;
    for (unsigned i = 0; i < n; i++) value = value << 8 | at[i];
    return value;
}

// What records tell: each run has to finish. The schedule gets as long as the longest.
static void finish(line_set *s) {
    static batch_result r;
    run_batch(c_reduce_lines, &s->all, &r);
    size_t at = 0, longest = 0;
    for (; at < r.done[DONE_WRITTEN] && !number_at(r.answers + at, 2); at += 32 + number_at(r.answers + at + 30, 2)) {
        size_t entries = number_at(r.answers + at + 6, 8);
        if (entries > longest) longest = entries;
        s->entries += (double)entries / LINES;
        s->rewrites += (double)number_at(r.answers + at + 2, 4) / LINES;
    }
    s->all.schedule_length = longest;
    if (r.done[DONE_LINES] == LINES && at == r.done[DONE_WRITTEN] && same_records(&s->all)) return;
    printf("%s: a run doesn't finish, or the records differ\n", s->name);
    exit(1);
}

// Payee lines of exactly so many symbols, by a book that drops so many words.
static void make_payees(line_set *s, unsigned symbols, unsigned words) {
    static workload w;
    memset(&w, 0, sizeof w);
    make_payee(&w, symbols, words);
    begin(s, "payee", symbols, w.book.rules, &ready(&w)->packed);
    for (unsigned i = 0; i < LINES; i++) {
        do {
            w.length = 0;
            append_payee(&w, symbols);
        } while (w.length != symbols);
        add_line(s, i, w.line, w.length);
    }
    finish(s);
}

static uint8_t draw_constant(const tables *t) {
    unsigned o;
    do o = draw(t->operators);
    while (t->arities[o]);
    return (uint8_t)o;
}

// The left side of a rule, whose variables stand once each, with constants for them.
static size_t make_match(const packer *book, const tables *t, unsigned rule, uint8_t *line) {
    size_t n = 0, at = t->lefts[rule];
    for (unsigned due = 1; due > 0; due--) {
        unsigned s = net_symbol(book->bytes, packed_length(book), at);
        at += net_width(s);
        line[n] = s & NET_VARIABLE ? draw_constant(t) : (uint8_t)s;
        due += t->arities[line[n++]];
    }
    return n;
}

// Lines that rules of the longest sides match.
static void make_longest(line_set *s) {
    static tables t;
    const packer *book = &books[UNDATED];
    make_books();
    if (c_read_book(book->bytes, packed_length(book), 0, &t)) abort();
    begin(s, "longest", LONG_SIDE, LONG_RULES, book);
    for (unsigned i = 0; i < LINES; i++) {
        uint8_t line[LONG_SIDE];
        add_line(s, i, line, make_match(book, &t, draw(LONG_RULES), line));
    }
    finish(s);
}

// Timing.

// The ways to have all lines reduced, those that are compared one after the other.
enum { EACH, ALL, C_ALL, C_EACH, PACKED_ALL, WAYS };

static const struct {
    reducer *each;
    lines_reducer *all;
} ways[WAYS] = {{kurvneist_reduce, NULL}, {NULL, kurvneist_reduce_lines}, {NULL, c_reduce_lines}, {c_reduce, NULL}, {NULL, c_reduce_lines_packed}};

static double times[WAYS][MOST_TURNS];

static void call_for_each(reducer *reduce, const line_set *s) {
    static line_result r;
    for (unsigned i = 0; i < LINES; i++) run_line(reduce, &s->all, bytes + s->starts[i] + 2, s->starts[i + 1] - s->starts[i] - 2, &r);
}

static void call_for_many(lines_reducer *reduce, const line_set *s, unsigned a_call) {
    static batch_result r;
    batch some = s->all;
    for (unsigned i = 0; i < LINES; i += a_call) {
        some.lines = bytes + s->starts[i];
        some.lines_length = s->starts[i + a_call] - s->starts[i];
        run_batch(reduce, &some, &r);
    }
}

// Nanoseconds for a line.
static double timed(int way, const line_set *s, unsigned a_call, int inner) {
    double start = spent();
    for (int i = 0; i < inner; i++) ways[way].each ? call_for_each(ways[way].each, s) : call_for_many(ways[way].all, s, a_call);
    return (spent() - start) / inner / LINES;
}

static int time_in_turn(const line_set *s, unsigned a_call) {
    int inner[WAYS], turns = 0;
    for (int way = 0; way < WAYS; way++) inner[way] = 1 + (int)(least_timing / LINES / timed(way, s, a_call, 1));
    double start = now();
    for (; turns < MOST_TURNS && (turns < 11 || now() - start < row_time); turns++)
        for (int way = 0; way < WAYS; way++) times[way][turns] = timed(way, s, a_call, inner[way]);
    return turns;
}

static void print_ratio(const char *what, spread s) { printf(", %s %.2f [%.2f %.2f]", what, s.median, s.low, s.high); }

// One row: the lines in calls of so many.
static void row(const line_set *s, unsigned a_call) {
    int turns = time_in_turn(s, a_call);
    spread each = spread_of(times[EACH], turns), all = spread_of(times[ALL], turns), gain = ratio_of(times[EACH], times[ALL], turns);
    spread c_each = spread_of(times[C_EACH], turns), c_all = spread_of(times[C_ALL], turns), c_gain = ratio_of(times[C_EACH], times[C_ALL], turns);
    spread by_c = ratio_of(times[ALL], times[C_ALL], turns), by_packed = ratio_of(times[ALL], times[PACKED_ALL], turns);
    printf("%-9s %4u lines a call, %u symbols, %u rules, %.1f entries, %.1f rewrites", s->name, a_call, s->symbols, s->rules, s->entries, s->rewrites);
    printf(": one call each %.0f ns a line, for all %.0f; C %.0f and %.0f", each.median, all.median, c_each.median, c_all.median);
    print_ratio("times as many", gain), print_ratio("C's", c_gain), print_ratio("/ C", by_c), print_ratio("/ packed C", by_packed);
    printf(" (%d turns)\n", turns);
    fflush(stdout);
    fprintf(fields, "lines\t%s\t%u\t%u\t%u\t%.1f\t%.1f\t%d", s->name, a_call, s->symbols, s->rules, s->entries, s->rewrites, turns);
    const spread all_of_row[] = {each, all, gain, c_each, c_all, c_gain, by_c, by_packed};
    for (size_t i = 0; i < sizeof all_of_row / sizeof *all_of_row; i++) put_spread(fields, all_of_row[i]);
    fprintf(fields, "\n");
}

// bench_lines FILE [quick] writes the fields to FILE.
int main(int argc, char **argv) {
    static line_set s;
    if (argc < 2 || !(fields = fopen(argv[1], "w"))) return 2;
    if (argc == 3) least_timing = 2e5, row_time = 1e8;
    make_payees(&s, 32, 5);
    for (unsigned a_call = 1; a_call <= LINES; a_call *= 10) row(&s, a_call);
    make_payees(&s, 16, 5), row(&s, LINES);
    make_payees(&s, 64, 5), row(&s, LINES);
    make_payees(&s, 32, 203), row(&s, LINES);
    make_longest(&s), row(&s, LINES);
    return fclose(fields) != 0;
}
