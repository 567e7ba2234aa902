// kurvneist_reduce against the unverified engines of engine.c and, where it is installed, Maude: whole runs, what a run costs at least, its stack.
// Prints a line for each measurement and writes the same to a file of tab-separated fields, for bench/report.
#include "jobs.h"
#include "spread.h"
#include <pthread.h>

enum { STACK = 1 << 20 };

// How long all timings of a row take together, in nanoseconds, and Maude's turns.
static double row_time = 6e8;
static int maude_turns = 9;
static FILE *fields;

// Runs.

// The answer that all three give.
static void same_answer(const job *j, result *r) {
    static result other;
    reducer *const others[] = {c_reduce_packed, kurvneist_reduce};
    memset(r, 0xa5, sizeof *r);
    run(c_reduce, j, r);
    for (int i = 0; i < 2; i++) {
        memset(&other, 0xa5, sizeof other);
        run(others[i], j, &other);
        if (memcmp(r, &other, sizeof other)) {
            printf("%s, %u units: the answers differ\n", j->w->name, j->units);
            exit(1);
        }
    }
}

static double library[MOST_TURNS], decoded[MOST_TURNS], packed[MOST_TURNS], library_base[MOST_TURNS], decoded_base[MOST_TURNS];

// Timings in turn, also of a base to take off, where there is one; how many turns.
static int time_in_turn(const job *j, const job *base) {
    int a = inner_of(kurvneist_reduce, j), b = inner_of(c_reduce, j), c = inner_of(c_reduce_packed, j), turns = 0;
    double start = now();
    while (turns < MOST_TURNS && (turns < 11 || now() - start < row_time)) {
        library[turns] = timed(kurvneist_reduce, j, a);
        if (base) library_base[turns] = timed(kurvneist_reduce, base, a);
        decoded[turns] = timed(c_reduce, j, b);
        if (base) decoded_base[turns] = timed(c_reduce, base, b);
        packed[turns] = timed(c_reduce_packed, j, c);
        turns++;
    }
    return turns;
}

typedef struct {
    const char *kind;
    const workload *w;
    unsigned parameter, units; // the parameter is what grows, where something does
    double entries, rewrites;
    unsigned granted; // of Maude its rewrites
    int turns;
} row_head;

static row_head head_of(const char *kind, const job *j, unsigned parameter, const result *r) {
    double entries = (double)r->answer[KURVNEIST_ENTRIES], rewrites = (double)r->answer[KURVNEIST_REWRITES];
    return (row_head){kind, j->w, parameter, j->units, entries, rewrites, (unsigned)r->answer[KURVNEIST_GRANTED], 0};
}

// The fields that rows begin with.
static void put_head(const row_head *h) {
    fprintf(fields, "%s\t%s\t%s\t%u\t%u", h->kind, h->w->name, h->w->title, h->parameter, h->units);
    fprintf(fields, "\t%zu\t%zu", h->w->length, packed_length(&h->w->packed));
    fprintf(fields, "\t%.0f\t%.0f\t%u\t%d", h->entries, h->rewrites, h->granted, h->turns);
}

static void print_row(const row_head *h, spread ns, spread by_c, spread by_packed) {
    printf("%-9s %4u U=%u %7.0f entries %4.0f rewrites %4u granted", h->w->name, h->parameter, h->units, h->entries, h->rewrites, h->granted);
    printf(" %8.2f us [%.2f %.2f] %6.1f ns/entry", ns.median / 1e3, ns.low / 1e3, ns.high / 1e3, ns.median / h->entries);
    printf(" %6.2f M entries/s %5.2f M rewrites/s", 1e3 * h->entries / ns.median, 1e3 * h->rewrites / ns.median);
    printf(" %7.0f postings/s", 1e9 / ns.median);
    printf("  / C %.2f [%.2f %.2f]", by_c.median, by_c.low, by_c.high);
    printf("  / packed C %.2f [%.2f %.2f] (%d turns)\n", by_packed.median, by_packed.low, by_packed.high, h->turns);
    fflush(stdout);
}

// What is above the base, of the library and of C, and the base itself.
static void put_above(int turns) {
    spread ours = difference_of(library, library_base, turns), c = difference_of(decoded, decoded_base, turns);
    spread base = spread_of(library_base, turns), c_base = spread_of(decoded_base, turns);
    printf("%-9s above its base: %.0f ns [%.0f %.0f], C %.0f [%.0f %.0f]", "", ours.median, ours.low, ours.high, c.median, c.low, c.high);
    printf("; the base: %.0f ns, C %.0f\n", base.median, c_base.median);
    put_spread(fields, ours);
    put_spread(fields, c);
    put_spread(fields, base);
    put_spread(fields, c_base);
}

// One row: a workload on so many units, and what it takes above a base, where there is one.
static void row(const char *kind, const workload *w, const workload *base, unsigned parameter, uint8_t units) {
    static result r;
    job j = job_of(c_reduce, w, units), least = base ? job_of(c_reduce, base, units) : j;
    same_answer(&j, &r);
    row_head h = head_of(kind, &j, parameter, &r);
    h.turns = time_in_turn(&j, base ? &least : NULL);
    spread ns = spread_of(library, h.turns), by_c = ratio_of(library, decoded, h.turns), by_packed = ratio_of(library, packed, h.turns);
    print_row(&h, ns, by_c, by_packed);
    put_head(&h);
    put_spread(fields, ns);
    put_spread(fields, spread_of(decoded, h.turns));
    put_spread(fields, by_c);
    put_spread(fields, by_packed);
    if (base) put_above(h.turns);
    fprintf(fields, "\n");
}

// Maude.

// Writes the module, and the commands to reduce the line once and several times.
static void write_module(const workload *w, const char *path, unsigned lines) {
    FILE *f = fopen(path, "w");
    if (!f) { perror(path); exit(1); }
    print_module(w, f);
    fprintf(f, "red line .\nred several(more^%u(none)) .\nquit\n", lines - 1);
    fclose(f);
}

// Maude's rewrites and milliseconds of the two commands, and the first one's result. 0 where Maude is missing.
static int ask_maude(const char *path, unsigned long *rewrites, double *ms, char *first, size_t room) {
    char command[512], *text = NULL;
    size_t size = 0;
    int commands = 0;
    snprintf(command, sizeof command, "maude -no-banner -no-advise -no-wrap -batch %s </dev/null 2>/dev/null", path);
    FILE *f = popen(command, "r");
    if (!f) return 0;
    while (getline(&text, &size, f) > 0) {
        unsigned long n, cpu;
        if (commands < 2 && sscanf(text, "rewrites: %lu in %lums cpu", &n, &cpu) == 2) {
            rewrites[commands] = n;
            ms[commands++] = (double)cpu;
        }
        if (commands == 1 && !strncmp(text, "result T: ", 10)) snprintf(first, room, "%s", text + 10);
    }
    free(text);
    return pclose(f) == 0 && commands == 2;
}

// Maude's result without blanks is the library's term?
static int same_term(const workload *w, const result *r, const char *text) {
    char *expected = NULL;
    size_t size = 0, k = 0;
    FILE *f = open_memstream(&expected, &size);
    print_term(w, r->output, 0, f);
    fclose(f);
    for (; *text; text++)
        if (*text != ' ' && *text != '\n' && (k >= size || *text != expected[k++])) break;
    int same = !*text && k == size;
    free(expected);
    return same;
}

// Lines enough for a twentieth of a second in Maude.
static unsigned lines_for(const workload *w, const result *r, const char *path) {
    static char text[1 << 16];
    unsigned long rewrites[2];
    double ms[2];
    for (unsigned lines = 64;; lines *= 4) {
        write_module(w, path, lines);
        if (!ask_maude(path, rewrites, ms, text, sizeof text)) return 0;
        // Maude keeps equal parts of the line once, and may so need fewer rewrites
        if (rewrites[0] > r->answer[KURVNEIST_REWRITES] + 1 || rewrites[1] != lines * (rewrites[0] + 2) - 1 || !same_term(w, r, text)) {
            printf("%s: Maude differs: %lu rewrites, %s\n", w->name, rewrites[0] - 1, text);
            exit(1);
        }
        if (ms[1] >= 50 || lines >= 1 << 14) return lines;
    }
}

static double maude_times[MOST_TURNS];

// A library of before many lines by one book has no such function; then each line reads the book.
__attribute__((weak)) lines_reducer kurvneist_reduce_lines;

enum { A_CALL = 64 };

// Nanoseconds for a line of A_CALL by one book, which is read once, as Maude's module is.
static double timed_by_one_book(const job *j, int inner) {
    static uint8_t lines[A_CALL * (2 + 1024)], answers[A_CALL * KURVNEIST_LONGEST_RECORD];
    static result r;
    uint64_t done[KURVNEIST_DONE_LENGTH];
    size_t length = 0;
    if (!kurvneist_reduce_lines) return timed(kurvneist_reduce, j, inner);
    for (int i = 0; i < A_CALL; i++) {
        lines[length++] = (uint8_t)(j->w->length / 256);
        lines[length++] = (uint8_t)(j->w->length % 256);
        memcpy(lines + length, j->w->line, j->w->length);
        length += j->w->length;
    }
    int calls = 1 + inner / A_CALL;
    double start = spent();
    for (int i = 0; i < calls; i++) {
        if (kurvneist_reduce_lines(j->w->packed.bytes, packed_length(&j->w->packed), lines, length, j->units, UINT32_MAX, 0, j->schedule, j->entries, r.work,
                sizeof r.work, r.net, sizeof r.net, answers, sizeof answers, done) || done[KURVNEIST_DONE_LINES] != A_CALL) {
            printf("%s: not all lines are done\n", j->w->name);
            exit(1);
        }
    }
    return (spent() - start) / calls / A_CALL;
}

// Timings of the library and of Maude in turn; the rewrites that Maude makes on a line.
static unsigned long time_with_maude(const job *j, const char *path, unsigned lines) {
    static char text[1 << 16];
    unsigned long rewrites[2] = {0, 0};
    double ms[2];
    int inner = 20 * inner_of(kurvneist_reduce, j);
    for (int i = 0; i < maude_turns; i++) {
        library[i] = timed_by_one_book(j, inner);
        if (!ask_maude(path, rewrites, ms, text, sizeof text)) exit(1);
        maude_times[i] = 1e6 * ms[1] / lines;
    }
    return rewrites[0] - 1;
}

static void maude_row(const workload *w) {
    static result r;
    const char *path = "target/bench/book.maude";
    job j = job_of(c_reduce, w, 1);
    same_answer(&j, &r);
    unsigned lines = lines_for(w, &r, path);
    if (!lines) {
        printf("%-9s no Maude here\n", w->name);
        return;
    }
    row_head h = head_of("maude", &j, 0, &r);
    h.granted = (unsigned)time_with_maude(&j, path, lines);
    h.turns = maude_turns;
    spread maude = spread_of(maude_times, maude_turns), ratio = ratio_of(library, maude_times, maude_turns);
    printf("%-9s Maude %8.2f us a line [%.2f %.2f], %u rewrites", w->name, maude.median / 1e3, maude.low / 1e3, maude.high / 1e3, h.granted);
    printf(", %.2f M rewrites/s; kurvneist / Maude %.2f", 1e3 * h.granted / maude.median, ratio.median);
    printf(" [%.2f %.2f] (%d turns, %u lines)\n", ratio.low, ratio.high, maude_turns, lines);
    fflush(stdout);
    put_head(&h);
    put_spread(fields, spread_of(library, maude_turns));
    put_spread(fields, maude);
    put_spread(fields, ratio);
    fprintf(fields, "\n");
}

// What a run costs at least.

static void clear_work(uint8_t *work) {
    memset(work, 0, KURVNEIST_WORK_LENGTH);
    __asm__ volatile("" : : "r"(work) : "memory");
}

static double timed_clear(int inner) {
    static uint8_t work[KURVNEIST_WORK_LENGTH];
    double start = spent();
    for (int i = 0; i < inner; i++) clear_work(work);
    return (spent() - start) / inner;
}

// tick(end), by the book of document 01's example.
static void make_least(workload *w) {
    draft *d = &w->book;
    uint16_t end = DEFAULT(d, "end", 0), tick = DEFAULT(d, "tick", 1), both = GIVEN(d, "both", 2, OPEN, 1, 2, CLOSE, 0);
    add_rule(d, ROW(both, end, VAR(1)), ROW(VAR(1)));
    add_rule(d, ROW(both, tick, VAR(0), VAR(1)), ROW(tick, both, VAR(0), VAR(1)));
    w->name = "least";
    w->title = "two symbols";
    append(w, tick), append(w, end);
    pack(d, &w->packed);
}

// A run on a line of two symbols against clearing the work area once.
static void least_cost(void) {
    static workload w;
    static result r;
    static double clear[MOST_TURNS];
    enum { TURNS = 201, INNER = 500 };
    make_least(&w);
    job j = job_of(c_reduce, &w, 1);
    same_answer(&j, &r);
    for (int i = 0; i < TURNS; i++) {
        library[i] = timed(kurvneist_reduce, &j, INNER);
        clear[i] = timed_clear(INNER);
        decoded[i] = timed(c_reduce, &j, INNER);
    }
    spread ns = spread_of(library, TURNS), clearing = spread_of(clear, TURNS);
    spread ratio = ratio_of(library, clear, TURNS), c_ratio = ratio_of(decoded, clear, TURNS);
    printf("least cost: %zu entries on a line of two symbols %.0f ns [%.0f %.0f]", j.entries, ns.median, ns.low, ns.high);
    printf("; clearing %d bytes %.0f ns", KURVNEIST_WORK_LENGTH, clearing.median);
    printf("; ratio %.2f [%.2f %.2f], of C %.2f\n", ratio.median, ratio.low, ratio.high, c_ratio.median);
    fprintf(fields, "least\t%zu\t%d", j.entries, TURNS);
    put_spread(fields, ns), put_spread(fields, clearing), put_spread(fields, ratio), put_spread(fields, c_ratio);
    fprintf(fields, "\n");
}

// The stack of a run: the lowest byte of a painted stack that it wrote to.

typedef struct {
    reducer *reduce;
    const job *j;
    uint8_t *frame;
} stack_test;

static void *on_stack(void *argument) {
    static result r;
    stack_test *t = argument;
    t->frame = __builtin_frame_address(0);
    run(t->reduce, t->j, &r);
    return NULL;
}

static size_t stack_of(reducer *reduce, const job *j) {
    static uint8_t stack[STACK] __attribute__((aligned(4096)));
    stack_test t = {reduce, j, NULL};
    pthread_t thread;
    pthread_attr_t attributes;
    memset(stack, 0xa5, sizeof stack);
    pthread_attr_init(&attributes);
    if (pthread_attr_setstack(&attributes, stack, sizeof stack)) abort();
    if (pthread_create(&thread, &attributes, on_stack, &t) || pthread_join(thread, NULL)) abort();
    size_t low = 0;
    while (stack[low] == 0xa5) low++;
    return (size_t)(t.frame - (stack + low));
}

static void stack_row(const workload *w) {
    job j = job_of(c_reduce, w, 8);
    size_t ours = stack_of(kurvneist_reduce, &j), c = stack_of(c_reduce, &j);
    printf("stack: %zu bytes (C %zu)\n", ours, c);
    fprintf(fields, "stack\t%zu\t%zu\n", ours, c);
}

// Everything.

static workload main_workloads[MAIN_WORKLOADS];

static const workload *main_workload(const char *name) {
    for (int i = 0; i < MAIN_WORKLOADS; i++)
        if (!strcmp(main_workloads[i].name, name)) return &main_workloads[i];
    printf("no workload %s\n", name);
    exit(2);
}

static void growth(void) {
    static const unsigned symbols[] = {16, 32, 64, 128, 256, 512, 1000}, rules[] = {1, 2, 4, 8, 16, 32, 64, 128, 255};
    static workload w, base;
    for (unsigned i = 0; i < sizeof symbols / sizeof *symbols; i++) {
        memset(&w, 0, sizeof w);
        make_payee(&w, symbols[i], 5);
        row("length", ready(&w), NULL, symbols[i], 1);
    }
    for (unsigned i = 0; i < sizeof rules / sizeof *rules; i++) {
        memset(&w, 0, sizeof w);
        memset(&base, 0, sizeof base);
        make_rules(&w, rules[i]);
        make_rules_base(&base, rules[i]);
        row("rules", ready(&w), ready(&base), rules[i], 1);
    }
    for (uint8_t units = 1; units <= 8; units++) row("units", main_workload("payee1000"), NULL, units, units);
    for (uint8_t units = 1; units <= 8; units++) row("units", main_workload("sort"), NULL, units, units);
}

// Two payees that differ in the first letter, in another, in none. The first is the base of the others.
static void equal_parts(void) {
    static const unsigned letters[] = {4, 16, 64, 125, 250, 500};
    static workload base, w;
    for (unsigned i = 0; i < sizeof letters / sizeof *letters; i++) {
        unsigned n = letters[i], others[] = {n / 2, n, 0};
        memset(&base, 0, sizeof base);
        make_both(&base, n, 1);
        row("equal", ready(&base), NULL, n, 1);
        for (unsigned k = n == 500 ? 0 : 2; k < 3; k++) {
            memset(&w, 0, sizeof w);
            make_both(&w, n, others[k]);
            row("equal", ready(&w), &base, n, 1);
        }
    }
}

// A single workload over and over, for a profiler.
static void repeat(const char *name, uint8_t units, double seconds) {
    static result r;
    job j = job_of(c_reduce, main_workload(name), units);
    for (double start = now(); now() - start < 1e9 * seconds;) run(kurvneist_reduce, &j, &r);
}

// bench_run FILE [quick] writes the fields to FILE; bench_run - WORKLOAD UNITS SECONDS repeats a workload.
int main(int argc, char **argv) {
    make_workloads(main_workloads);
    if (argc == 5) {
        repeat(argv[2], (uint8_t)atoi(argv[3]), atof(argv[4]));
        return 0;
    }
    if (argc < 2 || !(fields = fopen(argv[1], "w"))) return 2;
    if (argc == 3) least_timing = 2e5, row_time = 5e7, maude_turns = 3;
    least_cost();
    stack_row(&main_workloads[0]);
    for (int i = 0; i < MAIN_WORKLOADS; i++)
        for (uint8_t units = 1; units <= 8; units += 7) row("run", &main_workloads[i], NULL, 0, units);
    for (int i = 0; i < MAIN_WORKLOADS; i++) maude_row(&main_workloads[i]);
    growth();
    equal_parts();
    return fclose(fields) != 0;
}
