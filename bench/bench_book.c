// The library's reader of books against the unverified one of reader.c, on books of 255 rules whose sides have 64 symbols each: undated; dated, with
// left sides that differ early; dated, with left sides that differ in the last symbol only, so that each is compared with the others to its end.
#include "long_books.h"
#include "reader.h"
#include "timing.h"
#include <string.h>

enum { TURNS = 301, INNER = 8 };

uint8_t bench_book_read(const uint8_t *book, size_t len, uint16_t day, uint8_t *operators, uint32_t *rules);

// The library's tables: arities and rows of steps; the positions of the rules' left sides, behind them the day, the positions of their right sides, and
// behind these how many rules stand. Positions behind the last of them are of no meaning.
typedef struct {
    uint8_t operators[4352];
    uint32_t rules[512];
} library_tables;

static int rattle_read_book(const uint8_t *book, size_t len, void *t) {
    library_tables *l = t;
    return bench_book_read(book, len, LONG_DAY, l->operators, l->rules);
}

static int unverified_read_book(const uint8_t *book, size_t len, void *t) { return c_read_book(book, len, LONG_DAY, t); }

// Do they say the same?
static int same(const library_tables *l, const tables *t) {
    if (memcmp(l->operators, t->arities, 256) || memcmp(l->operators + 256, t->laid, 4096)) return 0;
    if (l->rules[511] != t->rules) return 0;
    return !memcmp(l->rules, t->lefts, t->rules * sizeof *t->lefts) && !memcmp(l->rules + 256, t->rights, t->rules * sizeof *t->rights);
}

typedef int reader_of_books(const uint8_t *, size_t, void *);

// Nanoseconds for one reading.
static double timed(reader_of_books *read, const packer *p, void *t) {
    double start = spent();
    for (int i = 0; i < INNER; i++)
        if (read(p->bytes, packed_length(p), t)) abort();
    return (spent() - start) / INNER;
}

static library_tables ours;
static tables theirs[BOOKS];
static double rattle[BOOKS][TURNS], c[BOOKS][TURNS];

// Both readers have the same tables of each book.
static int all_same(void) {
    for (int k = 0; k < BOOKS; k++) {
        int a = rattle_read_book(books[k].bytes, packed_length(&books[k]), &ours);
        int b = unverified_read_book(books[k].bytes, packed_length(&books[k]), &theirs[k]);
        if (a || b || !same(&ours, &theirs[k])) {
            printf("the readers differ on book %d: %d and %d\n", k, a, b);
            return 0;
        }
    }
    return 1;
}

// Times taken one after the other, so that a busy machine weighs on all.
static void time_all(void) {
    for (int i = 0; i < TURNS; i++)
        for (int k = 0; k < BOOKS; k++) {
            rattle[k][i] = timed(rattle_read_book, &books[k], &ours);
            c[k][i] = timed(unverified_read_book, &books[k], &theirs[k]);
        }
}

static double median_ratio(const double *upper, const double *lower) {
    static double ratios[TURNS];
    for (int i = 0; i < TURNS; i++) ratios[i] = upper[i] / lower[i];
    qsort(ratios, TURNS, sizeof *ratios, by_size);
    return ratios[TURNS / 2];
}

int main(void) {
    static const char *const which[] = {
        ", without a day", " with a day: left sides that differ early", " with a day: left sides that differ in the last symbol only"};
    make_books();
    if (!all_same()) return 1;
    time_all();
    double by_day = median_ratio(rattle[EARLY], rattle[UNDATED]);
    for (int k = 0; k < BOOKS; k++) {
        printf("reading a book of %d rules of %d symbols%s; %zu bytes, %u rules stand, the same tables\n", LONG_RULES, LONG_SIDE, which[k],
            packed_length(&books[k]), theirs[k].rules);
        compare(rattle[k], c[k], TURNS);
    }
    printf("with a day, where left sides differ early, the library takes %.2f times as long as without; where only the last symbol differs, %.2f ms\n",
        by_day, rattle[LATE][TURNS / 2] / 1e6);
    return 0;
}
