// The library's rewrite against an unverified one, on the same packed rules and the same term of 1,000 symbols.
#include "net.h"
#include "packer.h"
#include "reader.h"
#include "timing.h"
#include <string.h>

enum { RULES = 32, TERM = 1000, TURNS = 301, INNER = 256 };
enum { END, TICK, BOTH, PAIR, OPERATORS };

uint8_t bench_book_read(const uint8_t *book, size_t len, uint16_t day, uint8_t *operators, uint32_t *rules);
void bench_rule_start(uint8_t *work, size_t work_length, uint32_t *units);
void bench_rule_load(uint32_t *symbols, const uint8_t *operators, const uint8_t *line, size_t n);
void bench_rule_build(const uint8_t *book, size_t len, const uint8_t *operators, const uint32_t *rules, uint8_t *net, size_t net_length);
size_t bench_rule_rewrite(const uint8_t *book, size_t len, const uint8_t *operators, const uint8_t *net, size_t net_length, uint32_t *symbols,
    size_t offset, uint32_t *scratch, uint8_t *work, size_t work_length, const uint32_t *units);

// The unverified rewrite.

typedef struct {
    const uint8_t *bytes;
    size_t bits;
    size_t at;
} side;

// The bits behind a book that was read are there; the last window may reach past its end.
static inline unsigned field(side *s, unsigned n) {
    size_t i = s->at >> 3, last = (s->bits >> 3) - 1;
    uint32_t w = (uint32_t)s->bytes[i] << 16;
    if (i + 1 <= last) w |= (uint32_t)s->bytes[i + 1] << 8;
    if (i + 2 <= last) w |= s->bytes[i + 2];
    unsigned v = (w >> (24 - (s->at & 7) - n)) & ((1u << n) - 1);
    s->at += n;
    return v;
}

// A symbol's record: its operator, and the size of the term that it begins.
static inline uint32_t make(unsigned o, size_t size) { return o + 512 * (uint32_t)size; }
static inline unsigned operator_of(uint32_t x) { return x & 255; }
static inline size_t size_of(uint32_t x) { return x >> 9; }

static int same(const uint32_t *a, const uint32_t *b, size_t n) {
    for (size_t i = 0; i < n; i++)
        if ((a[i] ^ b[i]) & 255) return 0;
    return 1;
}

// Does a left side agree with the term at an offset? The root, of nine bits, agrees already.
static int match(side s, const tables *t, const uint32_t *symbols, size_t offset, uint16_t *starts) {
    size_t q = offset + 1, due = t->arities[operator_of(symbols[offset])];
    unsigned bound = 0;
    s.at += 9;
    while (due) {
        due--;
        if (field(&s, 1)) {
            unsigned v = field(&s, 4);
            size_t n = size_of(symbols[q]);
            if (bound >> v & 1) {
                if (size_of(symbols[starts[v]]) != n || !same(symbols + q, symbols + starts[v], n)) return 0;
            } else {
                bound |= 1u << v;
                starts[v] = (uint16_t)q;
            }
            q += n;
        } else {
            unsigned o = field(&s, 8);
            if (operator_of(symbols[q]) != o) return 0;
            due += t->arities[o];
            q++;
        }
    }
    return 1;
}

static size_t filled_size(side s, const tables *t, const uint32_t *symbols, const uint16_t *starts) {
    size_t size = 0, due = 1;
    while (due) {
        due--;
        if (field(&s, 1)) size += size_of(symbols[starts[field(&s, 4)]]);
        else {
            due += t->arities[field(&s, 8)];
            size++;
        }
    }
    return size;
}

// The operators' sizes are put behind the pass, from the last one to the first.
static size_t fill(side s, const tables *t, const uint32_t *symbols, const uint16_t *starts, uint32_t *out) {
    size_t k = 0, due = 1;
    uint16_t places[64];
    unsigned count = 0;
    while (due) {
        due--;
        if (field(&s, 1)) {
            const uint32_t *from = symbols + starts[field(&s, 4)];
            memcpy(out + k, from, 4 * size_of(*from));
            k += size_of(*from);
        } else {
            unsigned o = field(&s, 8);
            places[count++] = (uint16_t)k;
            out[k++] = o;
            due += t->arities[o];
        }
    }
    while (count) {
        size_t p = places[--count], q = p + 1;
        for (unsigned n = t->arities[out[p]]; n; n--) q += size_of(out[q]);
        out[p] = make(out[p], q - p);
    }
    return k;
}

// The sizes of the symbols above.
static void grow(uint32_t *symbols, size_t offset, uint32_t by) {
    for (size_t i = 0; i < offset; i++) symbols[i] += i + size_of(symbols[i]) > offset ? 512 * by : 0;
}

// A book's tables and its net, and where a rule is looked for.
typedef struct {
    tables t;
    net n;
} unverified;

typedef struct {
    const uint8_t *book;
    size_t len;
    const unverified *of;
    const uint32_t *symbols;
    uint16_t starts[16];
} finder;

static inline int matches(finder *f, unsigned i, size_t offset) {
    return match((side){f->book, 8 * f->len, f->of->t.lefts[i]}, &f->of->t, f->symbols, offset, f->starts);
}

#define NET_CONTEXT finder
#define NET_OF(f) (&(f)->of->n)
#define NET_SYMBOL(f, i, depth, at) net_symbol((f)->book, (f)->len, (f)->of->t.lefts[i] + (at))
#define NET_CELL(f, at) operator_of((f)->symbols[at])
#define NET_SIZE(f, at) size_of((f)->symbols[at])
#define NET_MATCH matches
#include "net_search.h"

static size_t c_rewrite(const uint8_t *book, size_t len, void *of_book, uint32_t *symbols, size_t offset, uint32_t *scratch) {
    const unverified *u = of_book;
    const tables *t = &u->t;
    finder f = {.book = book, .len = len, .of = u, .symbols = symbols};
    size_t size = size_of(symbols[0]), end = offset + size_of(symbols[offset]);
    unsigned i = net_find(&f, (unsigned)offset);
    if (!i) return 0;
    side right = {book, 8 * len, t->rights[i - 1]};
    if (offset + filled_size(right, t, symbols, f.starts) + (size - end) > 1024) return 0;
    size_t n = fill(right, t, symbols, f.starts, scratch);
    if (offset + n != end) {
        grow(symbols, offset, (uint32_t)(offset + n - end));
        memmove(symbols + offset + n, symbols + end, 4 * (size - end));
    }
    memcpy(symbols + offset, scratch, 4 * n);
    return size_of(symbols[0]);
}

// The book and the term.

static packer book;

static void put_operator(unsigned arity) { put(&book, arity << 1, 4); }

static void put_symbols(const unsigned *symbols, unsigned count) {
    for (unsigned i = 0; i < count; i++) symbols[i] & 0x100 ? put(&book, symbols[i] & 31, 5) : put(&book, symbols[i], 9);
}

// A variable: a bit 1 and its number.
#define VAR(v) (0x100 | 16 | (v))

// Rules that agree on the root and differ below it, then both(tick(X), pair(Y, Z)) gives both(pair(Z, X), tick(tick(Y))).
static void make_book(void) {
    const unsigned arities[OPERATORS] = {0, 1, 2, 2};
    const unsigned other[] = {BOTH, TICK, VAR(0), TICK, VAR(1)}, end[] = {END};
    const unsigned left[] = {BOTH, TICK, VAR(0), PAIR, VAR(1), VAR(2)};
    const unsigned right[] = {BOTH, PAIR, VAR(2), VAR(0), TICK, TICK, VAR(1)};
    put(&book, OPERATORS, 8);
    for (unsigned o = 0; o < OPERATORS; o++) put_operator(arities[o]);
    put(&book, RULES, 8);
    for (unsigned i = 1; i < RULES; i++) put_symbols(other, 5), put_symbols(end, 1);
    put_symbols(left, 6), put_symbols(right, 7);
}

static size_t put_ticks(uint8_t *term, size_t at, size_t count) {
    memset(term + at, TICK, count - 1);
    term[at + count - 1] = END;
    return at + count;
}

// pair(A, pair(both(tick(X), pair(Y, Z)), B)): all parts of some size, and one of them behind what is rewritten.
static size_t make_term(uint8_t *term) {
    size_t at = 0;
    term[at++] = PAIR;
    at = put_ticks(term, at, 200);
    term[at++] = PAIR;
    term[at++] = BOTH;
    term[at++] = TICK;
    at = put_ticks(term, at, 20);
    term[at++] = PAIR;
    at = put_ticks(term, at, 200);
    at = put_ticks(term, at, 200);
    return put_ticks(term, at, TERM - at);
}

static const size_t OFFSET = 202;

// The library's tables, its net, and the only unit, whose job's offset goes along.
typedef struct {
    uint8_t operators[4352];
    uint32_t rules[512];
    uint8_t net[3840];
    uint8_t work[24624];
    uint32_t units[8];
} library;

static size_t rattle_rewrite(const uint8_t *bytes, size_t len, void *of_book, uint32_t *symbols, size_t offset, uint32_t *scratch) {
    library *l = of_book;
    return bench_rule_rewrite(bytes, len, l->operators, l->net, sizeof l->net, symbols, offset, scratch, l->work, sizeof l->work, l->units);
}

typedef size_t rewriter(const uint8_t *, size_t, void *, uint32_t *, size_t, uint32_t *);

// Nanoseconds for one rewrite. The term is set back each time, for both alike.
static double timed(rewriter *rewrite, void *of_book, const uint32_t *term, uint32_t *symbols) {
    static uint32_t scratch[1024];
    size_t len = packed_length(&book);
    double start = spent();
    for (int i = 0; i < INNER; i++) {
        memcpy(symbols, term, 4 * 1024);
        if (!rewrite(book.bytes, len, of_book, symbols, OFFSET, scratch)) abort();
    }
    return (spent() - start) / INNER;
}

int main(void) {
    static library l;
    static unverified u;
    static uint8_t line[1024];
    static uint32_t term[1024], ours[1024], theirs[1024];
    static double rattle[TURNS], c[TURNS];
    make_book();
    size_t len = packed_length(&book);
    if (bench_book_read(book.bytes, len, 0, l.operators, l.rules) || c_read_book(book.bytes, len, 0, &u.t) || make_term(line) != TERM) return 1;
    bench_rule_build(book.bytes, len, l.operators, l.rules, l.net, sizeof l.net);
    net_build(&u.n, book.bytes, len, u.t.lefts, u.t.rules, u.t.arities);
    bench_rule_start(l.work, sizeof l.work, l.units);
    bench_rule_load(term, l.operators, line, TERM);
    for (int i = 0; i < TURNS; i++) {
        rattle[i] = timed(rattle_rewrite, &l, term, ours);
        c[i] = timed(c_rewrite, &u, term, theirs);
        if (memcmp(ours, theirs, 4 * TERM) || !memcmp(ours, term, 4 * TERM)) {
            printf("the rewrites differ\n");
            return 1;
        }
    }
    printf("a rewrite of a term of %d symbols, by the last of %d rules; the same term\n", TERM, RULES);
    compare(rattle, c, TURNS);
    return 0;
}
