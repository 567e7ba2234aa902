// The library's check of the strict profile against the unverified one of strict.h, on books of 255 rules that are admitted: left sides that are told apart as
// late as can be, so that two of them would have to be walked to their ends, and left sides that share nothing. Both read the book first.
#include "packer.h"
#include "strict.h"
#include "timing.h"

enum { TURNS = 301, INNER = 4, RULES = 255, BOOKS = 4 };

uint8_t kurvneist_strict_book(const uint8_t *book, size_t book_length, uint64_t pair[2]);

static packer books[BOOKS];
static packer *book; // the one that is made

// xorshift64, from a fixed seed.
static unsigned draw(unsigned bound) {
    static uint64_t state = 88172645463325252u;
    state ^= state << 13;
    state ^= state >> 7;
    state ^= state << 17;
    return (unsigned)(state % bound);
}

// Operators 0 and 1 have so many arguments, and each of the others, CONSTANTS of them, as many as the rest: mostly none.
enum { FIRST = 2, CONSTANTS = 253 };

static void put_head(unsigned arity, unsigned other, unsigned rest) {
    put(book, FIRST + CONSTANTS, 8);
    put(book, 2 * arity, 4);
    put(book, 2 * other, 4);
    for (unsigned o = 0; o < CONSTANTS; o++) put(book, 2 * rest, 4);
    put(book, RULES, 8);
}

static void put_operator(unsigned o) { put(book, o, 9); }
static void put_variable(unsigned v) { put(book, 16 + v, 5); }

// The constant that tells rule i from the others. There are two rules more than constants: those are told apart one symbol, or one element, before.
static unsigned last_of(unsigned i) { return FIRST + i % CONSTANTS; }
static int is_late(unsigned i) { return i < CONSTANTS; }

// Rows of an operator of one argument: 64 symbols.
static void make_rows(void) {
    put_head(1, 1, 0);
    for (unsigned i = 0; i < RULES; i++) {
        for (unsigned k = 0; k < 62; k++) put_operator(0);
        put_operator(is_late(i) ? 0 : 1);
        put_operator(last_of(i));
        put_operator(FIRST);
    }
}

// Rows of 63 operators and a constant, operator 0. Their roots differ, but for one whose second symbol does: no place below the root is had by two of them.
static void make_roots(void) {
    put_head(0, 1, 1);
    for (unsigned i = 0; i < RULES; i++) {
        put_operator(1 + i % 254);
        put_operator(1 + i / 254);
        for (unsigned k = 2; k < 63; k++) put_operator(1 + draw(254));
        put_operator(0);
        put_operator(0);
    }
}

// Which elements of a spine are variables: so many of them, at random places.
static uint32_t some_places(unsigned elements, unsigned variables) {
    uint32_t places = 0;
    while (variables) {
        uint32_t place = 1u << draw(elements);
        variables -= !(places & place);
        places |= place;
    }
    return places;
}

// Spines f(e, f(e, .. c)), whose elements are at random a variable or else a constant; where deep, g of it. The last element tells two rules apart.
static void make_spines(unsigned elements, unsigned variables, int deep) {
    put_head(2, 1, 0);
    for (unsigned i = 0; i < RULES; i++) {
        uint32_t places = some_places(elements - 1, variables);
        for (unsigned k = 0, v = 0; k < elements; k++) {
            put_operator(0);
            if (places >> k & 1) put_variable(v++);
            else {
                if (deep) put_operator(1);
                put_operator(k + 1 < elements || is_late(i) ? FIRST : FIRST + 1);
            }
        }
        put_operator(last_of(i));
        put_operator(FIRST);
    }
}

static void make_all(void) {
    book = &books[0];
    make_rows();
    book = &books[1];
    make_spines(31, 15, 0);
    book = &books[2];
    make_spines(25, 12, 1);
    book = &books[3];
    make_roots();
}

typedef int strict_check(const uint8_t *, size_t, uint64_t *);
static int rattle_strict(const uint8_t *bytes, size_t len, uint64_t *pair) { return kurvneist_strict_book(bytes, len, pair); }
static int unverified_strict(const uint8_t *bytes, size_t len, uint64_t *pair) { return c_strict_book(bytes, len, pair); }

// Nanoseconds for one check of a book that is admitted.
static double timed(strict_check *check, const packer *p) {
    uint64_t pair[2];
    double start = spent();
    for (int i = 0; i < INNER; i++)
        if (check(p->bytes, packed_length(p), pair)) abort();
    return (spent() - start) / INNER;
}

// What both say of a book, with one bit turned or with none (-1). Is it the same, and this number?
static int same(const packer *p, long bit, int due) {
    static packer turned;
    uint64_t ours[2] = {7, 7}, theirs[2] = {7, 7};
    turned = *p;
    if (bit >= 0) turned.bytes[bit / 8] ^= (uint8_t)(0x80 >> bit % 8);
    int a = rattle_strict(turned.bytes, packed_length(p), ours), b = unverified_strict(turned.bytes, packed_length(p), theirs);
    return a == b && ours[0] == theirs[0] && ours[1] == theirs[1] && (due < 0 || a == due);
}

// Both admit each book, and say the same where any one of its last bits is turned, so that some rules overlap and some books are refused.
static int all_same(void) {
    for (int k = 0; k < BOOKS; k++) {
        long bits = (long)books[k].bits;
        if (!same(&books[k], -1, 0)) {
            printf("book %d is not admitted by both\n", k);
            return 0;
        }
        for (long bit = bits - 600; bit < bits; bit++)
            if (!same(&books[k], bit, -1)) {
                printf("the checks differ on book %d with bit %ld turned\n", k, bit);
                return 0;
            }
    }
    return 1;
}

int main(void) {
    static const char *const which[BOOKS] = {
        "rows of 64 symbols that differ in the last one", "spines of variables and constants that differ at the end",
        "spines of variables and constants under an operator that differ at the end", "rows of 64 symbols that differ at the root"};
    static double rattle[BOOKS][TURNS], c[BOOKS][TURNS];
    double longest = 0;
    make_all();
    if (!all_same()) return 1;
    for (int i = 0; i < TURNS; i++)
        for (int k = 0; k < BOOKS; k++) {
            rattle[k][i] = timed(rattle_strict, &books[k]);
            c[k][i] = timed(unverified_strict, &books[k]);
        }
    for (int k = 0; k < BOOKS; k++) {
        printf("the strict profile of %d rules: %s; %zu bytes, admitted by both\n", RULES, which[k], packed_length(&books[k]));
        compare(rattle[k], c[k], TURNS);
        if (rattle[k][TURNS / 2] > longest) longest = rattle[k][TURNS / 2];
    }
    printf("the strict profile takes at most %.2f ms on these books; the limit is 2 ms\n", longest / 1e6);
    return 0;
}
