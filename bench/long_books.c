// The books of long_books.h.
#include "long_books.h"

enum { OPERATORS = 255, SIDE = LONG_SIDE, RULES = LONG_RULES, DAY = LONG_DAY };

packer books[BOOKS];
static packer *book; // the one that is made

// xorshift64, from a fixed seed.
static unsigned draw(unsigned bound) {
    static uint64_t state = 88172645463325252u;
    state ^= state << 13;
    state ^= state >> 7;
    state ^= state << 17;
    return (unsigned)(state % bound);
}

static unsigned arity_of(unsigned o) { return o % 8; }

// A list of 31 items: a group of all arguments, then arguments and 0s in turn, most of which settling drops.
static void put_operator(unsigned o) {
    unsigned arity = arity_of(o);
    put(book, arity, 3);
    put(book, 1, 1);
    put(book, 31, 5);
    put(book, 8, 4);
    for (unsigned i = 1; i <= arity; i++) put(book, i, 4);
    put(book, 9, 4);
    for (unsigned i = arity + 2; i < 31; i++) put(book, i % 2 && arity ? 1 + draw(arity) : 0, 4);
}

// May a symbol of this arity stand where due terms are to come in exactly left symbols?
static int fits(unsigned arity, unsigned due, unsigned left) {
    unsigned after = due - 1 + arity;
    return after <= left - 1 && (after > 0 || left == 1);
}

// A variable of the mask, which a left side uses up.
static void put_variable(unsigned *vars, int is_left) {
    unsigned v = (unsigned)__builtin_ctz(*vars);
    if (is_left) *vars &= *vars - 1;
    put(book, 16 + v, 5);
}

// A symbol, one in eight a variable where that can be. Its arity.
static unsigned put_symbol(unsigned due, unsigned left, unsigned *vars, int is_left) {
    if (left < SIDE && *vars && fits(0, due, left) && draw(8) == 0) {
        put_variable(vars, is_left);
        return 0;
    }
    for (;;) {
        unsigned o = draw(OPERATORS);
        if (!fits(arity_of(o), due, left)) continue;
        put(book, o, 9);
        return arity_of(o);
    }
}

static void put_side(unsigned *vars, int is_left) {
    unsigned due = 1;
    for (unsigned left = SIDE; left > 0; left--) due += put_symbol(due, left, vars, is_left) - 1;
}

// Few days, so that rules have company on theirs; all have come on the run's.
static void put_day(int dated) {
    if (dated) put(book, DAY - draw(8), 16);
}

// Random sides, which differ in their first symbols.
static void make_early(int dated) {
    if (dated) put(book, 0, 8);
    put(book, OPERATORS, 8);
    for (unsigned o = 0; o < OPERATORS; o++) put_operator(o);
    put(book, RULES, 8);
    for (unsigned i = 0; i < RULES; i++) {
        unsigned vars = 0xffff;
        put_day(dated);
        put_side(&vars, 1);
        vars = ~vars & 0xffff;
        put_side(&vars, 0);
    }
}

// Operator 0 has seven arguments, the others none. A side of nine of it, one in the last place of the other, and 54 variables of 16 names: comparing
// variables takes longest. The last symbol is a constant.
static void put_long_side(unsigned last) {
    for (unsigned i = 0, v = 0; i < 9; i++) {
        put(book, 0, 9);
        for (unsigned k = 0; k < 6; k++) put(book, 16 + v++ % 16, 5);
    }
    put(book, last, 9);
}

// The last rule has the left side of the first, whose place it takes.
static void make_late(void) {
    put(book, 0, 8);
    put(book, OPERATORS, 8);
    for (unsigned o = 0; o < OPERATORS; o++) put(book, o ? 0 : 14, 4);
    put(book, RULES, 8);
    for (unsigned i = 0; i < RULES; i++) {
        put(book, DAY, 16);
        put_long_side(1 + i % 254);
        put_long_side(1);
    }
}

void make_books(void) {
    book = &books[UNDATED];
    make_early(0);
    book = &books[EARLY];
    make_early(1);
    book = &books[LATE];
    make_late();
}
