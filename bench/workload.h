// Books as tables, from which both a packed book and a Maude module are made, and the workloads of the benchmark.
#ifndef WORKLOAD_H
#define WORKLOAD_H
#include "packer.h"
#include <stdio.h>
#include <string.h>

enum { SYMBOLS = 1024, SIDE_SYMBOLS = 64, NAMED = 12 };

// In a side: a variable by number.
#define VAR(v) (0x100 | (v))

typedef struct {
    char name[NAMED];
    uint8_t arity, count, items[31]; // no item: the default strategy
} draft_operator;

typedef struct {
    uint16_t left[SIDE_SYMBOLS], right[SIDE_SYMBOLS];
    uint8_t left_size, right_size;
} draft_rule;

typedef struct {
    unsigned operators, rules;
    draft_operator operator[255];
    draft_rule rule[255];
} draft;

// An operator with so many items of a strategy; its number.
static uint16_t add_operator(draft *d, const char *name, unsigned arity, const uint8_t *items, size_t count) {
    draft_operator *o = &d->operator[d->operators];
    snprintf(o->name, NAMED, "%s", name);
    o->arity = (uint8_t)arity;
    o->count = (uint8_t)count;
    if (count) memcpy(o->items, items, count);
    return (uint16_t)d->operators++;
}

static void add_rule(draft *d, const uint16_t *left, size_t left_size, const uint16_t *right, size_t right_size) {
    draft_rule *r = &d->rule[d->rules++];
    memcpy(r->left, left, 2 * left_size);
    memcpy(r->right, right, 2 * right_size);
    r->left_size = (uint8_t)left_size;
    r->right_size = (uint8_t)right_size;
}

#define DEFAULT(d, name, arity) add_operator(d, name, arity, NULL, 0)
#define GIVEN(d, name, arity, ...) add_operator(d, name, arity, (uint8_t[]){__VA_ARGS__}, sizeof (uint8_t[]){__VA_ARGS__})
#define OPEN 8
#define CLOSE 9
#define ROW(...) (uint16_t[]){__VA_ARGS__}, sizeof (uint16_t[]){__VA_ARGS__} / 2

// A side's symbol: bit 0 and an operator, or bit 1 and a variable.
static void put_symbol(packer *p, unsigned s) { s & 0x100 ? put(p, 16 | (s & 15), 5) : put(p, s, 9); }

static void put_side(packer *p, const uint16_t *side, unsigned size) {
    for (unsigned i = 0; i < size; i++) put_symbol(p, side[i]);
}

static void put_operator(packer *p, const draft_operator *o) {
    put(p, o->arity, 3);
    put(p, o->count > 0, 1);
    if (o->count) put(p, o->count, 5);
    for (unsigned i = 0; i < o->count; i++) put(p, o->items[i], 4);
}

static void pack(const draft *d, packer *p) {
    memset(p, 0, sizeof *p);
    put(p, d->operators, 8);
    for (unsigned o = 0; o < d->operators; o++) put_operator(p, &d->operator[o]);
    put(p, d->rules, 8);
    for (unsigned i = 0; i < d->rules; i++) {
        put_side(p, d->rule[i].left, d->rule[i].left_size);
        put_side(p, d->rule[i].right, d->rule[i].right_size);
    }
}

typedef struct {
    const char *name, *title;
    draft book;
    packer packed;
    uint8_t line[SYMBOLS];
    size_t length;
} workload;

static void append(workload *w, unsigned symbol) { w->line[w->length++] = (uint8_t)symbol; }

// xorshift64, from a fixed seed.
static unsigned draw(unsigned bound) {
    static uint64_t state = 88172645463325252u;
    state ^= state << 13;
    state ^= state >> 7;
    state ^= state << 17;
    return (unsigned)(state % bound);
}

// Numbers: zero and successors.

typedef struct {
    uint16_t zero, s, add, mul, fib, fact;
} numbers;

static void add_numerals(draft *d, numbers *n) {
    n->zero = DEFAULT(d, "zero", 0);
    n->s = DEFAULT(d, "s", 1);
}

static void append_numeral(workload *w, const numbers *n, unsigned value) {
    for (unsigned i = 0; i < value; i++) append(w, n->s);
    append(w, n->zero);
}

static void add_arithmetic(draft *d, numbers *n) {
    n->add = GIVEN(d, "add", 2, OPEN, 1, 2, CLOSE, 0);
    n->mul = GIVEN(d, "mul", 2, OPEN, 1, 2, CLOSE, 0);
    n->fib = DEFAULT(d, "fib", 1);
    n->fact = DEFAULT(d, "fact", 1);
    uint16_t zero = n->zero, s = n->s, add = n->add, mul = n->mul, fib = n->fib, fact = n->fact;
    add_rule(d, ROW(add, zero, VAR(1)), ROW(VAR(1)));
    add_rule(d, ROW(add, s, VAR(0), VAR(1)), ROW(s, add, VAR(0), VAR(1)));
    add_rule(d, ROW(mul, zero, VAR(1)), ROW(zero));
    add_rule(d, ROW(mul, s, VAR(0), VAR(1)), ROW(add, VAR(1), mul, VAR(0), VAR(1)));
    add_rule(d, ROW(fib, zero), ROW(zero));
    add_rule(d, ROW(fib, s, zero), ROW(s, zero));
    add_rule(d, ROW(fib, s, s, VAR(0)), ROW(add, fib, s, VAR(0), fib, VAR(0)));
    add_rule(d, ROW(fact, zero), ROW(s, zero));
    add_rule(d, ROW(fact, s, VAR(0)), ROW(mul, s, VAR(0), fact, VAR(0)));
}

static void make_fib(workload *w) {
    numbers n;
    w->name = "fib";
    w->title = "fib(10), Peano";
    add_numerals(&w->book, &n);
    add_arithmetic(&w->book, &n);
    append(w, n.fib);
    append_numeral(w, &n, 10);
}

static void make_fact(workload *w) {
    numbers n;
    w->name = "fact";
    w->title = "fact(5), Peano";
    add_numerals(&w->book, &n);
    add_arithmetic(&w->book, &n);
    append(w, n.fact);
    append_numeral(w, &n, 5);
}

// Insertion sort of a list of numbers.

static void make_sort(workload *w) {
    draft *d = &w->book;
    numbers n;
    w->name = "sort";
    w->title = "insertion sort, 16 numbers";
    add_numerals(d, &n);
    uint16_t zero = n.zero, s = n.s, nil = DEFAULT(d, "nil", 0), cons = GIVEN(d, "cons", 2, OPEN, 1, 2, CLOSE, 0);
    uint16_t yes = DEFAULT(d, "yes", 0), no = DEFAULT(d, "no", 0), le = DEFAULT(d, "le", 2);
    uint16_t sort = DEFAULT(d, "sorted", 1), ins = DEFAULT(d, "ins", 2), place = GIVEN(d, "place", 4, 1, 0);
    add_rule(d, ROW(sort, nil), ROW(nil));
    add_rule(d, ROW(sort, cons, VAR(0), VAR(1)), ROW(ins, VAR(0), sort, VAR(1)));
    add_rule(d, ROW(ins, VAR(0), nil), ROW(cons, VAR(0), nil));
    add_rule(d, ROW(ins, VAR(0), cons, VAR(1), VAR(2)), ROW(place, le, VAR(0), VAR(1), VAR(0), VAR(1), VAR(2)));
    add_rule(d, ROW(place, yes, VAR(0), VAR(1), VAR(2)), ROW(cons, VAR(0), cons, VAR(1), VAR(2)));
    add_rule(d, ROW(place, no, VAR(0), VAR(1), VAR(2)), ROW(cons, VAR(1), ins, VAR(0), VAR(2)));
    add_rule(d, ROW(le, zero, VAR(0)), ROW(yes));
    add_rule(d, ROW(le, s, VAR(0), zero), ROW(no));
    add_rule(d, ROW(le, s, VAR(0), s, VAR(1)), ROW(le, VAR(0), VAR(1)));
    append(w, sort);
    for (unsigned i = 0; i < 16; i++) append(w, cons), append_numeral(w, &n, 1 + i * 7 % 16);
    append(w, nil);
}

// Payees: a line is words, a word is letters. Capitals and accented letters give way to plain ones, and some words are dropped.

enum { END, WORDS, PLAIN, CAPITAL = PLAIN + 26, ACCENTED = CAPITAL + 26 };

static void add_letters(draft *d) {
    char name[NAMED];
    DEFAULT(d, "end", 0);
    GIVEN(d, "words", 2, OPEN, 1, 2, CLOSE, 0);
    for (unsigned i = 0; i < 26; i++) snprintf(name, NAMED, "%c", 'a' + i), DEFAULT(d, name, 1);
    for (unsigned i = 0; i < 26; i++) snprintf(name, NAMED, "%c", 'A' + i), GIVEN(d, name, 1, 0, 1, 0);
    for (unsigned i = 0; i < 26; i++) snprintf(name, NAMED, "%c2", 'a' + i), GIVEN(d, name, 1, 0, 1, 0);
}

static void add_plain_rules(draft *d, unsigned first, unsigned count) {
    for (unsigned i = 0; i < count; i++) add_rule(d, ROW((uint16_t)(first + i), VAR(0)), ROW((uint16_t)(PLAIN + i), VAR(0)));
}

// words(word, X) gives X.
static void drop_word(draft *d, const char *word) {
    uint16_t left[SIDE_SYMBOLS] = {WORDS};
    size_t n = 1;
    for (; *word; word++) left[n++] = (uint16_t)(PLAIN + *word - 'a');
    left[n++] = END;
    left[n++] = VAR(0);
    add_rule(d, left, n, ROW(VAR(0)));
}

// Words that no line has: a q before the end.
static void drop_others(draft *d, unsigned count) {
    for (unsigned i = 0; i < count; i++) {
        char word[] = {(char)('a' + i % 26), (char)('a' + i / 26), (char)('a' + i * 7 % 26), 'q', 0};
        drop_word(d, word);
    }
}

static const char *const dropped[] = {"the", "ltd", "inc", "und", "gmbh"};

// Room for a word of so many letters, one in four a capital or accented.
static void append_word(workload *w, unsigned letters) {
    append(w, WORDS);
    for (unsigned i = 0; i < letters; i++) {
        unsigned letter = draw(16), kind = draw(8);
        append(w, (i == 0 || kind == 0 ? CAPITAL : kind == 1 ? ACCENTED : PLAIN) + letter);
    }
    append(w, END);
}

static void append_dropped(workload *w, const char *word) {
    append(w, WORDS);
    append(w, (unsigned)(CAPITAL + *word - 'a'));
    while (*++word) append(w, (unsigned)(PLAIN + *word - 'a'));
    append(w, END);
}

// A line of so many symbols; every sixth word is one to drop.
static void append_payee(workload *w, size_t symbols) {
    unsigned i = 0;
    while (w->length + 12 <= symbols) {
        if (i % 6 == 3) append_dropped(w, dropped[i / 6 % 5]);
        else append_word(w, 3 + draw(6));
        i++;
    }
    if (w->length + 3 < symbols) append_word(w, (unsigned)(symbols - w->length - 3));
    append(w, END);
}

// A book that drops so many words, the ones that lines have last.
static void make_payee(workload *w, size_t symbols, unsigned words) {
    w->name = "payee";
    w->title = "payee line";
    add_letters(&w->book);
    add_plain_rules(&w->book, CAPITAL, 26);
    add_plain_rules(&w->book, ACCENTED, 26);
    drop_others(&w->book, words - 5);
    for (unsigned i = 0; i < 5; i++) drop_word(&w->book, dropped[i]);
    append_payee(w, symbols);
}

// A book whose roots have one rule each: no word is dropped.
static void make_roots(workload *w, size_t symbols) {
    w->name = "roots";
    w->title = "payee line of 200 symbols, 52 rules, one a root";
    add_letters(&w->book);
    add_plain_rules(&w->book, CAPITAL, 26);
    add_plain_rules(&w->book, ACCENTED, 26);
    append_payee(w, symbols);
}

// So many rules, of which a line of 256 symbols needs only the last, capital A.
static inline void make_rules(workload *w, unsigned rules) {
    w->name = "rules";
    w->title = "one rule used of many";
    add_letters(&w->book);
    drop_others(&w->book, rules - 1);
    add_plain_rules(&w->book, CAPITAL, 1);
    for (unsigned i = 0; i < 51; i++) {
        append(w, WORDS);
        append(w, CAPITAL);
        append(w, PLAIN + i % 26);
        append(w, PLAIN + 3);
        append(w, END);
    }
    append(w, END);
}

// The same book with a line of one symbol: what a run takes beside its line. The book is read, its net built, the areas cleared.
static inline void make_rules_base(workload *w, unsigned rules) {
    make_rules(w, rules);
    w->name = "base";
    w->title = "a line of one symbol";
    w->length = 0;
    append(w, END);
}

// Equal parts: both(X, X) gives match. Only the whole of both is tried, so that the payees under it are compared and not visited.

// Two payees of so many letters, which differ in the one that is named, counted from 1, or in none for 0.
static inline void make_both(workload *w, unsigned letters, unsigned differing) {
    draft *d = &w->book;
    char name[NAMED];
    uint16_t end = DEFAULT(d, "end", 0), both = GIVEN(d, "both", 2, 0), match = DEFAULT(d, "match", 0);
    unsigned first = d->operators;
    for (unsigned i = 0; i < 26; i++) snprintf(name, NAMED, "%c", 'a' + i), DEFAULT(d, name, 1);
    add_rule(d, ROW(both, VAR(0), VAR(0)), ROW(match));
    append(w, both);
    for (unsigned payee = 0; payee < 2; payee++) {
        for (unsigned i = 1; i <= letters; i++) append(w, first + (7 * i + (payee && i == differing)) % 26);
        append(w, end);
    }
    w->name = "both";
    w->title = !differing ? "no letter" : differing == 1 ? "the first letter" : differing == letters ? "the last letter" : "the middle letter";
}

// The workloads of whole runs.

static workload *ready(workload *w) {
    pack(&w->book, &w->packed);
    return w;
}

enum { MAIN_WORKLOADS = 7 };

static inline void make_workloads(workload *w) {
    make_fib(&w[0]);
    make_fact(&w[1]);
    make_sort(&w[2]);
    make_payee(&w[3], 200, 5);
    make_payee(&w[4], 1000, 5);
    make_payee(&w[5], 200, 203);
    make_roots(&w[6], 200);
    w[3].title = "payee line of 200 symbols, 57 rules";
    w[4].name = "payee1000";
    w[4].title = "payee line of 1,000 symbols, 57 rules";
    w[5].name = "rules255";
    w[5].title = "payee line of 200 symbols, 255 rules";
    for (int i = 0; i < MAIN_WORKLOADS; i++) ready(&w[i]);
}

// Maude.

static size_t print_term(const workload *w, const uint8_t *symbols, size_t at, FILE *out) {
    const draft_operator *o = &w->book.operator[symbols[at++]];
    fputs(o->name, out);
    for (unsigned i = 0; i < o->arity; i++) {
        fputs(i ? "," : "(", out);
        at = print_term(w, symbols, at, out);
    }
    if (o->arity) fputs(")", out);
    return at;
}

static unsigned print_side(const draft *d, const uint16_t *side, unsigned at, FILE *out) {
    unsigned s = side[at++];
    if (s & 0x100) {
        fprintf(out, "V%u", s & 15);
        return at;
    }
    fputs(d->operator[s].name, out);
    for (unsigned i = 0; i < d->operator[s].arity; i++) {
        fputs(i ? "," : "(", out);
        at = print_side(d, side, at, out);
    }
    if (d->operator[s].arity) fputs(")", out);
    return at;
}

static void print_operator(const draft_operator *o, FILE *out) {
    fprintf(out, "op %s :", o->name);
    for (unsigned i = 0; i < o->arity; i++) fputs(" T", out);
    fputs(" -> T", out);
    if (o->count) {
        fputs(" [strat (", out);
        for (unsigned i = 0; i < o->count; i++)
            if (o->items[i] < OPEN) fprintf(out, "%u ", o->items[i]);
        fputs(")]", out);
    }
    fputs(" .\n", out);
}

// The same rules and strategies as a module. `line` is the line; `several` of n reduces it n times, which takes it and two rewrites more for each,
// and one at the end.
static inline void print_module(const workload *w, FILE *out) {
    const draft *d = &w->book;
    fputs("set show advisories off .\nfmod BOOK is\nsort T .\n", out);
    for (unsigned o = 0; o < d->operators; o++) print_operator(&d->operator[o], out);
    fputs("sort I .\nop none : -> I .\nop more : I -> I [iter] .\nop several : I -> T [strat (0)] .\nop then : T I -> T [strat (1 0)] .\n", out);
    fputs("op line : -> T .\nvars V0 V1 V2 V3 : T .\nvar N : I .\n", out);
    fputs("eq several(more(N)) = then(line, N) .\neq then(V0, N) = several(N) .\neq several(none) = line .\n", out);
    for (unsigned i = 0; i < d->rules; i++) {
        fputs("eq ", out);
        print_side(d, d->rule[i].left, 0, out);
        fputs(" = ", out);
        print_side(d, d->rule[i].right, 0, out);
        fputs(" .\n", out);
    }
    fputs("eq line = ", out);
    print_term(w, w->line, 0, out);
    fputs(" .\nendfm\n", out);
}
#endif
