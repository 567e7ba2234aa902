// The library's reader of texts against an unverified one: the same symbols from the same text of 1,000 letters.
#include "timing.h"
#include <stdint.h>
#include <string.h>

enum { LETTERS = 1000, IN_WORDS = 800, SYMBOLS = 1024, OPERATORS = 43, GAP = 42, TURNS = 301, INNER = 256 };

size_t bench_text_read(const uint8_t *text, size_t len, size_t n, const uint8_t *operators, uint8_t *symbols);

// The unverified reader.

static uint8_t classes[256];

static void classify(const char *letters, unsigned first) {
    for (unsigned i = 0; letters[i]; i++) classes[(uint8_t)letters[i]] = (uint8_t)(first + i);
}

// Capitals from a first to a last one, and the small ones.
static void both_cases(unsigned first, unsigned last, unsigned class) {
    for (unsigned b = first; b <= last; b++) classes[b] = classes[b + 0x20] = (uint8_t)class;
}

static void make_classes(void) {
    classify("ABCDEFGHIJKLMNOPQRSTUVWXYZ", 1);
    classify("abcdefghijklmnopqrstuvwxyz", 1);
    classify("0123456789", 32);
    both_cases(0xc0, 0xc5, 1), both_cases(0xc7, 0xc7, 3), both_cases(0xc8, 0xcb, 5), both_cases(0xcc, 0xcf, 9), both_cases(0xd1, 0xd1, 14);
    both_cases(0xd2, 0xd6, 15), both_cases(0xd9, 0xdc, 21), both_cases(0xdd, 0xdd, 25);
    both_cases(0xc6, 0xc6, 27), both_cases(0xd0, 0xd0, 28), both_cases(0xd8, 0xd8, 29), both_cases(0xde, 0xde, 30);
    classes[0xdf] = 31;
    classes[0xff] = 25;
}

static int has_classes(size_t n, const uint8_t *arities) {
    if (n < OPERATORS || arities[0] != 0) return 0;
    for (unsigned o = 1; o < OPERATORS; o++)
        if (arities[o] != 1) return 0;
    return 1;
}

// The symbols, or 0 for a refusal. Kept apart, as the library's is.
__attribute__((noinline)) static size_t c_text_read(const uint8_t *text, size_t len, size_t n, const uint8_t *arities, uint8_t *symbols) {
    size_t k = 0;
    int gap = 0;
    if (!has_classes(n, arities)) return 0;
    for (size_t i = 0; i < len; i++) {
        uint8_t class = classes[text[i]];
        if (!class) {
            gap = k > 0;
            continue;
        }
        if (k + (size_t)gap >= SYMBOLS - 1) return 0;
        if (gap) symbols[k++] = GAP;
        symbols[k++] = class;
        gap = 0;
    }
    symbols[k++] = 0;
    return k;
}

// Texts: letters alone; and words of six letters, with one or two separators between them and one at the end.

static uint8_t letter(unsigned i) { return (uint8_t)(i % 7 == 3 ? 0xe0 + i % 6 : i % 3 ? 'a' + i % 26 : 'A' + i % 26); }

static size_t make_letters(uint8_t *text) {
    for (unsigned i = 0; i < LETTERS; i++) text[i] = letter(i);
    return LETTERS;
}

static size_t make_words(uint8_t *text) {
    size_t k = 0;
    for (unsigned i = 0; i < IN_WORDS; i++) {
        if (i && i % 6 == 0) text[k++] = ' ';
        if (i && i % 12 == 0) text[k++] = '-';
        text[k++] = letter(i);
    }
    text[k++] = '.';
    return k;
}

typedef size_t reader(const uint8_t *, size_t, size_t, const uint8_t *, uint8_t *);

static double timed(reader *read, const uint8_t *text, size_t len, const uint8_t *operators, uint8_t *symbols) {
    double start = spent();
    for (int i = 0; i < INNER; i++)
        if (!read(text, len, OPERATORS, operators, symbols)) abort();
    return (spent() - start) / INNER;
}

static int row(const char *what, const uint8_t *text, size_t len, const uint8_t *operators) {
    static uint8_t ours[SYMBOLS], theirs[SYMBOLS];
    static double rattle[TURNS], c[TURNS];
    for (int i = 0; i < TURNS; i++) {
        rattle[i] = timed(bench_text_read, text, len, operators, ours);
        c[i] = timed(c_text_read, text, len, operators, theirs);
    }
    if (memcmp(ours, theirs, SYMBOLS)) {
        printf("the symbols differ\n");
        return 0;
    }
    printf("a text of %zu bytes, %s, to a term; the same symbols\n", len, what);
    compare(rattle, c, TURNS);
    return 1;
}

int main(void) {
    static uint8_t operators[4352], text[2 * LETTERS];
    make_classes();
    for (unsigned o = 1; o < OPERATORS; o++) operators[o] = 1;
    return row("letters alone", text, make_letters(text), operators) && row("in words", text, make_words(text), operators) ? 0 : 1;
}
