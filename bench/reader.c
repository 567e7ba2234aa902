// An unverified reader of books, as a yardstick: the same layout, checks and tables as the library's, written the way C programmers write it.
#include "reader.h"
#include <stdint.h>
#include <stddef.h>
#include <string.h>

typedef struct {
    const uint8_t *bytes;
    size_t bits; // how many there are
    size_t at;
    int fault;
} reader;

static inline unsigned field(reader *r, unsigned n) {
    if (r->bits - r->at < n) {
        if (!r->fault) r->fault = 1;
        return 0;
    }
    size_t i = r->at >> 3, last = (r->bits >> 3) - 1;
    uint32_t w = (uint32_t)r->bytes[i] << 16;
    if (i + 1 <= last) w |= (uint32_t)r->bytes[i + 1] << 8;
    if (i + 2 <= last) w |= r->bytes[i + 2];
    unsigned v = (w >> (24 - (r->at & 7) - n)) & ((1u << n) - 1);
    r->at += n;
    return v;
}

// Reads the items of a given strategy, settles them and answers how many numbers are kept.
static unsigned strategy(reader *r, unsigned arity, uint8_t *kept) {
    unsigned count = field(r, 5), len = 0, seen = 0, group = 0;
    int open = 0;
    if (r->fault) return 0;
    for (unsigned i = 0; i < count; i++) {
        unsigned v = field(r, 4), last = i + 1 == count;
        if (r->fault) return 0;
        if (v > 9 || (v == 0 && open) || (v >= 1 && v <= 7 && v > arity) || (v == 8 && open) || (v == 9 && !open) || (last && v != 0)) {
            r->fault = 3;
            return 0;
        }
        if (v == 0) {
            if (!len || kept[len - 1] != 0) kept[len++] = 0;
        } else if (v <= 7) {
            if (!(seen >> v & 1)) { seen |= 1u << v; kept[len++] = (uint8_t)v; }
        } else if (v == 8) {
            open = 1; group = len; kept[len++] = 8;
        } else {
            open = 0;
            if (len == group + 1) len = group;
            else if (len == group + 2) { kept[group] = kept[group + 1]; len = group + 1; }
            else kept[len++] = 9;
        }
    }
    return len;
}

static void lay_out(const uint8_t *items, unsigned len, uint8_t *row) {
    unsigned k = 0, group = 0;
    for (unsigned i = 0; i < len; i++) {
        unsigned v = items[i];
        if (v == 0) row[k++] = 1;
        else if (v <= 7) {
            if (!group || items[i + 1] == 9) row[k++] = (uint8_t)(7 + v);
            else { row[k++] = (uint8_t)(15 + v); group++; }
        } else if (v == 8) group = 1;
        else { row[k++] = (uint8_t)(23 + group); group = 0; }
    }
    while (k < 16) row[k++] = 0;
}

static void operators(reader *r, unsigned n, tables *t) {
    for (unsigned o = 0; o < n && !r->fault; o++) {
        uint8_t items[32];
        unsigned len = 0, arity = field(r, 3), given = field(r, 1);
        if (r->fault) return;
        t->arities[o] = (uint8_t)arity;
        if (given) len = strategy(r, arity, items);
        else {
            for (unsigned i = 1; i <= arity; i++) items[len++] = (uint8_t)i;
            items[len++] = 0;
        }
        if (!r->fault) lay_out(items, len, t->laid + 16 * o);
    }
}

// A symbol: whether it is a variable, and its number. Nine bits, where they are there, stand in two bytes.
static inline unsigned symbol(reader *r, unsigned *kind) {
    if (r->bits - r->at < 9) {
        *kind = field(r, 1);
        return field(r, *kind ? 4 : 8);
    }
    const uint8_t *p = r->bytes + (r->at >> 3);
    unsigned x = ((unsigned)p[0] << 8 | p[1]) >> (7 - (r->at & 7)) & 0x1ff;
    *kind = x >> 8;
    r->at += *kind ? 5 : 9;
    return *kind ? x >> 4 & 15 : x;
}

// A side from the reader's position on; vars is the mask of its variables, or of those allowed.
static void side(reader *r, unsigned n, const tables *t, unsigned *vars, int left) {
    unsigned due = 1;
    for (unsigned i = 0; due; i++) {
        if (i == 64) { r->fault = 8; return; }
        unsigned kind, x = symbol(r, &kind);
        if (r->fault) return;
        due--;
        if (!kind) {
            if (x >= n) { r->fault = 4; return; }
            due += t->arities[x];
        } else if (left) {
            if (!i) { r->fault = 5; return; }
            *vars |= 1u << x;
        } else if (!(*vars >> x & 1)) { r->fault = 7; return; }
    }
}

// What tells of each rule of a dated book whether it stands: its day, and its left side with the variables numbered as they come.
typedef struct {
    uint32_t hash[255];
    uint16_t day[255];
    uint16_t symbols[255][64];
    uint8_t length[255];
} dated_rules;

static void number_left(const reader *r, uint32_t left, uint32_t end, dated_rules *d, unsigned i) {
    reader s = *r;
    uint8_t numbers[16] = {0};
    unsigned met = 0, length = 0;
    uint32_t hash = 2166136261u;
    s.at = left;
    while (s.at < end) {
        unsigned kind, x = symbol(&s, &kind);
        if (kind) {
            if (!numbers[x]) numbers[x] = (uint8_t)++met;
            x = 256u + numbers[x];
        }
        d->symbols[i][length++] = (uint16_t)x;
        hash = (hash ^ x) * 16777619u;
    }
    d->length[i] = (uint8_t)length;
    d->hash[i] = hash;
}

static int agree(const dated_rules *d, unsigned i, unsigned j) {
    return d->length[i] == d->length[j] && !memcmp(d->symbols[i], d->symbols[j], d->length[i] * sizeof **d->symbols);
}

// Rules of later days are absent; of those whose left sides agree, the latest day stands, and within a day the last.
static int stands(const dated_rules *d, unsigned m, unsigned i, unsigned day) {
    if (d->day[i] > day) return 0;
    for (unsigned j = 0; j < m; j++)
        if (d->hash[j] == d->hash[i] && d->day[j] <= day && (d->day[j] > d->day[i] || (d->day[j] == d->day[i] && j > i)) && agree(d, i, j)) return 0;
    return 1;
}

// Keeps the rules that stand, in book order, and answers how many they are.
static unsigned keep_standing(const reader *r, unsigned m, unsigned day, dated_rules *d, tables *t) {
    unsigned kept = 0;
    for (unsigned i = 0; i < m; i++) number_left(r, t->lefts[i], t->rights[i], d, i);
    for (unsigned i = 0; i < m; i++) {
        if (!stands(d, m, i, day)) continue;
        t->lefts[kept] = t->lefts[i];
        t->rights[kept++] = t->rights[i];
    }
    return kept;
}

static void rules(reader *r, unsigned n, unsigned m, int dated, dated_rules *d, tables *t) {
    for (unsigned i = 0; i < m; i++) {
        unsigned vars = 0;
        if (dated) {
            d->day[i] = (uint16_t)(field(r, 8) << 8);
            d->day[i] |= (uint16_t)field(r, 8);
            if (r->fault) return;
        }
        t->lefts[i] = (uint32_t)r->at;
        side(r, n, t, &vars, 1);
        if (r->fault) return;
        t->rights[i] = (uint32_t)r->at;
        side(r, n, t, &vars, 0);
        if (r->fault) return;
    }
}

int c_read_book(const uint8_t *book, size_t len, uint16_t day, tables *t) {
    int dated = len && !book[0];
    reader r = {book, 8 * len, dated ? 8 : 0, 0};
    dated_rules d;
    unsigned n = field(&r, 8);
    if (r.fault) return 1;
    if (!n) return 2;
    operators(&r, n, t);
    if (r.fault) return r.fault;
    unsigned m = field(&r, 8);
    if (r.fault) return 1;
    rules(&r, n, m, dated, &d, t);
    if (r.fault) return r.fault;
    size_t left = r.bits - r.at;
    if (left >= 8 || (left && field(&r, (unsigned)left))) return 9;
    if (dated) m = keep_standing(&r, m, day, &d, t);
    t->operators = n;
    t->rules = m;
    return 0;
}
