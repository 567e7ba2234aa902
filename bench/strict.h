// The unverified check of the strict profile, for all pairs of rules at once, as the library makes it. A place is a way down from the root, by operators and
// arguments; a node is an operator at a place. Two left sides are apart exactly if they have different nodes at one place, where a variable has none. Which
// rules have a place or a node is kept as bits.
#ifndef STRICT_H
#define STRICT_H
#include "reader.h"
#include <string.h>

enum { STRICT_RULES = 255, STRICT_SIDE = 64, STRICT_CELLS = STRICT_RULES * STRICT_SIDE + 1, STRICT_SLOTS = 1 << 15 };

typedef struct {
    uint64_t words[4];
} rule_set;

// Operators of left sides, by the numbers of their nodes; nodes and places are numbered as they come, from 1 on.
typedef struct {
    unsigned nodes, places;
    uint16_t slots[STRICT_SLOTS]; // nodes, by place and operator
    uint8_t operators[STRICT_CELLS];
    uint16_t place_of[STRICT_CELLS], arguments[STRICT_CELLS];
    rule_set holders[STRICT_CELLS], sharers[STRICT_CELLS]; // which rules have this place, and this node
    uint16_t cells[STRICT_RULES][STRICT_SIDE];
    unsigned counts[STRICT_RULES];
} left_sides;

static void mark_rule(rule_set *s, unsigned rule) { s->words[rule / 64] |= (uint64_t)1 << rule % 64; }

static unsigned new_places(left_sides *l, unsigned count) {
    unsigned first = l->places;
    l->places += count;
    memset(&l->holders[first], 0, count * sizeof *l->holders);
    return first;
}

// The node of an operator at a place, a new one if there is none.
static unsigned node_of(left_sides *l, unsigned place, unsigned operator, unsigned arity) {
    unsigned slot = (place * 256 + operator) * 2654435761u >> 17;
    for (; l->slots[slot]; slot = (slot + 1) % STRICT_SLOTS) {
        unsigned node = l->slots[slot];
        if (l->place_of[node] == place && l->operators[node] == operator) return node;
    }
    unsigned node = l->nodes++;
    l->slots[slot] = (uint16_t)node;
    l->operators[node] = (uint8_t)operator;
    l->place_of[node] = (uint16_t)place;
    l->arguments[node] = (uint16_t)new_places(l, arity);
    memset(&l->sharers[node], 0, sizeof *l->sharers);
    return node;
}

static unsigned strict_bits(const uint8_t *book, uint32_t at) {
    return (unsigned)(book[at >> 3] << 16 | book[(at >> 3) + 1] << 8) >> (15 - (at & 7)) & 511;
}

// The nodes of a rule's left side, which stands at a bit of a book that was read. Does no variable stand in it twice?
static int walk_left(left_sides *l, const uint8_t *book, uint32_t at, const tables *t, unsigned rule) {
    uint16_t due[STRICT_SIDE];
    unsigned met = 0, top = 1, count = 0;
    int once = 1;
    due[0] = 1;
    while (top) {
        unsigned place = due[--top], bits = strict_bits(book, at);
        if (bits >> 8) {
            unsigned variable = bits >> 4 & 15;
            once &= !(met >> variable & 1);
            met |= 1u << variable;
            at += 5;
            continue;
        }
        unsigned arity = t->arities[bits], node = node_of(l, place, bits, arity);
        for (unsigned k = arity; k; k--) due[top++] = (uint16_t)(l->arguments[node] + k - 1);
        mark_rule(&l->holders[place], rule);
        mark_rule(&l->sharers[node], rule);
        l->cells[rule][count++] = (uint16_t)node;
        at += 9;
    }
    l->counts[rule] = count;
    return once;
}

// The rules that are apart from one: they have another node where it has one.
static rule_set apart_from(const left_sides *l, unsigned rule) {
    rule_set apart = {{0}};
    for (unsigned k = 0; k < l->counts[rule]; k++) {
        unsigned node = l->cells[rule][k];
        const rule_set *holders = &l->holders[l->place_of[node]], *sharers = &l->sharers[node];
        for (int w = 0; w < 4; w++) apart.words[w] |= holders->words[w] ^ sharers->words[w];
    }
    return apart;
}

// The first rule behind this one that is not apart from it, or how many there are.
static unsigned overlapping(const left_sides *l, unsigned rule, unsigned rules) {
    rule_set apart = apart_from(l, rule);
    unsigned other = rule + 1;
    while (other < rules && apart.words[other / 64] >> other % 64 & 1) other++;
    return other;
}

// 0, or the number of the refusal; then the first two rules that overlap, if it is 25.
static int c_strict_book(const uint8_t *book, size_t len, uint64_t pair[2]) {
    static left_sides l;
    tables t;
    int constant = 0, once = 1;
    pair[0] = pair[1] = 0;
    int fault = c_read_book(book, len, 0, &t);
    if (fault) return fault;
    if (!book[0]) return 24;
    memset(l.slots, 0, sizeof l.slots);
    l.nodes = l.places = 1;
    new_places(&l, 1);
    for (unsigned o = 0; o < t.operators; o++) constant |= !t.arities[o];
    for (unsigned i = 0; i < t.rules; i++) once &= walk_left(&l, book, t.lefts[i], &t, i);
    if (!constant || !once) return 24;
    for (unsigned i = 0; i < t.rules; i++) {
        unsigned j = overlapping(&l, i, t.rules);
        if (j < t.rules) {
            pair[0] = i, pair[1] = j;
            return 25;
        }
    }
    return 0;
}
#endif
