// An unverified net over a book's left sides, as a yardstick: what crates/net keeps, laid out for C. A rule's path is its left side in preorder with
// variables unnamed; the net keeps where rules part. Numbers of rules have one added, 0 is none.
#ifndef NET_H
#define NET_H
#include <stddef.h>
#include <stdint.h>
#include <string.h>

// In a side: a variable, and in a path any of them.
enum { NET_VARIABLE = 0x100, NET_PART = 255 };

typedef struct {
    uint8_t root[256];   // the first rule of each root
    uint8_t last[256];   // every way out of a rule is at a depth below
    uint8_t choice[256]; // the same of the ways by a variable, and of those where the rule itself has one
    uint8_t same[256];   // the next rule with the same path
    uint8_t bucket[256]; // the last rule put there that leaves another
    uint8_t next[256];   // the one before it
    uint8_t ways[4 * 256]; // the rule that a rule leaves, at which depth and by which key, in one word
} net;

static inline uint32_t net_word(unsigned i, unsigned d, unsigned k) { return i | d << 8 | k << 16; }

static inline unsigned net_bucket(unsigned i, unsigned d, unsigned k) { return (37 * i + 11 * d + k) & 255; }

// The rule that leaves rule i at depth d by the key k.
static inline unsigned net_way(const net *n, unsigned i, unsigned d, unsigned k) {
    uint32_t word = net_word(i, d, k), found;
    for (unsigned c = n->bucket[net_bucket(i, d, k)]; c; c = n->next[c - 1]) {
        memcpy(&found, n->ways + 4 * (c - 1), 4);
        if (found == word) return c;
    }
    return 0;
}

static inline void net_put_way(net *n, unsigned i, unsigned d, unsigned k, unsigned j, int choice) {
    uint32_t word = net_word(i, d, k);
    uint8_t *bucket = &n->bucket[net_bucket(i, d, k)];
    memcpy(n->ways + 4 * j, &word, 4);
    n->next[j] = *bucket;
    *bucket = (uint8_t)(j + 1);
    if (n->last[i] <= d) n->last[i] = (uint8_t)(d + 1);
    if (choice && n->choice[i] <= d) n->choice[i] = (uint8_t)(d + 1);
}

// The symbol of a side at a bit position: an operator, or NET_VARIABLE and a variable. Nine bits stand in two bytes; those behind the book's end don't
// matter.
static inline unsigned net_symbol(const uint8_t *book, size_t bytes, size_t at) {
    size_t i = at >> 3;
    unsigned window = (unsigned)book[i] << 8 | (i + 1 < bytes ? book[i + 1] : 0u), x = window >> (7 - (at & 7)) & 0x1ff;
    return x & NET_VARIABLE ? NET_VARIABLE | x >> 4 : x;
}

static inline unsigned net_width(unsigned symbol) { return symbol & NET_VARIABLE ? 5 : 9; }

static inline unsigned net_key(unsigned symbol) { return symbol & NET_VARIABLE ? NET_PART : symbol; }

// Rule j goes along the paths that are there until it parts from them. `tail` has the last rule of each path that several have.
static inline void net_insert(net *n, const uint8_t *book, size_t bytes, const uint32_t *lefts, const uint8_t *arity, unsigned j, uint8_t *tail) {
    unsigned root = net_symbol(book, bytes, lefts[j]), i = n->root[root];
    if (!i) {
        n->root[root] = (uint8_t)(j + 1);
        return;
    }
    i--;
    size_t at = 9;
    unsigned d = 1;
    for (unsigned due = arity[root]; due > 0; d++) {
        unsigned own = net_symbol(book, bytes, lefts[i] + at), new = net_symbol(book, bytes, lefts[j] + at), key = net_key(new);
        if (net_key(own) != key) {
            unsigned r = net_way(n, i, d, key);
            if (!r) {
                net_put_way(n, i, d, key, j, (own | new) & NET_VARIABLE);
                return;
            }
            i = r - 1;
        }
        at += net_width(new);
        due += (new & NET_VARIABLE ? 0u : arity[new]) - 1u;
    }
    if (n->same[i]) n->same[tail[i]] = (uint8_t)(j + 1);
    else n->same[i] = (uint8_t)(j + 1);
    tail[i] = (uint8_t)j;
}

// The net of so many rules. What it held doesn't matter; next and ways are written before they are read.
static inline void net_build(net *n, const uint8_t *book, size_t bytes, const uint32_t *lefts, unsigned rules, const uint8_t *arity) {
    uint8_t tail[256];
    memset(n, 0, offsetof(net, next));
    for (unsigned j = 0; j < rules; j++) net_insert(n, book, bytes, lefts, arity, j, tail);
}
#endif
