// The first rule that matches at an offset, by the net. Who includes this defines before it
//   NET_CONTEXT               the type of what these take first, by a pointer
//   NET_OF(c)                 its net
//   NET_SYMBOL(c, i, d, at)   the symbol of rule i's left side at depth d, whose bit position there is `at`
//   NET_CELL(c, q)            the term's symbol at an offset
//   NET_SIZE(c, q)            the size of the part that it begins
//   NET_MATCH(c, i, offset)   does rule i match, its variables bound by that?
#include "net.h"

// A node: so many symbols of a rule's path, in so many bits, and the term's offset there.
typedef struct {
    uint8_t rule, depth;
    uint16_t at, offset;
} net_spot;

// The first of the rules with the path of rule i that matches, if it stands before the best.
static inline unsigned net_try(NET_CONTEXT *c, unsigned offset, unsigned i, unsigned best) {
    for (unsigned r = i + 1; r && r < best; r = NET_OF(c)->same[r - 1])
        if (NET_MATCH(c, r - 1, offset)) return r;
    return 0;
}

// Down from a node to the end of a path, whose first rule is then the node's; 0 where no branch agrees, or none with a rule before the best. Where both
// the symbol's branch and a variable's agree, the latter is left on the stack.
static inline int net_down(NET_CONTEXT *c, net_spot *s, unsigned best, net_spot *stack, unsigned *height) {
    const net *n = NET_OF(c);
    unsigned i = s->rule, d = s->depth, at = s->at, q = s->offset;
    while (i + 1 < best) {
        if (n->last[i] <= d) {
            s->rule = (uint8_t)i;
            return 1;
        }
        unsigned own = NET_SYMBOL(c, i, d, at), x = NET_CELL(c, q);
        unsigned by_symbol = own == x ? i + 1 : net_way(n, i, d, x), by_part = 0;
        if (d < n->choice[i] || own & NET_VARIABLE) by_part = own & NET_VARIABLE ? i + 1 : net_way(n, i, d, NET_PART);
        d++;
        if (by_part) {
            net_spot other = {(uint8_t)(by_part - 1), (uint8_t)d, (uint16_t)(at + 5), (uint16_t)(q + NET_SIZE(c, q))};
            if (by_symbol) stack[(*height)++] = other;
            else {
                i = other.rule, at = other.at, q = other.offset;
                continue;
            }
        }
        if (!by_symbol) return 0;
        i = by_symbol - 1, at += 9, q++;
    }
    return 0;
}

// From a node with a choice on. The match that is kept is made again if others were tried behind it.
static unsigned net_search(NET_CONTEXT *c, unsigned offset, net_spot start) {
    net_spot stack[64];
    unsigned height = 1, best = 256, tried_behind = 0;
    stack[0] = start;
    while (height) {
        net_spot s = stack[--height];
        if (!net_down(c, &s, best, stack, &height)) continue;
        unsigned found = net_try(c, offset, s.rule, best);
        tried_behind = !found;
        if (found) best = found;
    }
    if (best == 256) return 0;
    if (tried_behind) (void)NET_MATCH(c, best - 1, offset);
    return best;
}

// The rule's number, one added, or 0. A root without rules is not asked for.
static inline unsigned net_find(NET_CONTEXT *c, unsigned offset) {
    const net *n = NET_OF(c);
    unsigned i = n->root[NET_CELL(c, offset)];
    if (!i) return 0;
    i--;
    unsigned d = 1, at = 9, q = offset + 1;
    while (d < n->last[i]) {
        if (d < n->choice[i]) return net_search(c, offset, (net_spot){(uint8_t)i, (uint8_t)d, (uint16_t)at, (uint16_t)q});
        unsigned own = NET_SYMBOL(c, i, d, at);
        d++;
        if (own & NET_VARIABLE) {
            at += 5;
            q += NET_SIZE(c, q);
            continue;
        }
        unsigned x = NET_CELL(c, q++);
        at += 9;
        if (own == x) continue;
        i = net_way(n, i, d - 1, x);
        if (!i) return 0;
        i--;
    }
    return net_try(c, offset, i, 256);
}
