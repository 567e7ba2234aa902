/*
 * Says of two books whether the order of their rules is free. In the repository's folder:
 *
 *   tools/build kurvneist
 *   cc -O2 -Wall -Wextra -Ilibrary/include -o target/strict library/examples/strict.c target/staticlib/libkurvneist.a
 *   target/strict
 */
#include "kurvneist.h"
#include <inttypes.h>
#include <stdio.h>

/* both(end, Y) gives Y; both(tick(X), Y) gives tick(both(X, Y)) */
static const uint8_t ticks[] = {0x03, 0x02, 0x52, 0xc0, 0x94, 0x80, 0x10, 0x08, 0x01,
                                0x18, 0x80, 0x80, 0x30, 0x88, 0x04, 0x05, 0x08, 0x80};
/* the same, and both(X, end) gives X */
static const uint8_t argued[] = {0x03, 0x02, 0x52, 0xc0, 0x94, 0x80, 0x18, 0x08, 0x01, 0x18, 0x80,
                                 0x80, 0x30, 0x88, 0x04, 0x05, 0x08, 0x80, 0xa0, 0x00, 0x80};

static void tell(const uint8_t *book, size_t length) {
    uint64_t pair[KURVNEIST_PAIR_LENGTH];
    uint8_t refusal = kurvneist_strict_book(book, length, pair);
    if (refusal == KURVNEIST_ACCEPTED) printf("the order of the rules is free\n");
    else if (refusal == KURVNEIST_RULES_OVERLAP) printf("rules %" PRIu64 " and %" PRIu64 " match one term\n", pair[0], pair[1]);
    else printf("refused %u\n", refusal);
}

int main(void) {
    tell(ticks, sizeof ticks);
    tell(argued, sizeof argued);
    return 0;
}
