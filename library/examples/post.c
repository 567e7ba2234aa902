/*
 * Posts one line. In the repository's folder:
 *
 *   tools/build kurvneist
 *   cc -O2 -Wall -Wextra -Ilibrary/include -o target/post library/examples/post.c target/staticlib/libkurvneist.a
 *   target/post
 */
#include "kurvneist.h"
#include <inttypes.h>
#include <stdio.h>

/* both(end, Y) gives Y; both(tick(X), Y) gives tick(both(X, Y)) */
static const uint8_t book[] = {0x03, 0x02, 0x52, 0xc0, 0x94, 0x80, 0x10, 0x08, 0x01,
                               0x18, 0x80, 0x80, 0x30, 0x88, 0x04, 0x05, 0x08, 0x80};
/* both(tick(end), tick(end)) */
static const uint8_t line[] = {2, 1, 0, 1, 0};

static uint8_t work[KURVNEIST_WORK_LENGTH];
static uint8_t net[KURVNEIST_NET_LENGTH];
static uint8_t output[KURVNEIST_OUTPUT_LENGTH];

int main(void) {
    uint8_t schedule[100];
    for (size_t entry = 0; entry < sizeof schedule; entry++) schedule[entry] = (uint8_t)(entry % 2);

    /* day 0: the book is undated and ignores it */
    uint64_t answer[KURVNEIST_ANSWER_LENGTH];
    uint8_t refusal = kurvneist_reduce(book, sizeof book, line, sizeof line, 2, 9, 0, schedule, sizeof schedule,
                                       work, sizeof work, net, sizeof net, output, sizeof output, answer);
    if (refusal != KURVNEIST_ACCEPTED) {
        printf("refused %u\n", refusal);
        return 1;
    }
    printf("ending %" PRIu64 ", rewrites %" PRIu64, answer[KURVNEIST_ENDING], answer[KURVNEIST_REWRITES]);
    printf(", FORKs granted %" PRIu64 ", kept %" PRIu64 ", term", answer[KURVNEIST_GRANTED], answer[KURVNEIST_KEPT]);
    for (uint64_t symbol = 0; symbol < answer[KURVNEIST_LENGTH]; symbol++) printf(" %u", output[symbol]);
    printf("\n");
    return 0;
}
