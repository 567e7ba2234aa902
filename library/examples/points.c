/*
 * Parks a run and goes on with it. In the repository's folder:
 *
 *   tools/build kurvneist
 *   cc -O2 -Wall -Wextra -Ilibrary/include -o target/points library/examples/points.c target/staticlib/libkurvneist.a
 *   target/points
 */
#include "kurvneist.h"
#include <inttypes.h>
#include <stdio.h>

/* both(end, Y) gives Y; both(tick(X), Y) gives tick(both(X, Y)) */
static const uint8_t book[] = {0x03, 0x02, 0x52, 0xc0, 0x94, 0x80, 0x10, 0x08, 0x01,
                               0x18, 0x80, 0x80, 0x30, 0x88, 0x04, 0x05, 0x08, 0x80};
/* both(tick(end), tick(end)) */
static const uint8_t line[] = {2, 1, 0, 1, 0};
static const uint8_t name[] = {'m', 'a', 'y'};

static uint8_t work[KURVNEIST_WORK_LENGTH];
static uint8_t net[KURVNEIST_NET_LENGTH];
static uint8_t output[KURVNEIST_OUTPUT_LENGTH];
static uint64_t answer[KURVNEIST_ANSWER_LENGTH];

/* All zero: no points. A caller keeps these bytes, in a file say. */
static uint8_t points[KURVNEIST_POINTS_LENGTH];

static int tell(const char *what, uint8_t refusal) {
    if (refusal != KURVNEIST_ACCEPTED) {
        printf("refused %u\n", refusal);
        return 1;
    }
    printf("%s: ending %" PRIu64 ", entries %" PRIu64 ", rewrites %" PRIu64 ", term", what, answer[KURVNEIST_ENDING],
           answer[KURVNEIST_ENTRIES], answer[KURVNEIST_REWRITES]);
    for (uint64_t symbol = 0; symbol < answer[KURVNEIST_LENGTH]; symbol++) printf(" %u", output[symbol]);
    printf("\n");
    return 0;
}

int main(void) {
    uint8_t schedule[100];
    for (size_t entry = 0; entry < sizeof schedule; entry++) schedule[entry] = (uint8_t)(entry % 2);

    /* two units, budget 9, day 0; twelve entries, and then all */
    uint8_t refusal = kurvneist_park(book, sizeof book, line, sizeof line, 2, 9, 0, schedule, 12, name, sizeof name,
                                     work, sizeof work, net, sizeof net, points, sizeof points, output, sizeof output,
                                     answer);
    if (tell("parked", refusal)) return 1;
    refusal = kurvneist_resume(name, sizeof name, schedule, sizeof schedule, work, sizeof work, net, sizeof net,
                               points, sizeof points, output, sizeof output, answer);
    return tell("resumed", refusal);
}
