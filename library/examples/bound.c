/*
 * Asks how long a schedule suffices, and runs on so many rounds. In the repository's folder:
 *
 *   tools/build kurvneist
 *   cc -O2 -Wall -Wextra -Ilibrary/include -o target/bound library/examples/bound.c target/staticlib/libkurvneist.a
 *   target/bound
 */
#include "kurvneist.h"
#include <inttypes.h>
#include <stdio.h>
#include <stdlib.h>

/* both(end, Y) gives Y; both(tick(X), Y) gives tick(both(X, Y)) */
static const uint8_t book[] = {0x03, 0x02, 0x52, 0xc0, 0x94, 0x80, 0x10, 0x08, 0x01,
                               0x18, 0x80, 0x80, 0x30, 0x88, 0x04, 0x05, 0x08, 0x80};
/* both(tick(end), tick(end)) */
static const uint8_t line[] = {2, 1, 0, 1, 0};

/* a constant and an operator of one argument: 1(X) gives 1(1(X)), for ever */
static const uint8_t growing[] = {0x02, 0x02, 0x01, 0x00, 0xc0, 0x02, 0x01, 0x80};
static const uint8_t grown[] = {1, 0};

static uint8_t work[KURVNEIST_WORK_LENGTH];
static uint8_t net[KURVNEIST_NET_LENGTH];
static uint8_t output[KURVNEIST_OUTPUT_LENGTH];

/* Rounds that suffice for a line with this budget, whatever the number of units; 0 if that is not known. */
static uint64_t rounds_for(const uint8_t *by, size_t length, const uint8_t *term, size_t symbols, uint32_t budget) {
    uint64_t told[KURVNEIST_BOUND_LENGTH];
    uint8_t refusal = kurvneist_bound(by, length, term, symbols, budget, 0, work, sizeof work, net, sizeof net, told);
    if (refusal != KURVNEIST_ACCEPTED) {
        printf("refused %u\n", refusal);
        return 0;
    }
    if (told[KURVNEIST_BOUND_ENDING] != KURVNEIST_FINISHED) {
        printf("not known: one unit ends %" PRIu64 "\n", told[KURVNEIST_BOUND_ENDING]);
        return 0;
    }
    return told[KURVNEIST_BOUND_ORDERS] + 4 * told[KURVNEIST_BOUND_FORKS];
}

/* Runs the line on so many units, each named once in every round; answers whether it finished. */
static int run(uint8_t units, uint64_t rounds) {
    size_t entries = (size_t)rounds * units;
    uint8_t *schedule = malloc(entries);
    if (schedule == NULL) return 0;
    for (size_t entry = 0; entry < entries; entry++) schedule[entry] = (uint8_t)(entry % units);
    uint64_t answer[KURVNEIST_ANSWER_LENGTH];
    uint8_t refusal = kurvneist_reduce(book, sizeof book, line, sizeof line, units, 9, 0, schedule, entries, work, sizeof work,
                                       net, sizeof net, output, sizeof output, answer);
    free(schedule);
    printf("%u unit%s: %" PRIu64 " rounds of %u suffice; ending %" PRIu64 " after %" PRIu64 " entries\n", units,
           units == 1 ? "" : "s", rounds, units, answer[KURVNEIST_ENDING], answer[KURVNEIST_ENTRIES]);
    return refusal == KURVNEIST_ACCEPTED && answer[KURVNEIST_ENDING] == KURVNEIST_FINISHED;
}

int main(void) {
    uint64_t rounds = rounds_for(book, sizeof book, line, sizeof line, 9);
    if (rounds == 0) return 1;
    if (!run(1, rounds) || !run(2, rounds) || !run(8, rounds)) return 1;
    return rounds_for(growing, sizeof growing, grown, sizeof grown, UINT32_MAX) != 0;
}
