/*
 * Posts a line and charges it, as a payment and as its refund. In the repository's folder:
 *
 *   tools/build kurvneist
 *   cc -O2 -Wall -Wextra -Ilibrary/include -o target/fees library/examples/fees.c target/staticlib/libkurvneist.a
 *   target/fees
 */
#include "kurvneist.h"
#include <inttypes.h>
#include <stdio.h>

/* both(end, Y) gives Y; both(tick(X), Y) gives tick(both(X, Y)) */
static const uint8_t book[] = {0x03, 0x02, 0x52, 0xc0, 0x94, 0x80, 0x10, 0x08, 0x01,
                               0x18, 0x80, 0x80, 0x30, 0x88, 0x04, 0x05, 0x08, 0x80};
/* both(tick(end), tick(end)), which is posted as tick(tick(end)) */
static const uint8_t line[] = {2, 1, 0, 1, 0};
static const uint8_t schedule[100]; /* unit 0, a hundred times */
/* nothing for end, 350 ten-thousandths for tick; both has no rate */
static const uint8_t rates[] = {0x00, 0x00, 0x01, 0x5e};
static const uint16_t shares[] = {3333, 3333, 3334};
enum { OWNERS = sizeof shares / sizeof shares[0] };

static uint8_t output[KURVNEIST_OUTPUT_LENGTH];

/* Prints fee and parts, and answers whether they add up to the amount. */
static int print_charge(int64_t amount, int64_t fee, const int64_t *parts) {
    int64_t sum = fee;
    printf("%" PRId64 ": fee %" PRId64 ", parts", amount, fee);
    for (size_t owner = 0; owner < OWNERS; owner++) {
        printf(" %" PRId64, parts[owner]);
        sum += parts[owner];
    }
    printf("\n");
    return sum == amount;
}

/* Settles the line for this amount; answers whether that went as it should. */
static int settle(int64_t amount) {
    uint64_t answer[KURVNEIST_ANSWER_LENGTH], charged;
    int64_t parts[KURVNEIST_MOST_OWNERS], fee;
    uint8_t refusal = kurvneist_settle(book, sizeof book, line, sizeof line, 1, 9, 0, schedule, sizeof schedule, rates,
                                       sizeof rates, amount, shares, OWNERS, output, sizeof output, parts, answer, &fee,
                                       &charged);
    if (refusal != KURVNEIST_ACCEPTED) {
        printf("%" PRId64 ": refused %u\n", amount, refusal);
        return refusal == KURVNEIST_AMOUNT_OUT_OF_RANGE && charged == 0;
    }
    return charged && answer[KURVNEIST_ENDING] == KURVNEIST_FINISHED && print_charge(amount, fee, parts);
}

int main(void) {
    static const int64_t amounts[] = {10100, -10100, 2 * KURVNEIST_LARGEST_AMOUNT};
    for (size_t place = 0; place < sizeof amounts / sizeof amounts[0]; place++) {
        if (!settle(amounts[place])) return 1;
    }
    return 0;
}
