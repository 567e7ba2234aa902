/*
 * Posts a payee as four people type it; all four come out alike. In the repository's folder:
 *
 *   tools/build kurvneist
 *   cc -O2 -Wall -Wextra -Ilibrary/include -o target/payee library/examples/payee.c target/staticlib/libkurvneist.a
 *   target/payee
 */
#include "kurvneist.h"
#include <stdio.h>
#include <string.h>

/*
 * 43 operators: 0 without arguments, and 1 to 42 with one each. One rule: 42(X) gives X, so that it doesn't matter where
 * words are parted.
 */
static const uint8_t book[] = {43,   0x02, 0x22, 0x22, 0x22, 0x22, 0x22, 0x22, 0x22, 0x22, 0x22, 0x22, 0x22,
                               0x22, 0x22, 0x22, 0x22, 0x22, 0x22, 0x22, 0x22, 0x22, 0x20, 0x11, 0x54, 0x20};

/* In ISO 8859-1, E9 is e with an acute accent and C9 its capital. */
static const char *const payees[] = {"Caf\xE9 \xC9toile", "CAFE ETOILE", " caf\xE9-\xE9toile.", "CafeEtoile"};

static uint8_t work[KURVNEIST_WORK_LENGTH];
static uint8_t net[KURVNEIST_NET_LENGTH];
static uint8_t output[KURVNEIST_OUTPUT_LENGTH];

/* The letters of a term of letters: 1 is A. */
static void print_letters(uint64_t length) {
    for (uint64_t symbol = 0; symbol + 1 < length; symbol++) putchar('A' + output[symbol] - 1);
    putchar('\n');
}

int main(void) {
    static const uint8_t schedule[100]; /* unit 0, a hundred times */
    for (size_t payee = 0; payee < sizeof payees / sizeof *payees; payee++) {
        uint64_t answer[KURVNEIST_ANSWER_LENGTH];
        uint8_t refusal = kurvneist_payee(book, sizeof book, (const uint8_t *)payees[payee], strlen(payees[payee]), 1, 9, 0,
                                          schedule, sizeof schedule, work, sizeof work, net, sizeof net, output, sizeof output,
                                          answer);
        if (refusal != KURVNEIST_ACCEPTED) {
            printf("refused %u\n", refusal);
            return 1;
        }
        print_letters(answer[KURVNEIST_LENGTH]);
    }
    return 0;
}
