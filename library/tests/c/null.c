/* A null pointer with a length of 0 is a buffer without bytes, wherever one is lent. */
#include "kurvneist.h"
#include <stdio.h>

/* one constant, no rules */
static const uint8_t constant[] = {0x01, 0x00, 0x00};
static const uint8_t line[] = {0};

/* operator 0 without arguments, 1 to 42 with one each, no rules */
static const uint8_t letters[] = {43,   0x02, 0x22, 0x22, 0x22, 0x22, 0x22, 0x22, 0x22, 0x22, 0x22, 0x22,
                                  0x22, 0x22, 0x22, 0x22, 0x22, 0x22, 0x22, 0x22, 0x22, 0x22, 0x20, 0x00};

static uint8_t work[KURVNEIST_WORK_LENGTH];
static uint8_t net[KURVNEIST_NET_LENGTH];
static uint8_t output[KURVNEIST_OUTPUT_LENGTH];
static uint8_t answers[KURVNEIST_LONGEST_RECORD];
static uint64_t answer[KURVNEIST_ANSWER_LENGTH];
static uint64_t done[KURVNEIST_DONE_LENGTH];
static int64_t parts[KURVNEIST_MOST_OWNERS];
static int64_t fee;
static uint64_t charged;
static uint8_t points[KURVNEIST_POINTS_LENGTH];
static int wrong = 0;

static void due(const char *what, uint8_t expected, uint8_t told) {
    if (told == expected) return;
    printf("%s: %u in the place of %u\n", what, told, expected);
    wrong++;
}

/* Both areas, the output and the answers, each with its length. */
#define WORK work, sizeof work
#define NET net, sizeof net
#define OUTPUT output, sizeof output
#define ANSWERS answers, sizeof answers
#define POINTS points, sizeof points
#define NOTHING NULL, 0

static void lines(void) {
    due("no book", KURVNEIST_BOOK_RUNS_OUT,
        kurvneist_reduce(NOTHING, line, sizeof line, 1, 9, 0, NOTHING, WORK, NET, OUTPUT, answer));
    due("no line", KURVNEIST_LINE_IS_NO_TERM,
        kurvneist_reduce(constant, sizeof constant, NOTHING, 1, 9, 0, NOTHING, WORK, NET, OUTPUT, answer));
    due("no work area", KURVNEIST_WORK_TOO_SHORT,
        kurvneist_reduce(constant, sizeof constant, line, sizeof line, 1, 9, 0, NOTHING, NOTHING, NET, OUTPUT, answer));
    due("no area for the net", KURVNEIST_WORK_TOO_SHORT,
        kurvneist_reduce(constant, sizeof constant, line, sizeof line, 1, 9, 0, NOTHING, WORK, NOTHING, OUTPUT, answer));
    due("no output", KURVNEIST_OUTPUT_TOO_SHORT,
        kurvneist_reduce(constant, sizeof constant, line, sizeof line, 1, 9, 0, NOTHING, WORK, NET, NOTHING, answer));
    due("nothing", KURVNEIST_BAD_UNITS,
        kurvneist_reduce(NOTHING, NOTHING, 0, 0, 0, NOTHING, NOTHING, NOTHING, NOTHING, answer));
    due("no schedule", KURVNEIST_ACCEPTED,
        kurvneist_reduce(constant, sizeof constant, line, sizeof line, 1, 9, 0, NOTHING, WORK, NET, OUTPUT, answer));
    due("the ending without a schedule", KURVNEIST_CUT, (uint8_t)answer[KURVNEIST_ENDING]);
}

static void texts(void) {
    due("a text without a book", KURVNEIST_BOOK_RUNS_OUT,
        kurvneist_payee(NOTHING, NOTHING, 1, 9, 0, NOTHING, WORK, NET, OUTPUT, answer));
    due("no area for the net of a text", KURVNEIST_WORK_TOO_SHORT,
        kurvneist_payee(NOTHING, NOTHING, 1, 9, 0, NOTHING, WORK, NOTHING, OUTPUT, answer));
    due("no text, no letters", KURVNEIST_NO_LETTERS,
        kurvneist_payee(constant, sizeof constant, NOTHING, 1, 9, 0, NOTHING, WORK, NET, OUTPUT, answer));
    output[0] = 7;
    due("no text", KURVNEIST_ACCEPTED,
        kurvneist_payee(letters, sizeof letters, NOTHING, 1, 9, 0, NOTHING, WORK, NET, OUTPUT, answer));
    due("the symbols of no text", 1, (uint8_t)answer[KURVNEIST_LENGTH]);
    due("the term of no text", 0, output[0]);
}

static void many(void) {
    static const uint8_t one[] = {0, 1, 0}; /* a line of one byte */
    due("many lines without a book", KURVNEIST_BOOK_RUNS_OUT,
        kurvneist_reduce_lines(NOTHING, one, sizeof one, 1, 9, 0, NOTHING, WORK, NET, ANSWERS, done));
    due("many lines without a work area", KURVNEIST_WORK_TOO_SHORT,
        kurvneist_reduce_lines(constant, sizeof constant, one, sizeof one, 1, 9, 0, NOTHING, NOTHING, NET, ANSWERS, done));
    due("many lines without an area for the net", KURVNEIST_WORK_TOO_SHORT,
        kurvneist_reduce_lines(constant, sizeof constant, one, sizeof one, 1, 9, 0, NOTHING, WORK, NOTHING, ANSWERS, done));
    due("no lines", KURVNEIST_ACCEPTED,
        kurvneist_reduce_lines(constant, sizeof constant, NOTHING, 1, 9, 0, NOTHING, WORK, NET, NOTHING, done));
    due("the stop of no lines", KURVNEIST_STOP_END, (uint8_t)done[KURVNEIST_DONE_STOP]);
    due("no answers", KURVNEIST_ACCEPTED,
        kurvneist_reduce_lines(constant, sizeof constant, one, sizeof one, 1, 9, 0, NOTHING, WORK, NET, NOTHING, done));
    due("the stop without answers", KURVNEIST_STOP_ROOM, (uint8_t)done[KURVNEIST_DONE_STOP]);
    due("no schedule for many lines", KURVNEIST_ACCEPTED,
        kurvneist_reduce_lines(constant, sizeof constant, one, sizeof one, 1, 9, 0, NOTHING, WORK, NET, ANSWERS, done));
    due("the record's bytes without a schedule", 33, (uint8_t)done[KURVNEIST_DONE_WRITTEN]);
    due("the ending without a schedule, among many", KURVNEIST_CUT, answers[1]);
    due("no texts", KURVNEIST_ACCEPTED,
        kurvneist_payee_lines(letters, sizeof letters, NOTHING, 1, 9, 0, NOTHING, WORK, NET, NOTHING, done));
    due("nothing, for many lines", KURVNEIST_BAD_UNITS,
        kurvneist_payee_lines(NOTHING, NOTHING, 0, 0, 0, NOTHING, NOTHING, NOTHING, NOTHING, done));
}

static void fees(void) {
    static const uint8_t rates[] = {0x01, 0x5e};
    static const uint16_t shares[] = {10000};
    due("no posting to charge", KURVNEIST_BAD_RATE_OR_SHARES,
        kurvneist_charge(NOTHING, rates, sizeof rates, 100, shares, 1, parts, &fee));
    due("no rates", KURVNEIST_BAD_RATE_OR_SHARES,
        kurvneist_charge(line, sizeof line, NOTHING, 100, shares, 1, parts, &fee));
    due("no owners", KURVNEIST_BAD_RATE_OR_SHARES,
        kurvneist_charge(line, sizeof line, rates, sizeof rates, 100, NOTHING, parts, &fee));
    due("nothing to charge", KURVNEIST_AMOUNT_OUT_OF_RANGE,
        kurvneist_charge(NOTHING, NOTHING, INT64_MIN, NOTHING, parts, &fee));
    due("no output to settle in", KURVNEIST_OUTPUT_TOO_SHORT,
        kurvneist_settle(constant, sizeof constant, line, sizeof line, 1, 9, 0, NOTHING, rates, sizeof rates, 100,
                         shares, 1, NOTHING, parts, answer, &fee, &charged));
    charged = 7;
    due("no schedule, no rates, no owners", KURVNEIST_ACCEPTED,
        kurvneist_settle(constant, sizeof constant, line, sizeof line, 1, 9, 0, NOTHING, NOTHING, 100, NOTHING, OUTPUT,
                         parts, answer, &fee, &charged));
    due("the ending of what is not charged", KURVNEIST_CUT, (uint8_t)answer[KURVNEIST_ENDING]);
    due("what is not charged", 0, (uint8_t)charged);
    due("no text to settle, no rates, no owners", KURVNEIST_ACCEPTED,
        kurvneist_settle_payee(letters, sizeof letters, NOTHING, 1, 9, 0, NOTHING, NOTHING, 100, NOTHING, OUTPUT, parts,
                               answer, &fee, &charged));
    due("nothing to settle", KURVNEIST_BAD_UNITS,
        kurvneist_settle_payee(NOTHING, NOTHING, 0, 0, 0, NOTHING, NOTHING, 0, NOTHING, NOTHING, parts, answer, &fee,
                               &charged));
}

static void books(void) {
    due("nothing to write", KURVNEIST_BOOK_RUNS_OUT, kurvneist_write_book(NULL, 0, NULL, 0, answer));
    due("nowhere to write", KURVNEIST_OUTPUT_TOO_SHORT, kurvneist_write_book(constant, sizeof constant, NULL, 0, answer));
}

static void strict(void) {
    uint64_t pair[KURVNEIST_PAIR_LENGTH] = {7, 7};
    due("nothing for the strict profile", KURVNEIST_BOOK_RUNS_OUT, kurvneist_strict_book(NULL, 0, pair));
    due("the pair of nothing", 0, (uint8_t)(pair[0] | pair[1]));
}

static void names(void) {
    static const uint8_t name[] = {'n'};
    due("no name", KURVNEIST_BAD_POINT_OR_NAME,
        kurvneist_park(constant, sizeof constant, line, sizeof line, 1, 9, 0, NOTHING, NOTHING, WORK, NET,
                       POINTS, OUTPUT, answer));
    due("no points", KURVNEIST_OUTPUT_TOO_SHORT,
        kurvneist_park(constant, sizeof constant, line, sizeof line, 1, 9, 0, NOTHING, name, sizeof name,
                       WORK, NET, NOTHING, OUTPUT, answer));
    due("no schedule for a name", KURVNEIST_ACCEPTED,
        kurvneist_park(constant, sizeof constant, line, sizeof line, 1, 9, 0, NOTHING, name, sizeof name,
                       WORK, NET, POINTS, OUTPUT, answer));
    due("no text for a name", KURVNEIST_ACCEPTED,
        kurvneist_park_payee(letters, sizeof letters, NOTHING, 1, 9, 0, NOTHING, name, sizeof name, WORK, NET,
                       POINTS, OUTPUT, answer));
    due("no schedule to resume with", KURVNEIST_ACCEPTED,
        kurvneist_resume(name, sizeof name, NOTHING, WORK, NET, POINTS, OUTPUT, answer));
    due("no name to resume", KURVNEIST_BAD_POINT_OR_NAME,
        kurvneist_resume(NOTHING, NOTHING, WORK, NET, POINTS, OUTPUT, answer));
    due("no points to resume", KURVNEIST_OUTPUT_TOO_SHORT,
        kurvneist_resume(name, sizeof name, NOTHING, WORK, NET, NOTHING, OUTPUT, answer));
    due("nothing to resume", KURVNEIST_WORK_TOO_SHORT,
        kurvneist_resume(NOTHING, NOTHING, NOTHING, NOTHING, NOTHING, NOTHING, answer));
    due("nothing to park", KURVNEIST_BAD_UNITS,
        kurvneist_park(NOTHING, NOTHING, 0, 0, 0, NOTHING, NOTHING, NOTHING, NOTHING, NOTHING, NOTHING,
                       answer));
}

static void bounds(void) {
    uint64_t bound[KURVNEIST_BOUND_LENGTH] = {7, 7, 7};
    due("no book to bound by", KURVNEIST_BOOK_RUNS_OUT,
        kurvneist_bound(NOTHING, line, sizeof line, 9, 0, WORK, NET, bound));
    due("the numbers of no book", 0, (uint8_t)(bound[0] | bound[1] | bound[2]));
    due("no line to bound", KURVNEIST_LINE_IS_NO_TERM,
        kurvneist_bound(constant, sizeof constant, NOTHING, 9, 0, WORK, NET, bound));
    due("no work area for a bound", KURVNEIST_WORK_TOO_SHORT,
        kurvneist_bound(constant, sizeof constant, line, sizeof line, 9, 0, NOTHING, NET, bound));
    due("no area for the net of a bound", KURVNEIST_WORK_TOO_SHORT,
        kurvneist_bound(constant, sizeof constant, line, sizeof line, 9, 0, WORK, NOTHING, bound));
    due("no text to bound, no letters", KURVNEIST_NO_LETTERS,
        kurvneist_bound_payee(constant, sizeof constant, NOTHING, 9, 0, WORK, NET, bound));
    due("no text to bound", KURVNEIST_ACCEPTED,
        kurvneist_bound_payee(letters, sizeof letters, NOTHING, 9, 0, WORK, NET, bound));
    due("the orders of no text", 3, (uint8_t)bound[KURVNEIST_BOUND_ORDERS]);
    due("nothing to bound", KURVNEIST_WORK_TOO_SHORT,
        kurvneist_bound_payee(NOTHING, NOTHING, 0, 0, NOTHING, NOTHING, bound));
}

int main(void) {
    lines();
    texts();
    many();
    fees();
    books();
    strict();
    names();
    bounds();
    return wrong != 0;
}
