/*
 * Posts a few lines by one book, through answers that are too short for all records at once. In the repository's folder:
 *
 *   tools/build kurvneist
 *   cc -O2 -Wall -Wextra -Ilibrary/include -o target/lines library/examples/lines.c target/staticlib/libkurvneist.a
 *   target/lines
 */
#include "kurvneist.h"
#include <stdio.h>

/* both(end, Y) gives Y; both(tick(X), Y) gives tick(both(X, Y)) */
static const uint8_t book[] = {0x03, 0x02, 0x52, 0xc0, 0x94, 0x80, 0x10, 0x08, 0x01,
                               0x18, 0x80, 0x80, 0x30, 0x88, 0x04, 0x05, 0x08, 0x80};
/* each line behind its length in two bytes; 7 is no operator, and both without arguments is no term */
static const uint8_t lines[] = {0, 5, 2, 1, 0, 1, 0, 0, 1, 7, 0, 6, 2, 1, 0, 1, 1, 0, 0, 1, 2, 0, 1, 0};
enum { LINES = 5 };

static uint8_t work[KURVNEIST_WORK_LENGTH];
static uint8_t net[KURVNEIST_NET_LENGTH];
static uint8_t answers[KURVNEIST_LONGEST_RECORD + 40];

/* The bytes of a run's record before its term, and where in it the ending and the term's length stand. */
enum { HEAD = 32, ENDING = 1, LENGTH = 30 };

/* Prints a record and answers how many bytes it has, or 0 if it is no posting and no refusal. */
static size_t print_record(const uint8_t *record) {
    if (record[0] != 0) {
        printf("refused %u\n", record[0]);
        return 1;
    }
    if (record[ENDING] != KURVNEIST_FINISHED) return 0;
    size_t length = (size_t)record[LENGTH] * 256 + record[LENGTH + 1];
    for (size_t symbol = 0; symbol < length; symbol++) printf(symbol ? " %u" : "%u", record[HEAD + symbol]);
    printf("\n");
    return HEAD + length;
}

/* Prints so many records, which take exactly the bytes written. */
static int print_records(uint64_t count, uint64_t written) {
    uint64_t at = 0;
    for (uint64_t line = 0; line < count; line++) {
        size_t taken = print_record(answers + at);
        if (taken == 0) return 0;
        at += taken;
    }
    return at == written;
}

int main(void) {
    static const uint8_t schedule[100]; /* unit 0, a hundred times */
    uint64_t done[KURVNEIST_DONE_LENGTH];
    uint64_t count = 0;
    size_t read = 0;
    do {
        uint8_t refusal = kurvneist_reduce_lines(book, sizeof book, lines + read, sizeof lines - read, 1, 9, 0,
                                                 schedule, sizeof schedule, work, sizeof work, net, sizeof net,
                                                 answers, sizeof answers, done);
        if (refusal != KURVNEIST_ACCEPTED) {
            printf("refused %u\n", refusal);
            return 1;
        }
        if (!print_records(done[KURVNEIST_DONE_LINES], done[KURVNEIST_DONE_WRITTEN])) return 1;
        count += done[KURVNEIST_DONE_LINES];
        read += done[KURVNEIST_DONE_READ];
    } while (done[KURVNEIST_DONE_STOP] == KURVNEIST_STOP_ROOM);
    return done[KURVNEIST_DONE_STOP] != KURVNEIST_STOP_END || count != LINES || read != sizeof lines;
}
