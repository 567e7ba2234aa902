// Lines by one book, in one call for all: how they are run, and whether their records are those of one call for each.
#ifndef LINES_H
#define LINES_H
#include "../library/include/kurvneist.h"
#include "engine.h"
#include <string.h>

enum { MOST_LINES = 1000, MOST_ROOM = MOST_LINES * RECORD_LENGTH };

lines_reducer kurvneist_reduce_lines;

typedef struct {
    const uint8_t *book, *lines, *schedule;
    size_t book_length, lines_length, schedule_length, room; // for records
    uint32_t budget;
    uint16_t day;
    uint8_t units;
} batch;

typedef struct {
    uint64_t done[DONE_LENGTH];
    uint8_t refusal, work[KURVNEIST_WORK_LENGTH], net[KURVNEIST_NET_LENGTH], answers[MOST_ROOM + RECORD_LENGTH];
} batch_result;

// What of a result is compared: a record more than there is room for.
static inline size_t compared(const batch *b) { return offsetof(batch_result, answers) + b->room + RECORD_LENGTH; }

static inline void run_batch(lines_reducer *reduce, const batch *b, batch_result *r) {
    r->refusal = reduce(b->book, b->book_length, b->lines, b->lines_length, b->units, b->budget, b->day, b->schedule, b->schedule_length,
        r->work, sizeof r->work, r->net, sizeof r->net, r->answers, b->room, r->done);
}

// A line by itself.

typedef struct {
    uint64_t answer[KURVNEIST_ANSWER_LENGTH];
    uint8_t refusal, work[KURVNEIST_WORK_LENGTH], net[KURVNEIST_NET_LENGTH], output[KURVNEIST_OUTPUT_LENGTH];
} line_result;

static inline void run_line(reducer *reduce, const batch *b, const uint8_t *line, size_t length, line_result *r) {
    r->refusal = reduce(b->book, b->book_length, line, length, b->units, b->budget, b->day, b->schedule, b->schedule_length,
        r->work, sizeof r->work, r->net, sizeof r->net, r->output, sizeof r->output, r->answer);
}

// The bytes of its record.
static inline size_t put_record(const line_result *r, uint8_t *to) {
    static const struct { uint8_t element, bytes; } fields[] = {{KURVNEIST_ENDING, 1}, {KURVNEIST_REWRITES, 4}, {KURVNEIST_ENTRIES, 8},
        {KURVNEIST_GRANTED, 8}, {KURVNEIST_KEPT, 8}, {KURVNEIST_LENGTH, 2}};
    size_t n = 1;
    to[0] = r->refusal;
    if (r->refusal) return n;
    for (size_t i = 0; i < sizeof fields / sizeof *fields; i++)
        for (unsigned k = fields[i].bytes; k-- > 0;) to[n++] = (uint8_t)(r->answer[fields[i].element] >> 8 * k);
    memcpy(to + n, r->output, r->answer[KURVNEIST_LENGTH]);
    return n + r->answer[KURVNEIST_LENGTH];
}

// A fault of frame or book, which an empty line meets too: the lines are refused by it. Else 0.
static inline uint8_t refusal_of_all(const batch *b) {
    static line_result r;
    run_line(kurvneist_reduce, b, NULL, 0, &r);
    return r.refusal < 10 || r.refusal == 13 || r.refusal == 15 ? r.refusal : 0;
}

// The lines in one call, by one call for each.
static inline void by_single_calls(const batch *b, batch_result *r) {
    static line_result one;
    memset(r->done, 0, sizeof r->done);
    if ((r->refusal = refusal_of_all(b))) return;
    memset(r->work, 0, sizeof r->work);
    memset(r->net, 0, sizeof r->net);
    size_t at = 0, written = 0, length = 0, left;
    for (; (left = b->lines_length - at) >= 2; at += 2 + length, r->done[DONE_LINES]++) {
        length = (size_t)b->lines[at] << 8 | b->lines[at + 1];
        if (left - 2 < length || b->room - written < RECORD_LENGTH) break;
        run_line(kurvneist_reduce, b, b->lines + at + 2, length, &one);
        written += put_record(&one, r->answers + written);
    }
    r->done[DONE_READ] = at;
    r->done[DONE_WRITTEN] = written;
    r->done[DONE_STOP] = left == 0 ? LINES_END : left < 2 || left - 2 < length ? LINES_CUT : LINES_ROOM;
}

// Do the library and both unverified engines give the records, the numbers and the areas that they should?
static inline int same_records(const batch *b) {
    static lines_reducer *const reducers[] = {c_reduce_lines, c_reduce_lines_packed, kurvneist_reduce_lines};
    static batch_result expected, r;
    memset(&expected, 0xa5, compared(b));
    by_single_calls(b, &expected);
    for (int i = 0; i < 3; i++) {
        memset(&r, 0xa5, compared(b));
        run_batch(reducers[i], b, &r);
        if (memcmp(&r, &expected, compared(b))) return 0;
    }
    return 1;
}

// Puts a line behind those that are there; where it ends.
static inline size_t put_line(uint8_t *lines, size_t at, const uint8_t *line, size_t length) {
    lines[at] = (uint8_t)(length >> 8);
    lines[at + 1] = (uint8_t)length;
    memcpy(lines + at + 2, line, length);
    return at + 2 + length;
}
#endif
