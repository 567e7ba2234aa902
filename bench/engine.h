// An unverified engine, as a yardstick: the functions of engine.c.
#ifndef ENGINE_H
#define ENGINE_H
#include <stddef.h>
#include <stdint.h>

// Parameters, result and effects of kurvneist_reduce (kurvneist.h).
typedef uint8_t reducer(const uint8_t *book, size_t book_length, const uint8_t *line, size_t line_length, uint8_t units, uint32_t budget,
    uint16_t day, const uint8_t *schedule, size_t schedule_length, uint8_t *work, size_t work_length, uint8_t *net, size_t net_length, uint8_t *output,
    size_t output_length, uint64_t *answer);

// Those of kurvneist_reduce_lines: each line stands behind its length in two bytes, and records stand one after another.
typedef uint8_t lines_reducer(const uint8_t *book, size_t book_length, const uint8_t *lines, size_t lines_length, uint8_t units, uint32_t budget,
    uint16_t day, const uint8_t *schedule, size_t schedule_length, uint8_t *work, size_t work_length, uint8_t *net, size_t net_length, uint8_t *answers,
    size_t answers_length, uint64_t *done);

// The elements of `done`: lines done, their bytes, the bytes of their records, and why no more were done.
enum { DONE_LINES, DONE_READ, DONE_WRITTEN, DONE_STOP, DONE_LENGTH };

// There are no more, the next is cut short, or the longest record, of so many bytes, would not fit.
enum { LINES_END, LINES_CUT, LINES_ROOM };
enum { RECORD_LENGTH = 1056 };

// Decoded sides, no frame looked at that can't move.
reducer c_reduce;
lines_reducer c_reduce_lines;

// The library's own choices: sides stay packed, every frame is looked at after a rewrite.
reducer c_reduce_packed;
lines_reducer c_reduce_lines_packed;

// As c_reduce, but FORK takes the idle unit of the lowest number, as before Change 9. It keeps the queue, so that the choice alone differs.
reducer c_reduce_lowest;

// The same two, and they add to the counts, which bench_units.c has.
reducer c_reduce_counted, c_reduce_lowest_counted;

typedef struct {
    size_t orders[8]; // the entries at which a unit was busy
    size_t changes; // the entries that found a unit busy where its entry before found it idle, or the other way round
    uint8_t busy[8]; // what a unit's last entry found
} unit_counts;

extern unit_counts counted;
#endif
