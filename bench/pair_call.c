// A version of the library for bench/pair, called as library/include/kurvneist.h says: CALL goes to REDUCE. A version from before Change 8 takes no net, and
// then the net's area stays as it is. Both versions are called this way, so that it costs both the same.
#include "engine.h"

#ifdef WITHOUT_NET
uint8_t REDUCE(const uint8_t *book, size_t book_length, const uint8_t *line, size_t line_length, uint8_t units, uint32_t budget, uint16_t day,
    const uint8_t *schedule, size_t schedule_length, uint8_t *work, size_t work_length, uint8_t *output, size_t output_length, uint64_t *answer);
#define NET
#else
reducer REDUCE;
#define NET net, net_length,
#endif

reducer CALL;

uint8_t CALL(const uint8_t *book, size_t book_length, const uint8_t *line, size_t line_length, uint8_t units, uint32_t budget, uint16_t day,
    const uint8_t *schedule, size_t schedule_length, uint8_t *work, size_t work_length, uint8_t *net, size_t net_length, uint8_t *output,
    size_t output_length, uint64_t *answer) {
    (void)net, (void)net_length;
    return REDUCE(book, book_length, line, line_length, units, budget, day, schedule, schedule_length, work, work_length, NET output, output_length, answer);
}
