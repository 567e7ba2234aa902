#ifndef READER_H
#define READER_H
#include <stdint.h>
#include <stddef.h>

typedef struct {
    unsigned operators;
    unsigned rules; // of a dated book those that stand on the day
    uint8_t arities[256];
    uint8_t laid[4096];
    uint32_t lefts[256];
    uint32_t rights[256];
} tables;

// 0, or the number of the refusal. Of a dated book the tables have the rules that stand on the day; an undated one ignores it.
int c_read_book(const uint8_t *book, size_t len, uint16_t day, tables *t);
#endif
