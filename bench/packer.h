// Fields packed most significant bit first.
#ifndef PACKER_H
#define PACKER_H
#include <stddef.h>
#include <stdint.h>

typedef struct {
    uint8_t bytes[65536];
    size_t bits;
} packer;

static inline void put(packer *p, unsigned value, unsigned n) {
    for (unsigned i = n; i-- > 0; p->bits++)
        if (value >> i & 1) p->bytes[p->bits >> 3] |= (uint8_t)(0x80 >> (p->bits & 7));
}

static inline size_t packed_length(const packer *p) { return (p->bits + 7) / 8; }
#endif
