/* Histograms to be written, and what a stock server shows of them. */
#ifndef HISTOGRAMS_H
#define HISTOGRAMS_H

#include <stddef.h>
#include <stdint.h>

enum { SPANS_MAX = 3, BUCKETS_MAX = 9, SHOWN_MAX = 2048 };

/* The spans and buckets of one side, as the library takes them. A bucket of whole numbers is the
 * difference to the one before it, one of floats the bits of its count. */
struct side {
    size_t spans, buckets;
    int32_t offsets[SPANS_MAX];
    uint32_t lengths[SPANS_MAX];
    uint64_t bits[BUCKETS_MAX];
};

struct histogram {
    uint8_t hint;
    int32_t schema;
    uint64_t threshold, zeros, count, sum;
    struct side positive, negative;
    char shown[SHOWN_MAX]; /* count, sum, and bounds and count of each bucket but empty ones */
};

/* The histogram number n, of whole numbers or of floats: 0 to 3 spans a side, counts that rise and
 * fall, some of them long, and schemas whose bounds are powers of two. */
struct histogram histogram_of(unsigned n, int is_float);

#endif
