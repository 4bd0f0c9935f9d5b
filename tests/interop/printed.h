/* How `promtool tsdb dump` prints a row: `{labels} value time`, one row a line. The forms follow
 * from the rules of Go's strconv, which Prometheus prints with. */
#ifndef PRINTED_H
#define PRINTED_H

#include <stdint.h>

/* A value: the 64 bits that are written, and the text that is printed for them. */
struct value {
    uint64_t bits;
    char text[32];
};

/* The value of row number n, n below 1,000,000. Most are of one row alone, so that two rows that
 * change places show; each eighth is a special one, as NaN or an infinity. */
struct value value_of(unsigned n);

/* A label's text: the bytes that are written, and what is printed for them, with its quotes. */
struct text {
    const char *bytes, *printed;
};

/* Some text for the series number k; NULL if there is none for this k. */
const struct text *text_of(unsigned k);

#endif
