/* Which deltas the rows of a log have: counted by sign and by the length of their signed varint. */
#ifndef DELTAS_H
#define DELTAS_H

#include <stddef.h>
#include <stdint.h>

enum { ID_LENGTHS = 6, TIME_LENGTHS = 10, LENGTHS = 10 };

/* How many deltas there are of each sign (0 positive, 1 negative) and length, and the lowest and
 * the highest. */
struct tally {
    unsigned zero, of[2][LENGTHS + 1];
    int64_t low, high;
};

/* Of all rows of one type of bodies. */
struct deltas {
    struct tally ids, times;
    unsigned wrapped[2]; /* rows so far above or below the first time that the delta wraps */
    unsigned misfits;    /* rows that have not the bytes which their deltas ask for */
};

/* Counts a row: its id and time, and the first ones of its body. Its bytes are those of the deltas
 * and the rest; Prometheus would also take deltas that are longer than needed. */
void count_row(struct deltas *deltas, uint64_t first_id, uint64_t id, int64_t first_time,
               int64_t time, size_t bytes, size_t rest);

/* Prints two lines. */
void report(const char *what, const struct deltas *deltas);

/* Whether there is every length of both signs that an id and a time can have and no other, and
 * wrapped times above and below. */
int covered(const struct deltas *deltas);

#endif
