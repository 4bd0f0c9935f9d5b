#include "deltas.h"

#include <stdio.h>

/* Counts a delta. Returns the bytes that its signed varint has. */
static unsigned count_delta(struct tally *tally, int64_t delta)
{
    uint64_t left = delta < 0 ? ~(uint64_t)delta : (uint64_t)delta;
    unsigned length = 1; /* seven bits a byte, and one of the first byte's is the sign */
    for (left >>= 6; left > 0; left >>= 7)
        length++;
    if (delta == 0)
        tally->zero++;
    else
        tally->of[delta < 0][length]++;
    if (delta < tally->low)
        tally->low = delta;
    if (delta > tally->high)
        tally->high = delta;
    return length;
}

void count_row(struct deltas *deltas, uint64_t first_id, uint64_t id, int64_t first_time,
               int64_t time, size_t bytes, size_t rest)
{
    int64_t id_delta = (int64_t)(id - first_id);
    int64_t time_delta = (int64_t)((uint64_t)time - (uint64_t)first_time);
    rest += count_delta(&deltas->ids, id_delta);
    rest += count_delta(&deltas->times, time_delta);
    deltas->misfits += bytes != rest;
    if ((time_delta < 0) != (time < first_time))
        deltas->wrapped[time < first_time]++;
}

static void report_tally(const char *what, const char *kind, const struct tally *tally, int lengths)
{
    printf("interop: %s, %s deltas: 0 in %u rows", what, kind, tally->zero);
    for (int negative = 0; negative < 2; negative++) {
        printf("; %s of 1 to %d bytes in", negative ? "negative" : "positive", lengths);
        for (int length = 1; length <= lengths; length++)
            printf(" %u", tally->of[negative][length]);
    }
}

void report(const char *what, const struct deltas *deltas)
{
    report_tally(what, "id", &deltas->ids, ID_LENGTHS);
    printf("\n");
    report_tally(what, "time", &deltas->times, TIME_LENGTHS);
    printf("; wrapped, %u above and %u below\n", deltas->wrapped[0], deltas->wrapped[1]);
}

static int has_lengths(const struct tally *tally, int lengths)
{
    for (int negative = 0; negative < 2; negative++)
        for (int length = 1; length <= LENGTHS; length++)
            if ((tally->of[negative][length] > 0) != (length <= lengths))
                return 0;
    return 1;
}

int covered(const struct deltas *deltas)
{
    return has_lengths(&deltas->ids, ID_LENGTHS) && has_lengths(&deltas->times, TIME_LENGTHS) &&
           deltas->wrapped[0] > 0 && deltas->wrapped[1] > 0;
}
