#include "histograms.h"

#include <stdarg.h>
#include <stdio.h>
#include <stdlib.h>
#include <string.h>

#define BUCKET " %.17g:%.17g:%.17g" /* the bounds and the count */

static uint64_t bits_of(double value)
{
    uint64_t bits;
    memcpy(&bits, &value, sizeof bits);
    return bits;
}

static double power_of_two(int n)
{
    uint64_t bits = (uint64_t)(1023 + n) << 52;
    double power;
    memcpy(&power, &bits, sizeof power);
    return power;
}

/* The count of bucket i. Every seventh histogram has long ones, every fourth bucket is empty. */
static uint64_t count_of(unsigned n, size_t i)
{
    uint64_t count = (n * 31 + i * 17) % 1000;
    return (n + i) % 4 == 0 ? 0 : n % 7 == 0 ? count << 36 : count;
}

/* A side with its counts, and the index of each bucket: a span begins its offset after the end of
 * the one before it, the first one at its offset. */
static struct side side_of(unsigned n, size_t spans, uint64_t *counts, int *indexes)
{
    struct side s = {.spans = spans};
    int index = 0;
    for (size_t j = 0; j < spans; j++) {
        s.offsets[j] = j == 0 ? (int)(n % 5) - 2 : 1 + (int)((n + j) % 2);
        s.lengths[j] = 1 + (uint32_t)((n + j) % 3);
        index += s.offsets[j];
        for (uint32_t i = 0; i < s.lengths[j]; i++) {
            counts[s.buckets] = count_of(n, s.buckets);
            indexes[s.buckets++] = index++;
        }
    }
    return s;
}

/* The buckets as they are written. */
static void put_buckets(struct side *s, const uint64_t *counts, int is_float)
{
    for (size_t i = 0; i < s->buckets; i++)
        s->bits[i] = is_float ? bits_of((double)counts[i]) : counts[i] - (i ? counts[i - 1] : 0);
}

/* Appends to what is shown. */
static void show(struct histogram *h, const char *form, ...)
{
    size_t at = strlen(h->shown);
    va_list values;
    va_start(values, form);
    if (vsnprintf(h->shown + at, sizeof h->shown - at, form, values) >= (int)(sizeof h->shown - at))
        abort();
    va_end(values);
}

/* One bucket, its bounds on the other side of zero if `sign` is -1; none if it is empty. */
static void show_bucket(struct histogram *h, int sign, int index, uint64_t count)
{
    int step = 1 << -h->schema; /* from bound to bound, as a power of two */
    double near = power_of_two((index - 1) * step), far = power_of_two(index * step);
    if (count > 0)
        show(h, BUCKET, sign < 0 ? -far : near, sign < 0 ? -near : far, (double)count);
}

struct histogram histogram_of(unsigned n, int is_float)
{
    uint64_t up[BUCKETS_MAX], down[BUCKETS_MAX], zeros = n % 3, count = zeros;
    int up_at[BUCKETS_MAX], down_at[BUCKETS_MAX];
    double threshold = power_of_two(-30), sum = n * 1.25 - 100;
    struct histogram h = {.hint = n % 4, .schema = -(int32_t)(n % 3)};
    h.threshold = bits_of(threshold);
    h.sum = bits_of(sum);
    h.positive = side_of(n, n % 4, up, up_at);
    h.negative = side_of(n + 1, n / 4 % 4, down, down_at);
    for (size_t i = 0; i < h.positive.buckets; i++)
        count += up[i];
    for (size_t i = 0; i < h.negative.buckets; i++)
        count += down[i];
    put_buckets(&h.positive, up, is_float);
    put_buckets(&h.negative, down, is_float);
    h.zeros = is_float ? bits_of((double)zeros) : zeros;
    h.count = is_float ? bits_of((double)count) : count;
    show(&h, "%.17g %.17g", (double)count, sum);
    for (size_t i = h.negative.buckets; i-- > 0;)
        show_bucket(&h, -1, down_at[i], down[i]);
    if (zeros > 0)
        show(&h, BUCKET, -threshold, threshold, (double)zeros);
    for (size_t i = 0; i < h.positive.buckets; i++)
        show_bucket(&h, 1, up_at[i], up[i]);
    return h;
}
