/* The printed forms, from the rules and not from a run.
 *
 * Values are printed with the verb %g, which is strconv.FormatFloat(v, 'g', -1, 64):
 *   - the digits are the fewest that read back as the same double;
 *   - from 10^6 up, and below 10^-4, the form is d.ddde+xx: no point after a lone digit, always a
 *     sign, two digits of exponent at least. Else, and for 0, there is no exponent;
 *   - every NaN is NaN, whatever its bits; infinities are +Inf and -Inf; minus zero is -0.
 * An integer below 2^53 has no shorter form than its own digits less the zeros at its end, because
 * its neighbours are doubles too. A half below 2^52 is the same with .5 at its end.
 *
 * Labels are printed as {name="text", name="text"}, by strconv.Quote: a quote, a backslash, a
 * newline and a tab get a backslash, other bytes below 32 are \x and two digits, and printable
 * UTF-8 stands as it is.
 */
#include "printed.h"

#include <float.h>
#include <stdio.h>
#include <string.h>

static uint64_t bits_of(double value)
{
    uint64_t bits;
    memcpy(&bits, &value, sizeof bits);
    return bits;
}

/* An integer from 1,000,000 to 2^53, which is printed with an exponent. */
static struct value large(uint64_t number)
{
    struct value v = {bits_of((double)number), ""};
    char digits[24];
    int n = snprintf(digits, sizeof digits, "%llu", (unsigned long long)number), exponent = n - 1;
    while (n > 1 && digits[n - 1] == '0')
        n--;
    digits[n] = 0;
    snprintf(v.text, sizeof v.text, "%c%s%se+%02d", digits[0], n > 1 ? "." : "", digits + 1,
             exponent);
    return v;
}

/* The special ones. Those with a decimal point or an exponent are the double next to that text, so
 * their fewest digits are those of the text; the last three are what every table of doubles has. */
static struct value special(unsigned n)
{
    const struct value table[] = {
        {0, "0"},
        {0x8000000000000000u, "-0"},
        {0x7FF0000000000000u, "+Inf"},
        {0xFFF0000000000000u, "-Inf"},
        {0x7FF8000000000001u, "NaN"}, /* Go's own NaN */
        {0x7FF0000000000002u, "NaN"}, /* Prometheus' mark of a stale series; a dump shows it */
        {0xFFFFFFFFFFFFFFFFu, "NaN"},
        {bits_of(999999), "999999"},
        {bits_of(1000000), "1e+06"},
        {bits_of(-1e21), "-1e+21"},
        {bits_of(1e22), "1e+22"},
        {bits_of(0.0001), "0.0001"},
        {bits_of(0.00001), "1e-05"},
        {bits_of(-1.5e-7), "-1.5e-07"},
        {bits_of(1e100), "1e+100"},
        {1, "5e-324"},
        {bits_of(DBL_MIN), "2.2250738585072014e-308"},
        {bits_of(DBL_MAX), "1.7976931348623157e+308"},
    };
    return table[n % (sizeof table / sizeof *table)];
}

struct value value_of(unsigned n)
{
    struct value v;
    switch (n % 8) {
    case 0: return special(n / 8);
    case 1: return large(1000000 + UINT64_C(1000003) * n);
    case 2: return large(UINT64_C(1000000) * n);
    case 3:
        v.bits = bits_of(n + 0.5);
        snprintf(v.text, sizeof v.text, "%u.5", n);
        return v;
    case 4:
        v.bits = bits_of(-(double)n);
        snprintf(v.text, sizeof v.text, "-%u", n);
        return v;
    default:
        v.bits = bits_of(n);
        snprintf(v.text, sizeof v.text, "%u", n);
        return v;
    }
}

const struct text *text_of(unsigned k)
{
    static const struct text table[] = {
        {"plain", "\"plain\""},
        {"say \"hi\"", "\"say \\\"hi\\\"\""},
        {"back\\slash", "\"back\\\\slash\""},
        {"two\nlines\tand a tab", "\"two\\nlines\\tand a tab\""},
        {"\x01", "\"\\x01\""},
        {"Z\xC3\xBCrich \xE6\x9D\xB1", "\"Z\xC3\xBCrich \xE6\x9D\xB1\""},
    };
    return k % 5 ? NULL : &table[k / 5 % (sizeof table / sizeof *table)];
}
