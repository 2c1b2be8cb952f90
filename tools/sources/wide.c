/* 64-bit arithmetic: the FNV-1a hash of "a" is af63dc4c8601ec8c, and 2^61 - 1 is prime.
   prints: high 2942557260
   prints: low 2248273036
   prints: power 1
   prints: shift 305419896 */
#include "report.h"

typedef unsigned long long wide;

KEEP wide hash_of(const char *text)
{
    wide hash = 0xcbf29ce484222325ull;
    while (*text)
        hash = (hash ^ (unsigned char)*text++) * 0x100000001b3ull;
    return hash;
}

/* the product modulo 2^61 - 1 */
static wide times(wide a, wide b)
{
    const wide p = (1ull << 61) - 1;
    wide sum = 0;
    for (; b; b >>= 1) {
        if (b & 1)
            sum = sum + a >= p ? sum + a - p : sum + a;
        a = 2 * a >= p ? 2 * a - p : 2 * a;
    }
    return sum;
}

wide masks[] = {0x1234567800000000ull, ~0ull};

int run(void)
{
    wide hash = hash_of("a"), power = 1, base = 3;
    report("high", (unsigned)(hash >> 32));
    report("low", (unsigned)hash);
    for (wide e = (1ull << 61) - 2; e; e >>= 1, base = times(base, base))
        if (e & 1)
            power = times(power, base);
    report("power", (unsigned)power);
    report("shift", (unsigned)(masks[0] >> 32 & masks[1]));
    return 0;
}
