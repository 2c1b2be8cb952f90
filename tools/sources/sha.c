/* SHA-256 of "abc" (FIPS 180-4): ba7816bf .. f20015ad. Its constants are computed: bits of roots of primes.
   prints: first 3128432319
   prints: last 4060091821 */
#include "report.h"

typedef unsigned word;
static word state[8], constants[64];

static int is_prime(word n)
{
    for (word k = 2; k * k <= n; k++)
        if (n % k == 0)
            return 0;
    return 1;
}

/* the first 32 bits of the fraction of a root */
static word root(word n, int degree)
{
    word whole = 1, bits = 0;
    while ((degree == 2 ? (whole + 1) * (whole + 1) : (whole + 1) * (whole + 1) * (whole + 1)) <= n)
        whole++;
    for (word bit = 1u << 31; bit; bit >>= 1) {
        double r = whole + (bits | bit) / 4294967296.0;
        if ((degree == 2 ? r * r : r * r * r) <= n)
            bits |= bit;
    }
    return bits;
}

static void fill(void)
{
    word n = 2;
    for (int found = 0; found < 64; n++)
        if (is_prime(n)) {
            if (found < 8)
                state[found] = root(n, 2);
            constants[found++] = root(n, 3);
        }
}

static word turned(word x, int n) { return x >> n | x << (32 - n); }

static void block(const word *given)
{
    word w[64], v[8];
    for (int i = 0; i < 64; i++)
        w[i] = i < 16 ? given[i]
                      : w[i - 16] + (turned(w[i - 15], 7) ^ turned(w[i - 15], 18) ^ w[i - 15] >> 3) + w[i - 7]
                            + (turned(w[i - 2], 17) ^ turned(w[i - 2], 19) ^ w[i - 2] >> 10);
    for (int i = 0; i < 8; i++)
        v[i] = state[i];
    for (int i = 0; i < 64; i++) {
        word one = v[7] + (turned(v[4], 6) ^ turned(v[4], 11) ^ turned(v[4], 25)) + ((v[4] & v[5]) ^ (~v[4] & v[6]))
                   + constants[i] + w[i];
        word two = (turned(v[0], 2) ^ turned(v[0], 13) ^ turned(v[0], 22)) + ((v[0] & v[1]) ^ (v[0] & v[2]) ^ (v[1] & v[2]));
        for (int k = 7; k; k--)
            v[k] = v[k - 1];
        v[4] += one;
        v[0] = one + two;
    }
    for (int i = 0; i < 8; i++)
        state[i] += v[i];
}

static const word padded[16] = {0x61626380u, [15] = 24};

int run(void)
{
    fill();
    block(padded);
    report("first", state[0]);
    report("last", state[7]);
    return 0;
}
