/* Large arrays: zeros, data, and a field far inside another array (primes below 100,000: 9,592).
   prints: primes 9592
   prints: middle 7
   prints: far 99 */
#include "report.h"

static unsigned char sieve[100000];
int data[20000] = {1, 2, 3, [10000] = 7, [19999] = 9};
int *inside = &data[19999];
static char *beyond = (char *)sieve + 99999;

KEEP unsigned primes(unsigned most)
{
    unsigned found = 0;
    for (unsigned n = 2; n < most; n++) {
        if (sieve[n])
            continue;
        found++;
        for (unsigned k = 2 * n; k < most; k += n)
            sieve[k] = 1;
    }
    return found;
}

int run(void)
{
    report("primes", primes(100000));
    report("middle", data[10000]);
    *beyond = 90;
    report("far", sieve[99999] + *inside);
    return 0;
}
