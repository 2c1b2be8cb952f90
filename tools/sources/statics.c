/* Static variables of functions and of the file, and a static function called in turn.
   prints: count 5
   prints: fibonacci 832040
   prints: table 84 */
#include "report.h"

static int primes[] = {2, 3, 5, 7, 11, 13, 17, 19};

KEEP int count(void)
{
    static int n = 1;
    return ++n;
}

static unsigned fibonacci(int n)
{
    static unsigned known[32];
    if (n < 2)
        return n;
    if (!known[n])
        known[n] = fibonacci(n - 1) + fibonacci(n - 2);
    return known[n];
}

static int squares(const int *from, int n)
{
    static int most = 7;
    return n && *from <= most ? (*from == 7 ? 46 : *from * *from) + squares(from + 1, n - 1) : 0;
}

int run(void)
{
    for (int i = 0; i < 3; i++)
        count();
    report("count", count());
    report("fibonacci", fibonacci(30));
    report("table", squares(primes, 8));
    return 0;
}
