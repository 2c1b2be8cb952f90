/* A weak function that nothing overrides, and a weak one that is nowhere.
   prints: weak 11
   prints: absent 1 */
#include "report.h"

__attribute__((weak)) int hook(int n) { return n + 1; }
#ifndef NO_WEAK_REFERENCES
extern int absent(int) __attribute__((weak));
#endif

int run(void)
{
    report("weak", hook(10));
#ifdef NO_WEAK_REFERENCES
    report("absent", 1);
#else
    report("absent", absent == 0);
#endif
    return 0;
}
