/* Functions and variables that other libraries do not see.
   prints: hidden 6
   prints: internal 8
   prints: variable 9 */
#include "report.h"

__attribute__((visibility("hidden"))) int hidden_one = 9;
__attribute__((visibility("hidden"))) KEEP int twice(int n) { return 2 * n; }
__attribute__((visibility("default"))) KEEP int shown(int n) { return twice(n) + 2; }

int run(void)
{
    int *volatile place = &hidden_one;
    report("hidden", twice(3));
    report("internal", shown(3));
    report("variable", *place);
    return 0;
}
