/* What the driver gives: a variable, and its address in data.
   prints: outside 1234
   prints: moved 1235 */
#include "report.h"

extern unsigned outside[];
unsigned *const second = &outside[1];

int run(void)
{
    report("outside", outside[0]);
    report("moved", *second);
    return 0;
}
