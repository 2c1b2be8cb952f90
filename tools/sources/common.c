/* Variables without a definition: commons with -fcommon, and of one name a static beside it.
   prints: ring 21
   prints: shared 7
   prints: empty 0 */
#include "report.h"

int ring[6];
int shared;
short small;
char bytes[3];
long aligned_one __attribute__((aligned(32)));

KEEP void turn(void)
{
    for (int i = 0; i < 6; i++)
        ring[i] = i + 1;
    shared = 7;
}

int run(void)
{
    int sum = 0;
    turn();
    for (int i = 0; i < 6; i++)
        sum += ring[i];
    report("ring", sum);
    report("shared", shared);
    report("empty", small + bytes[0] + bytes[2] + (int)aligned_one);
    return 0;
}
