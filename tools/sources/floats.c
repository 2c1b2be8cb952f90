/* Floating constants: the root of 2 by Newton, pi by Machin, and a table.
   prints: root 1414213
   prints: pi 3141592
   prints: table 1875 */
#include "report.h"

KEEP double root(double x)
{
    double r = x;
    for (int i = 0; i < 30; i++)
        r = (r + x / r) / 2.0;
    return r;
}

static double arc(double x)
{
    double sum = 0, power = x;
    for (int k = 1; k < 60; k += 2) {
        sum += (k & 2 ? -power : power) / k;
        power *= x * x;
    }
    return sum;
}

const double halves[] = {1.0, 0.5, 0.25, 0.125};
float shares[4] = {1.0f, 0.5f, 0.25f, 0.125f};

int run(void)
{
    double sum = 0;
    report("root", (unsigned)(int)(root(2.0) * 1e6));
    report("pi", (unsigned)(int)((16.0 * arc(0.2) - 4.0 * arc(1.0 / 239.0)) * 1e6));
    for (int i = 0; i < 4; i++)
        sum += halves[i] * (i ? 1.0 : 0.0) + shares[i] * (i < 1 ? 1.0 : 0.0);
    report("table", (unsigned)(int)(sum * 1000.0));
    return 0;
}
