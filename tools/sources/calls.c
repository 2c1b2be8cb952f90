/* Calls: of each other, through tables, with many arguments (Ackermann, Hofstadter).
   prints: ackermann 125
   prints: female 61
   prints: male 61
   prints: sum 45 */
#include "report.h"

KEEP unsigned ackermann(unsigned m, unsigned n)
{
    return !m ? n + 1 : !n ? ackermann(m - 1, 1) : ackermann(m - 1, ackermann(m, n - 1));
}

int male(int n);
KEEP int female(int n) { return n ? n - male(female(n - 1)) : 1; }
KEEP int male(int n) { return n ? n - female(male(n - 1)) : 0; }
static int (*const both[])(int) = {female, male};

KEEP int sum(int a, int b, int c, int d, int e, int f, int g, int h, int i) { return a + b + c + d + e + f + g + h + i; }

int run(void)
{
    report("ackermann", ackermann(3, 4));
    report("female", both[0](99));
    report("male", both[1](98));
    report("sum", sum(1, 2, 3, 4, 5, 6, 7, 8, 9));
    return 0;
}
