/* Two names of one function, and of one variable.
   prints: same 1
   prints: through 42
   prints: variable 5 */
#include "report.h"

int answer(int n) { return n + 2; }
int reply(int n) __attribute__((alias("answer")));
int first = 3;
extern int second __attribute__((alias("first")));

int run(void)
{
    int (*volatile one)(int) = answer, (*volatile two)(int) = reply;
    report("same", one == two);
    report("through", two(40));
    *(volatile int *)&second += 2;
    report("variable", *(volatile int *)&first);
    return 0;
}
