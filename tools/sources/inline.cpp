/* Inline functions, of which each object has a copy, and their static variables.
   prints: cube 343
   prints: count 3
   prints: passed 64 */
#include "report.h"

inline __attribute__((noinline)) int cube(int n) { return n * n * n; }
inline __attribute__((noinline)) int count()
{
    static int n;
    return ++n;
}
struct Tool {
    __attribute__((noinline)) int twice(int n) const { return 2 * n * factor; }
    int factor;
};

int (*volatile passed)(int) = cube;

int run()
{
    report("cube", cube(7));
    count();
    count();
    report("count", count());
    Tool tool{8};
    report("passed", passed(4) + tool.twice(0));
    return 0;
}
