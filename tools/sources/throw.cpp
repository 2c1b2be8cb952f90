/* Exceptions: thrown through a function with something to clean up.
   prints: cleaned 1
   prints: caught 42
   prints: other 2 */
#include "report.h"

struct Cleaner {
    ~Cleaner() { report("cleaned", 1); }
};

__attribute__((noinline)) void thrower(int n)
{
    if (n < 0)
        throw 'x';
    if (n > 3)
        throw n + 2;
}

__attribute__((noinline)) void between(int n)
{
    Cleaner cleaner;
    thrower(n);
}

int run()
{
    try {
        between(40);
    } catch (int n) {
        report("caught", n);
    }
    try {
        thrower(-1);
    } catch (int) {
        report("other", 1);
    } catch (...) {
        report("other", 2);
    }
    return 0;
}
