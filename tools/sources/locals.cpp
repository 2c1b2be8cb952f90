/* Static locals that a call makes, objects that are made before main, and lambdas.
   prints: made 5
   prints: once 6
   prints: lambda 15 */
#include "report.h"

static int calls;
__attribute__((noinline)) int maker(int n)
{
    calls++;
    return n;
}

struct Global {
    int value;
    explicit Global(int n) : value(maker(n)) {}
};
Global global(5);

__attribute__((noinline)) int once()
{
    static int kept = maker(6);
    return kept++;
}

int run()
{
    report("made", global.value);
    int kept = once();
    report("once", kept + (once() == 7 ? 0 : 100));
    auto add = [&](int n) { return n + calls + kept; };
    int (*plain)(int) = [](int n) { return n; };
    report("lambda", add(7) + plain(0));
    return 0;
}
