/* Functions that run before and after main.
   prints: before 12
   prints: run 1
   prints: after 3 */
#include "report.h"

static int state;

__attribute__((constructor)) static void begin(void) { state = 12; }
__attribute__((destructor)) static void end(void) { report("after", state + 2); }

int run(void)
{
    report("before", state);
    state = 1;
    report("run", state);
    return 0;
}
