/* Alignments are kept: what is left of an address.
   prints: line 0
   prints: page 0
   prints: zeros 0
   prints: constant 0
   prints: code 0 */
#include "report.h"

typedef unsigned long number;

char line[64] __attribute__((aligned(64))) = {1};
static char pad = 1, page[16] __attribute__((aligned(256))) = {2};
char zeros[32] __attribute__((aligned(128)));
const char constant[3] __attribute__((aligned(32))) = {3};
__attribute__((aligned(64), noinline)) int code(int n) { return n + pad; }

static unsigned left(const void *p, unsigned align)
{
    return (unsigned)((number)(__SIZE_TYPE__)p % align);
}

int run(void)
{
    const void *volatile places[] = {line, page, zeros, constant, (const void *)(__SIZE_TYPE__)code};
    report("line", left(places[0], 64));
    report("page", left(places[1], 256));
    report("zeros", left(places[2], 128));
    report("constant", left(places[3], 32));
    report("code", left(places[4], 64));
    return 0;
}
