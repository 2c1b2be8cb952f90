/* Sections with names of their own.
   prints: own 5
   prints: table 60
   prints: code 12 */
#include "report.h"

#ifdef __APPLE__
#define IN(segment, name) __attribute__((section(segment ",__" name)))
#else
#define IN(segment, name) __attribute__((section("." name)))
#endif
#ifdef __APPLE__
#define CODE __attribute__((section("__TEXT,__own_code,regular,pure_instructions")))
#else
#define CODE __attribute__((section(".text.own")))
#endif

IN("__DATA", "own_data") int own = 5;
IN("__DATA", "a_name_longer") int table[3] = {10, 20, 30};
CODE KEEP int far_code(int n) { return 3 * n; }

int run(void)
{
    int sum = 0;
    for (int i = 0; i < 3; i++)
        sum += table[i];
    report("own", own);
    report("table", sum);
    report("code", far_code(4));
    return 0;
}
