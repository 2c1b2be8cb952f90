/* Switches that compilers turn into tables: days of months, and a small machine (10 factorial).
   prints: february 28
   prints: year 365
   prints: factorial 3628800 */
#include "report.h"

KEEP int days(int month)
{
    switch (month) {
    case 1: return 31;
    case 2: return 28;
    case 3: return 31;
    case 4: return 30;
    case 5: return 31;
    case 6: return 30;
    case 7: case 8: return 31;
    case 9: return 30;
    case 10: return 31;
    case 11: return 30;
    case 12: return 31;
    default: return 0;
    }
}

enum { PUSH, MULTIPLY, DECREASE, SWAP, JUMP_UNLESS, JUMP, END };
static const signed char program[] = {
    PUSH, 1, PUSH, 10, JUMP_UNLESS, 12, MULTIPLY, DECREASE, JUMP, 4, PUSH, 0, SWAP, END};

static unsigned product, counter;

static int step(int at)
{
    switch (program[at]) {
    case PUSH:
        if (at == 0)
            product = program[at + 1];
        else
            counter = program[at + 1];
        return at + 2;
    case MULTIPLY: product *= counter; return at + 1;
    case DECREASE: counter--; return at + 1;
    case SWAP: product += counter; return at + 1;
    case JUMP_UNLESS: return counter ? at + 2 : program[at + 1];
    case JUMP: return program[at + 1];
    default: return -1;
    }
}

int run(void)
{
    int sum = 0;
    for (int month = 0; month < 14; month++)
        sum += days(month);
    report("february", days(2));
    report("year", sum);
    for (int at = 0; at >= 0;)
        at = step(at);
    report("factorial", product);
    return 0;
}
