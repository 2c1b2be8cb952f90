/* Strings, tables of their addresses, and addresses inside them.
   prints: monday 6
   prints: all 50
   prints: tail 3
   prints: same 1 */
#include "report.h"

const char *const week[] = {"Monday", "Tuesday", "Wednesday", "Thursday", "Friday", "Saturday", "Sunday"};
static const char *inside = &"nowhere"[4];
char text[] = "a text that can be written";

KEEP unsigned length(const char *s)
{
    unsigned n = 0;
    while (s[n])
        n++;
    return n;
}

int run(void)
{
    unsigned sum = 0;
    for (int i = 0; i < 7; i++)
        sum += length(week[i]);
    report("monday", length(week[0]));
    report("all", sum);
    report("tail", length(inside) + (text[0] - 'a'));
    text[1] = 0;
    report("same", length(text));
    return 0;
}
