/* Addresses in data: before, inside and after what they belong to, and lists that are linked by the linker.
   prints: before 10
   prints: after 40
   prints: list 6
   prints: ring 1 */
#include "report.h"

struct node { int value; struct node *next; };
int row[4] = {10, 20, 30, 40};
int *before = row - 3, *end = row + 4;
extern struct node three;
static struct node one = {1, &three}, two = {2, &one};
struct node three = {3, 0};
struct node *const head = &two;
struct ring { struct ring *to; } left, right = {&left}, left = {&right};

int run(void)
{
    int sum = 0;
    report("before", before[3]);
    report("after", end[-1]);
    for (struct node *it = head; it; it = it->next)
        sum += it->value;
    report("list", sum);
    report("ring", left.to->to == &left);
    return 0;
}
