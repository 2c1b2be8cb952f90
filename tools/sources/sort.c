/* A heap sort by a function that is passed.
   prints: least 1
   prints: median 27
   prints: most 97
   prints: last 1 */
#include "report.h"

typedef int compare(int, int);

static int up(int a, int b) { return a < b; }
static int down(int a, int b) { return a > b; }

static void sift(int *a, int at, int n, compare *less)
{
    for (int child; (child = 2 * at + 1) < n; at = child) {
        if (child + 1 < n && less(a[child], a[child + 1]))
            child++;
        if (!less(a[at], a[child]))
            return;
        int kept = a[at];
        a[at] = a[child];
        a[child] = kept;
    }
}

KEEP void heap_sort(int *a, int n, compare *less)
{
    for (int i = n / 2 - 1; i >= 0; i--)
        sift(a, i, n, less);
    for (int i = n - 1; i > 0; i--) {
        int kept = a[0];
        a[0] = a[i];
        a[i] = kept;
        sift(a, 0, i, less);
    }
}

int numbers[] = {31, 4, 97, 15, 1, 92, 65, 27, 8};
compare *const orders[] = {up, down};

int run(void)
{
    heap_sort(numbers, 9, orders[0]);
    report("least", numbers[0]);
    report("median", numbers[4]);
    report("most", numbers[8]);
    heap_sort(numbers, 9, orders[1]);
    report("last", numbers[8]);
    return 0;
}
