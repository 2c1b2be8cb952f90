/* A determinant, a magic square, and the eight queens (92).
   prints: determinant 4294966990
   prints: magic 15
   prints: queens 92 */
#include "report.h"

static const int given[3][3] = {{6, 1, 1}, {4, -2, 5}, {2, 8, 7}};
int magic[3][3] = {{2, 7, 6}, {9, 5, 1}, {4, 3, 8}};
static int (*const rows[3])[3] = {&magic[0], &magic[1], &magic[2]};
static unsigned char used[3][16];

static int determinant(const int m[3][3])
{
    int sum = 0;
    for (int i = 0; i < 3; i++)
        sum += m[0][i] * (m[1][(i + 1) % 3] * m[2][(i + 2) % 3] - m[1][(i + 2) % 3] * m[2][(i + 1) % 3]);
    return sum;
}

static int queens(int row)
{
    int found = row == 8;
    for (int c = 0; row < 8 && c < 8; c++) {
        unsigned char *a = &used[0][c], *b = &used[1][row + c], *d = &used[2][row - c + 7];
        if (*a | *b | *d)
            continue;
        *a = *b = *d = 1;
        found += queens(row + 1);
        *a = *b = *d = 0;
    }
    return found;
}

int run(void)
{
    report("determinant", (unsigned)determinant(given));
    report("magic", (*rows[0])[0] + (*rows[1])[1] + (*rows[2])[2]);
    report("queens", queens(0));
    return 0;
}
