/* Matrices of fixed size as arrays of arrays. */
#include <stdio.h>

#define N 4

typedef int matrix[N][N];

static void identity(matrix m)
{
    int i, j;
    for (i = 0; i < N; i++)
        for (j = 0; j < N; j++)
            m[i][j] = i == j;
}

static void multiply(int a[N][N], int b[][N], int (*out)[N])
{
    int i, j, k;
    int sum[N][N];
    for (i = 0; i < N; i++)
        for (j = 0; j < N; j++) {
            sum[i][j] = 0;
            for (k = 0; k < N; k++)
                sum[i][j] += a[i][k] * b[k][j];
        }
    for (i = 0; i < N; i++)
        for (j = 0; j < N; j++)
            out[i][j] = sum[i][j];
}

static int trace(const int m[][N])
{
    int t = 0;
    for (int i = 0; i < N; ++i)
        t += m[i][i];
    return t;
}

static int row_sum(const int *row, int n)
{
    int s = 0;
    while (n-- > 0)
        s += *row++;
    return s;
}

int main(void)
{
    matrix a = { { 1, 2 }, { 0, 1, 3 }, { 0, 0, 1, 4 }, { 5, 0, 0, 1 } }, p;
    int n;
    identity(p);
    for (n = 0; n < 6; n++) {
        multiply(p, a, p);
        printf("%d:", n);
        for (int i = 0; i < N; i++)
            printf("%6d", p[i][(i + n) % N]);
        printf(" %d %d\n", trace(p), row_sum(p[n % N], N));
    }
    printf("%d\n", (int)(sizeof p / sizeof p[0][0]));
    return trace(p) & 0xff;
}
