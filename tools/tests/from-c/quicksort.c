/* Four ways to sort an array. */
#include <stdio.h>

#define SWAP(a, b) do { int t_ = (a); (a) = (b); (b) = t_; } while (0)
#define LENGTH 24

static int original[LENGTH];

static void quick(int *a, int low, int high)
{
    int i = low, j = high, pivot;
    if (low >= high)
        return;
    pivot = a[(low + high) / 2];
    while (i <= j) {
        while (a[i] < pivot)
            i++;
        while (a[j] > pivot)
            j--;
        if (i <= j) {
            SWAP(a[i], a[j]);
            i++, j--;
        }
    }
    quick(a, low, j);
    quick(a, i, high);
}

static void shell(int a[], int n)
{
    for (int gap = n / 2; gap > 0; gap /= 2)
        for (int i = gap; i < n; i++) {
            int v = a[i], j;
            for (j = i - gap; j >= 0 && a[j] > v; j -= gap)
                a[j + gap] = a[j];
            a[j + gap] = v;
        }
}

static void sift(int *a, int root, int n)
{
    int child;
    while ((child = 2 * root + 1) < n) {
        if (child + 1 < n && a[child] < a[child + 1])
            child++;
        if (a[root] >= a[child])
            break;
        SWAP(a[root], a[child]);
        root = child;
    }
}

static void heap(int *a, int n)
{
    int i;
    for (i = n / 2; i-- > 0; )
        sift(a, i, n);
    while (--n > 0) {
        SWAP(a[0], a[n]);
        sift(a, 0, n);
    }
}

static void merge(int *a, int n)
{
    int half = n / 2, i = 0, j = half, k = 0, all[LENGTH];
    if (n < 2)
        return;
    merge(a, half);
    merge(a + half, n - half);
    while (i < half && j < n)
        all[k++] = a[i] <= a[j] ? a[i++] : a[j++];
    while (i < half)
        all[k++] = a[i++];
    while (j < n)
        all[k++] = a[j++];
    for (i = 0; i < n; i++)
        a[i] = all[i];
}

int main(void)
{
    int a[LENGTH], way, i;
    unsigned seed = 42;

    for (i = 0; i < LENGTH; i++)
        original[i] = (int)((seed = seed * 69069u + 1u) >> 20) % 500;
    for (way = 0; way < 4; way++) {
        for (i = 0; i < LENGTH; i++)
            a[i] = original[i];
        switch (way) {
        case 0: quick(a, 0, LENGTH - 1); break;
        case 1: shell(a, LENGTH); break;
        case 2: heap(a, LENGTH); break;
        default: merge(a, LENGTH);
        }
        for (i = 0; i < LENGTH; i++)
            printf("%d ", a[i]);
        putchar('\n');
        for (i = 1; i < LENGTH; i++)
            if (a[i - 1] > a[i])
                return 1;
    }
    return 0;
}
