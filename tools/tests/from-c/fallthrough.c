/* Switches of all kinds: falling through, default in the middle, nested, in loops, with continue. */
#include <stdio.h>

static int days(int month, int leap)
{
    switch (month) {
    case 2:
        return 28 + leap;
    case 4: case 6: case 9: case 11:
        return 30;
    default:
        if (month < 1 || month > 12)
            return -1;
        return 31;
    }
}

static int middle(int n)
{
    int r = 0;
    switch (n) {
    case 1:
        r += 1;
    default:
        r += 10;
    case 2:
        r += 100;
        break;
    case 3:
        r += 1000;
    case 4:
        r += 10000;
    }
    return r;
}

static int nested(int a, int b)
{
    int r = 0;
    switch (a) {
    case 0:
        switch (b) {
        case 0: r = 1; break;
        case 1: r = 2;
        }
        r *= 10;
        break;
    case 1:
        if (b)
            break;
        r = 5;
        break;
    }
    return r;
}

static int guarded(int n, int stop)
{
    int r = 0;
    switch (n) {
    case 0:
        r += 1;
        if (stop == 0)
            break;
    case 1:
        r += 10;
        if (stop == 1) {
            r += 5;
            break;
        } else if (stop == 2)
            break;
    default:
        if (stop == 3)
            break;
    case 2:
        r += 100;
        if (stop == 4)
            break;
        r += 1000;
    }
    return r;
}

static int loop(int n)
{
    int i, odd = 0, even = 0;
    for (i = 0; i < n; i++) {
        switch (i % 4) {
        case 0:
            if (i == 8)
                break;
            continue;
        case 1:
            odd++;
            continue;
        case 2: {
            int k;
            for (k = 0; k < 3; k++) {
                if (k == 1)
                    continue;
                if (k == 2)
                    break;
                even++;
            }
            break;
        }
        default:
            do {
                odd += 2;
                if (odd > 10)
                    break;
            } while (odd % 3);
        }
        even += 10;
    }
    return odd * 1000 + even;
}

int main(void)
{
    int i, j;
    for (i = 0; i <= 13; i++)
        printf("%d ", days(i, i == 2));
    for (i = 0; i <= 5; i++)
        printf("%d ", middle(i));
    for (i = 0; i < 3; i++)
        for (j = 0; j < 3; j++)
            printf("%d ", nested(i, j));
    for (i = 0; i < 4; i++)
        for (j = 0; j < 6; j++)
            printf("%d ", guarded(i, j));
    printf("%d\n", loop(20));
    switch (i++) {
    case 3:
        printf("three, now %d\n", i);
    }
    switch (i) { }
    return i;
}
