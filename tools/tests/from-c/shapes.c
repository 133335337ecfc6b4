/* from-c: -DSIDE=7 -UUNSET */
/* Macros, a header of the program's own, conditions of the preprocessor. */
#include <stdio.h>
#include "shapes.h"

#define SHOW(s) printf(#s ": %d%s\n", area(&(s)), is_square(&(s)) ? " square" : "")
#define FOR_EACH(i, n) for (int i = 0; i < (int)(n); i++)
#if SIDE > 5
#define LARGE 1
#else
#define LARGE 0
#endif

volatile int touched;

int area(const struct shape *s)
{
    register int a = s->width * s->height;
    touched++;
    switch (s->kind) {
    case CIRCLE:
        return a * 355 / 113 / 4;
    case SQUARE:
    case RECTANGLE:
        return a;
    }
    return -1;
}

int main(void)
{
    struct shape shapes[] = { { CIRCLE, 10, 10 }, { SQUARE, SIDE, SIDE }, { RECTANGLE, 3, 3 }, { .kind = RECTANGLE, .height = 2 } };
    struct shape own = { 9, 1, 1 };
    int best = 0;
#ifdef UNSET
    best = 1000;
#endif
    FOR_EACH(i, ARRAY_SIZE(shapes)) {
        best = MAX(best, area(&shapes[i]));
        SHOW(shapes[i]);
    }
    SHOW(own);
    printf("%d %d %d %s\n", best, touched, LARGE, "end");
    return best;
}
