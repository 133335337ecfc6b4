/* Structs by value: parameters, results, copies, arrays of structs, nested structs. */
#include <stdio.h>

typedef struct { int x, y; } point;
typedef struct { point low, high; } box;

static point make(int x, int y)
{
    point p;
    p.x = x;
    p.y = y;
    return p;
}

static point plus(point a, point b)
{
    a.x += b.x;
    a.y += b.y;
    return a;
}

static int area(box b)
{
    return (b.high.x - b.low.x) * (b.high.y - b.low.y);
}

static box grown(box b, int by)
{
    box g = b;
    g.low.x -= by;
    g.low.y -= by;
    g.high = plus(g.high, (point){ by, by });
    return g;
}

static box around(const point *points, int n)
{
    box b = { points[0], points[0] };
    int i;
    for (i = 1; i < n; i++) {
        point p = points[i];
        if (p.x < b.low.x) b.low.x = p.x;
        if (p.y < b.low.y) b.low.y = p.y;
        if (p.x > b.high.x) b.high.x = p.x;
        if (p.y > b.high.y) b.high.y = p.y;
    }
    return b;
}

static void swap(point *a, point *b)
{
    point t = *a;
    *a = *b;
    *b = t;
}

static void print(point p) { printf("(%d, %d)", p.x, p.y); }

int main(void)
{
    point points[4] = { { 3, 1 }, { .y = 4, .x = -1 }, make(5, -9) }, q, r;
    box b;
    int flag = 1;

    points[3] = plus(points[0], plus(points[1], points[2]));
    q = r = points[3];
    q.x++;
    print(q);
    print(r);
    swap(&points[0], points + 3);
    print(points[0]);
    b = around(points, 4);
    printf(" %d", area(b));
    b = grown(b, 2);
    printf(" %d", area(b));
    r = flag ? make(1, 2) : points[1];
    print(r);
    printf(" %d\n", make(7, 8).y + plus(q, r).x);
    return area(grown(around(points, 2), 1));
}
