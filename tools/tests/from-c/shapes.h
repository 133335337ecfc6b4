#ifndef SHAPES_H
#define SHAPES_H

#ifndef SIDE
#define SIDE 2
#endif
#define MAX(a, b) ((a) > (b) ? (a) : (b))
#define ARRAY_SIZE(a) (sizeof(a) / sizeof((a)[0]))

enum shape_kind { CIRCLE = 1, SQUARE, RECTANGLE };

struct shape {
    enum shape_kind kind;
    int width, height;
};

static inline int is_square(const struct shape *s)
{
    return s->kind == SQUARE || (s->kind == RECTANGLE && s->width == s->height);
}

int area(const struct shape *s);
#endif
