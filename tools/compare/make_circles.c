#include "make.h"
#include "random.h"

enum { LARGEST_RADIUS = 32767 };

int32_t bad_radius(void)
{
    static const int32_t radii[] = { 32769, 65535, 65536, 65541, INT32_MAX, -1, -2, -32767, -32768, -65535, INT32_MIN };

    return one_in(4) ? LARGEST_RADIUS + 1 : radii[below(sizeof radii / sizeof radii[0])];
}

/* Often small; at times about the size of the screen, any, or the largest. */
static int32_t make_radius(const struct ovenlute_bounds *bounds)
{
    int32_t side = (int32_t)(one_in(2) ? bounds->width : bounds->height);

    switch (below(8)) {
    case 0:
        return between(0, 1);
    case 1: case 2:
        return between(side / 2, side + 2);
    case 3:
        return between(0, LARGEST_RADIUS);
    case 4:
        return LARGEST_RADIUS - between(0, 1);
    default:
        return between(0, 8);
    }
}

/* The largest whole number whose square is at most the value, which is at most 32,767 squared. */
static int32_t root_of(int32_t value)
{
    int32_t root = 0;

    for (int32_t bit = 1 << 14; bit > 0; bit /= 2)
        if ((root + bit) * (root + bit) <= value)
            root += bit;
    return root;
}

/* From a point of the pane as far as this, to a side where a word leads from the origin; where none does, the point itself. */
static int32_t go_from(int32_t point, int32_t distance, int32_t origin)
{
    int32_t ahead = point + distance - origin, back = point - distance - origin;

    if (is_word(ahead) && (one_in(2) || !is_word(back)))
        return ahead;
    return is_word(back) ? back : point;
}

/* A point of the pane, or one beside it, is on the edge, or nearly, this far from the centre on one axis. */
static struct circle make_edge(const struct ovenlute_pane *pane, struct ovenlute_dot origin, int32_t radius, int32_t across)
{
    int32_t x = between((int32_t)pane->left - 1, (int32_t)pane->right + 1);
    int32_t y = between((int32_t)pane->top - 1, (int32_t)pane->bottom + 1);
    int32_t down = root_of(radius * radius - across * across);

    if (one_in(2))
        return (struct circle){ go_from(x, across, origin.x), go_from(y, down, origin.y), radius };
    return (struct circle){ go_from(x, down, origin.x), go_from(y, across, origin.y), radius };
}

/* At an end of the signed words, or one before it. */
static int32_t make_end(void)
{
    return one_in(2) ? 32767 - between(0, 1) : -32768 + between(0, 1);
}

struct circle make_circle(const struct ovenlute_bounds *bounds, struct ovenlute_dot origin)
{
    int32_t radius = make_radius(bounds);
    struct circle circle = { before_origin(make_coordinate(bounds->width, 1), origin.x),
                             before_origin(make_coordinate(bounds->height, 1), origin.y), radius };

    if (one_in(16))
        return make_edge(&bounds->pane, origin, LARGEST_RADIUS, 0);
    if (one_in(2))
        circle = make_edge(&bounds->pane, origin, radius, one_in(8) ? 0 : between(0, radius));
    else if (one_in(8))
        circle = (struct circle){ make_end(), make_end(), radius };
    if (one_in(12))
        circle.radius = bad_radius();
    return circle;
}
