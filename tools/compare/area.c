#include "area.h"

static int64_t smaller(int64_t a, int64_t b)
{
    return a < b ? a : b;
}

int64_t larger(int64_t a, int64_t b)
{
    return a > b ? a : b;
}

struct area common(struct area a, struct area b)
{
    return (struct area){ larger(a.left, b.left), larger(a.top, b.top), smaller(a.right, b.right), smaller(a.bottom, b.bottom) };
}

int is_empty(struct area area)
{
    return area.left > area.right || area.top > area.bottom;
}

struct area window_of(const struct afgis_env *env)
{
    int64_t across = env->mode == 1 ? env->origin_x : 0;
    int64_t down = env->mode == 1 ? env->origin_y : 0;

    return (struct area){ env->x0 + across, env->y0 + down, env->x1 + across, env->y1 + down };
}

struct area area_of(const struct afgis_env *env)
{
    struct area pane = { env->left, env->top, env->right, env->bottom };

    return env->mode == 0 ? pane : common(pane, window_of(env));
}
