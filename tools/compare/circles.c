#include "circles.h"
#include "count.h"

enum { FAR = 2048, LARGEST_RADIUS = 32767 };

/* CIR and CIRS name it in words, CIRV and CIRSV in variables. */
int circle_of(const uint16_t *opcode, const struct afgis_env *before, struct circle *circle)
{
    const int32_t *v;

    switch (opcode[0]) {
    case 0x0012: case 0x0014:
        *circle = (struct circle){ (int16_t)opcode[1], (int16_t)opcode[2], (int16_t)opcode[3], (int16_t)opcode[4] };
        return 1;
    case 0x0013: case 0x0015:
        v = before->variables + opcode[1];
        *circle = (struct circle){ v[0], v[1], v[2], v[3] };
        return 1;
    default:
        return 0;
    }
}

struct circle moved_circle(struct circle circle, const struct afgis_env *env)
{
    return (struct circle){ circle.type, circle.x + env->origin_x, circle.y + env->origin_y, circle.radius };
}

/* ---- refused ---- */

static int is_radius(int64_t value)
{
    return 0 <= value && value <= LARGEST_RADIUS;
}

static void count_wrong_type(const struct circle *circle)
{
    if (circle->type == 1)
        count_kind(REFUSED_CIRCLES, REFUSED_TYPE_1);
    if (!is_word(circle->x) || !is_word(circle->y))
        count_kind(REFUSED_CIRCLES, REFUSED_TYPE_AND_CENTRE);
    if (!is_radius(circle->radius))
        count_kind(REFUSED_CIRCLES, REFUSED_TYPE_AND_RADIUS);
}

static void count_out_of_range(const struct circle *circle)
{
    if (is_radius(circle->radius))
        count_kind(REFUSED_CIRCLES, REFUSED_CENTRE);
    else if (!is_word(circle->x) || !is_word(circle->y))
        count_kind(REFUSED_CIRCLES, REFUSED_CENTRE_AND_RADIUS);
    else if (circle->radius == LARGEST_RADIUS + 1)
        count_kind(REFUSED_CIRCLES, REFUSED_RADIUS_32768);
    else
        count_kind(REFUSED_CIRCLES, circle->radius < 0 ? REFUSED_RADIUS_BELOW_0 : REFUSED_RADIUS_ABOVE);
}

/* ---- drawn ---- */

/* How far outside these two a value is. */
static int64_t outside(int64_t value, int64_t low, int64_t high)
{
    return value < low ? low - value : value > high ? value - high : 0;
}

static int reaches(const struct circle *circle, int64_t across, int64_t down)
{
    return across * across + down * down <= circle->radius * circle->radius;
}

/* The dot of the area that is nearest to the centre is in the circle. */
int meets(const struct circle *circle, struct area area)
{
    return !is_empty(area)
        && reaches(circle, outside(circle->x, area.left, area.right), outside(circle->y, area.top, area.bottom));
}

/* The corner of the area that is farthest from the centre is in the circle. */
static int covers(const struct circle *circle, struct area area)
{
    return !is_empty(area)
        && reaches(circle, larger(circle->x - area.left, area.right - circle->x),
                   larger(circle->y - area.top, area.bottom - circle->y));
}

static int is_whole(const struct circle *circle, struct area area)
{
    return area.left <= circle->x - circle->radius && circle->x + circle->radius <= area.right
        && area.top <= circle->y - circle->radius && circle->y + circle->radius <= area.bottom;
}

/* The circle is also in a part of the pane that the window leaves out: left, above, right or below. */
static int is_cut_by_window(const struct circle *circle, const struct afgis_env *env, struct area area)
{
    return env->mode != 0
        && (meets(circle, (struct area){ env->left, env->top, area.left - 1, env->bottom })
            || meets(circle, (struct area){ env->left, env->top, env->right, area.top - 1 })
            || meets(circle, (struct area){ area.right + 1, env->top, env->right, env->bottom })
            || meets(circle, (struct area){ env->left, area.bottom + 1, env->right, env->bottom }));
}

static int is_far(const struct circle *circle, const struct afgis_env *env)
{
    return outside(circle->x, 0, (int64_t)env->width - 1) > FAR || outside(circle->y, 0, (int64_t)env->height - 1) > FAR;
}

static void count_radius(enum group group, int64_t radius)
{
    if (radius == 0 || radius == 1)
        count_kind(group, radius == 0 ? CIRCLE_RADIUS_0 : CIRCLE_RADIUS_1);
    else if (radius == LARGEST_RADIUS)
        count_kind(group, CIRCLE_RADIUS_32767);
}

/* What of the filled circle is drawable, also where only its outline is drawn: so it is told where the edge runs. */
static void count_part(enum group group, const struct circle *circle, const struct afgis_env *env)
{
    struct area area = area_of(env);

    if (!meets(circle, area)) {
        count_kind(group, CIRCLE_OUTSIDE);
        return;
    }
    if (covers(circle, area))
        count_kind(group, CIRCLE_COVERS);
    else
        count_kind(group, is_whole(circle, area) ? CIRCLE_WHOLE : CIRCLE_CUT);
    if (is_cut_by_window(circle, env, area))
        count_kind(group, CIRCLE_CUT_BY_WINDOW);
    if (is_far(circle, env))
        count_kind(group, CIRCLE_FROM_FAR);
}

void count_circle(const uint16_t *opcode, const struct afgis_env *before, struct afgis_answer answer)
{
    struct circle circle;
    enum group group = opcode[0] < 0x0014 ? OUTLINES : FILLED_CIRCLES;

    if ((answer.steps == 0 && answer.number != 24 && answer.number != 25) || !circle_of(opcode, before, &circle))
        return;
    if (answer.steps == 1) {
        circle = moved_circle(circle, before);
        count_radius(group, circle.radius);
        count_part(group, &circle, before);
    } else if (answer.number == 24) {
        count_wrong_type(&circle);
    } else {
        count_out_of_range(&circle);
    }
}
