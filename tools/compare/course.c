#include "course.h"

/* LINE and LINEV name both ends; the other four go from the position to where they leave it. */
static int given_ends(const uint16_t *opcode, const struct afgis_env *before, const struct afgis_env *after, struct ends *ends)
{
    const int32_t *v;

    switch (opcode[0]) {
    case 0x0074:
        *ends = (struct ends){ (int16_t)opcode[2], (int16_t)opcode[3], (int16_t)opcode[4], (int16_t)opcode[5] };
        return 1;
    case 0x0075:
        v = before->variables + opcode[1];
        *ends = (struct ends){ v[1], v[2], v[3], v[4] };
        return 1;
    case 0x007C: case 0x007D: case 0x007E: case 0x007F:
        *ends = (struct ends){ before->x, before->y, after->x, after->y };
        return 1;
    default:
        return 0;
    }
}

struct ends moved_ends(struct ends ends, const struct afgis_env *env)
{
    return (struct ends){ ends.x0 + env->origin_x, ends.y0 + env->origin_y, ends.x1 + env->origin_x, ends.y1 + env->origin_y };
}

int ends_of(const uint16_t *opcode, const struct afgis_env *before, const struct afgis_env *after, struct ends *ends)
{
    if (!given_ends(opcode, before, after, ends))
        return 0;
    *ends = moved_ends(*ends, before);
    return 1;
}

static int64_t size(int64_t difference)
{
    return difference < 0 ? -difference : difference;
}

struct course course_of(struct ends ends, struct area area)
{
    struct course course = { ends.x0, ends.y0, (int64_t)ends.x1 - ends.x0, (int64_t)ends.y1 - ends.y0, area, X_AHEAD };

    if (size(course.n) < size(course.difference))
        course = (struct course){ ends.y0, ends.x0, course.difference, course.n,
                                  { area.top, area.left, area.bottom, area.right }, Y_AHEAD };
    if (course.n < 0)
        course = (struct course){ course.along + course.n, course.across + course.difference, -course.n,
                                  -course.difference, course.area, course.way + 1 };
    return course;
}

/* Dot k's place on the other axis is inside. */
static int is_inside(const struct course *course, int64_t k)
{
    int64_t dividend = 2 * k * course->difference + course->n, divisor = 2 * course->n;
    int64_t aside = course->n == 0 ? 0 : dividend / divisor - (dividend % divisor < 0);

    return course->area.top <= course->across + aside && course->across + aside <= course->area.bottom;
}

struct seen seen_of(const struct course *course)
{
    int64_t low = course->area.left > course->along ? course->area.left - course->along : 0;
    int64_t high = course->area.right < course->along + course->n ? course->area.right - course->along : course->n;
    struct seen seen = { low, high, low, high };

    while (seen.first <= high && !is_inside(course, seen.first))
        seen.first++;
    while (seen.last >= seen.first && !is_inside(course, seen.last))
        seen.last--;
    return seen;
}
