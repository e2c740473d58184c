#include "drawn.h"
#include "circles.h"
#include "dashes.h"

static struct ends one_point(int64_t x, int64_t y)
{
    return (struct ends){ (int32_t)x, (int32_t)y, (int32_t)x, (int32_t)y };
}

static struct drawn dot_at(int32_t x, int32_t y, const struct afgis_env *before)
{
    struct ends points = moved_ends(one_point(x, y), before);
    struct area dot = { points.x0, points.y0, points.x0, points.y0 };

    return (struct drawn){ SHAPE_DOT, points, !is_empty(common(dot, area_of(before))) };
}

static int line_of(const uint16_t *opcode, const struct afgis_env *before, const struct afgis_env *after, struct drawn *drawn)
{
    struct course course;
    struct ends ends;
    struct seen seen;
    int32_t type;

    if (!line_type(opcode, before, &type) || !ends_of(opcode, before, after, &ends))
        return 0;
    course = course_of(ends, area_of(before));
    seen = seen_of(&course);
    *drawn = (struct drawn){ type == DASHED ? SHAPE_DASHED_LINE : SHAPE_LINE, ends, seen.first <= seen.last };
    return 1;
}

static int round_of(const uint16_t *opcode, const struct afgis_env *before, struct drawn *drawn)
{
    struct circle circle;

    if (!circle_of(opcode, before, &circle))
        return 0;
    circle = moved_circle(circle, before);
    *drawn = (struct drawn){ opcode[0] < 0x0014 ? SHAPE_OUTLINE : SHAPE_FILLED_CIRCLE, one_point(circle.x, circle.y),
                             meets(&circle, area_of(before)) };
    return 1;
}

int drawn_of(const uint16_t *opcode, const struct afgis_env *before, const struct afgis_env *after, struct drawn *drawn)
{
    switch (opcode[0]) {
    case 0x009E: case 0x0150:
        *drawn = dot_at((int16_t)opcode[1], (int16_t)opcode[2], before);
        return 1;
    case 0x009F: case 0x0151:
        *drawn = dot_at(before->variables[opcode[1]], before->variables[opcode[1] + 1], before);
        return 1;
    case 0x0188: case 0x0189:
        *drawn = (struct drawn){ SHAPE_CLEARING, one_point(0, 0), !is_empty(area_of(before)) };
        return 1;
    default:
        return line_of(opcode, before, after, drawn) || round_of(opcode, before, drawn);
    }
}
