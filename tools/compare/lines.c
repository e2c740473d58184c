#include "lines.h"
#include "count.h"
#include "course.h"

static int64_t common_divisor(int64_t a, int64_t b)
{
    while (b != 0) {
        int64_t rest = a % b;
        a = b;
        b = rest;
    }
    return a;
}

/* Some k difference / n is halfway between two whole numbers where n without its common divisor is even. */
static void count_slope(const struct course *course)
{
    int64_t rise = course->difference;
    int slope = rise > 0 ? LINE_RISING : rise < 0 ? LINE_FALLING : LINE_LEVEL;

    count_kind(LINES, LINE_SLOPES * (int)course->way + slope);
    if (course->n / common_divisor(course->n, rise < 0 ? -rise : rise) % 2 == 0)
        count_kind(HALVES, rise > 0 ? HALF_RISING : HALF_FALLING);
}

static void count_cuts(const struct course *course)
{
    struct seen seen = seen_of(course);

    if (seen.first > seen.last) {
        count_kind(CUTS, CUT_TO_NOTHING);
        return;
    }
    if (seen.first == 0 && seen.last == course->n)
        count_kind(CUTS, CUT_NOWHERE);
    if (seen.first > 0)
        count_kind(CUTS, seen.first == seen.low ? CUT_START_LONG : CUT_START_OTHER);
    if (seen.last < course->n)
        count_kind(CUTS, seen.last == seen.high ? CUT_END_LONG : CUT_END_OTHER);
}

void count_line(const uint16_t *opcode, const struct afgis_env *before, const struct afgis_env *after)
{
    struct course course;
    struct ends ends;

    if (!ends_of(opcode, before, after, &ends))
        return;
    course = course_of(ends, area_of(before));
    if (course.n == 0)
        count_kind(LINES, LINE_DOT);
    else
        count_slope(&course);
    count_cuts(&course);
}
