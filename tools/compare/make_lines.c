#include "make.h"
#include "random.h"

/* Added to a coordinate of the pane, or taken away, it still gives a signed word. */
enum { LONGEST_STEP = 30000 };

uint32_t make_pattern(void)
{
    static const uint32_t patterns[] = { 0, UINT32_MAX, 1, 0x80000000, 0x55555555, 0xAAAAAAAA };

    return one_in(2) ? random_bits() : patterns[below(sizeof patterns / sizeof patterns[0])];
}

/* How far it is from the first dot to the last: mostly so that 1, 2, 31, 32, 33 or 64 dots come of it. */
static int32_t make_step(void)
{
    static const int32_t steps[] = { 0, 1, 30, 31, 32, 63 };

    if (one_in(100))
        return between(100, LONGEST_STEP);
    return one_in(4) ? between(0, 100) : steps[below(sizeof steps / sizeof steps[0])];
}

/* A dot of the line: any, or one about where the pattern begins again. */
static int32_t make_dot(int32_t step)
{
    return step >= 33 && one_in(2) ? between(31, 33) : between(0, step);
}

/* A line along x whose dot k is at (0, 0), or nearly. */
static struct ends make_measured(void)
{
    int32_t step = make_step();
    int32_t aside = one_in(3) ? 0 : between(-step, step);
    int32_t k = make_dot(step);
    int32_t aside_at_k = step == 0 ? 0 : aside * k / step;

    return (struct ends){ -k, -aside_at_k, step - k, aside - aside_at_k };
}

static struct ends turned(struct ends ends)
{
    return (struct ends){ ends.y0, ends.x0, ends.y1, ends.x1 };
}

/* The line that an origin brings to where this one is; this one itself where no words are its ends. */
static struct ends ends_before(struct ends ends, struct ovenlute_dot origin)
{
    struct ends before = { ends.x0 - origin.x, ends.y0 - origin.y, ends.x1 - origin.x, ends.y1 - origin.y };

    return is_word(before.x0) && is_word(before.y0) && is_word(before.x1) && is_word(before.y1) ? before : ends;
}

/* A point of the pane, or one beside it, is on the line, or nearly; it goes ahead or back. */
static struct ends make_through(const struct ovenlute_pane *pane)
{
    int32_t x = between((int32_t)pane->left - 1, (int32_t)pane->right + 1);
    int32_t y = between((int32_t)pane->top - 1, (int32_t)pane->bottom + 1);
    int32_t way = one_in(2) ? 1 : -1;
    struct ends ends = make_measured();

    if (one_in(2))
        ends = turned(ends);
    return (struct ends){ x + way * ends.x0, y + way * ends.y0, x + way * ends.x1, y + way * ends.y1 };
}

/* All coordinates of the long axis, and few of the other, for whose origin they are made. */
static struct ends make_longest(int32_t origin)
{
    int32_t first = before_origin(between(-3, 12), origin), second = before_origin(between(-3, 12), origin);

    return one_in(2) ? (struct ends){ -32768, first, 32767, second } : (struct ends){ 32767, first, -32768, second };
}

static struct ends make_any(const struct ovenlute_bounds *bounds, struct ovenlute_dot origin, int is_far)
{
    return (struct ends){ before_origin(make_coordinate(bounds->width, is_far), origin.x),
                          before_origin(make_coordinate(bounds->height, is_far), origin.y),
                          before_origin(make_coordinate(bounds->width, is_far), origin.x),
                          before_origin(make_coordinate(bounds->height, is_far), origin.y) };
}

struct ends make_line(const struct ovenlute_bounds *bounds, struct ovenlute_dot origin, int is_far)
{
    if (one_in(500))
        return one_in(2) ? make_longest(origin.y) : turned(make_longest(origin.x));
    if (one_in(2))
        return ends_before(make_through(&bounds->pane), origin);
    return make_any(bounds, origin, is_far);
}
