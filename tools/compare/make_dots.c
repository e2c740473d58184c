#include "area.h"
#include "make.h"
#include "random.h"

enum { MOST_LOOKED_AT = 2000 };

static struct ovenlute_dot any_dot(const struct ovenlute_bounds *bounds)
{
    return (struct ovenlute_dot){ (int32_t)below(bounds->width), (int32_t)below(bounds->height) };
}

/* A dot whose byte the run has changed, looked for from anywhere on; any dot where there is none soon. */
static struct ovenlute_dot changed_dot(const struct call *call, const uint8_t *screen)
{
    const struct ovenlute_bounds *bounds = &call->env.bounds;
    size_t at = below((uint32_t)call->bytes);

    for (int i = 0; i < MOST_LOOKED_AT && call->bytes == (size_t)bounds->width * bounds->height && call->bytes > 0; i++) {
        if (call->screen[at] != screen[at])
            return (struct ovenlute_dot){ (int32_t)(at % bounds->width), (int32_t)(at / bounds->width) };
        at = at + 1 < call->bytes ? at + 1 : 0;
    }
    return any_dot(bounds);
}

/* One of the four, or a dot next to it. */
static struct ovenlute_dot corner_of(struct area area)
{
    int64_t x = one_in(2) ? area.left : area.right, y = one_in(2) ? area.top : area.bottom;

    return (struct ovenlute_dot){ (int32_t)(x + between(-1, 1)), (int32_t)(y + between(-1, 1)) };
}

static struct ovenlute_dot corner_dot(const struct call *call)
{
    struct afgis_env env;

    to_reference(&call->env, &env);
    if (one_in(3))
        return corner_of((struct area){ 0, 0, (int64_t)env.width - 1, (int64_t)env.height - 1 });
    return corner_of(one_in(2) ? window_of(&env) : (struct area){ env.left, env.top, env.right, env.bottom });
}

static int32_t outside_of(uint32_t side)
{
    static const int32_t far[] = { INT32_MIN, INT32_MIN + 1, -65536, -32769, -32768, 32767, 32768, 65536, INT32_MAX };

    if (one_in(3))
        return far[below(sizeof far / sizeof far[0])];
    return one_in(2) ? -1 : (int32_t)side;
}

/* By x, by y or by both. */
static struct ovenlute_dot outside_dot(const struct ovenlute_bounds *bounds)
{
    struct ovenlute_dot dot = any_dot(bounds);
    int which = between(0, 2);

    if (which != 0)
        dot.x = outside_of(bounds->width);
    if (which != 1)
        dot.y = outside_of(bounds->height);
    return dot;
}

/* A point that may be the opcode's at which the run stands, refused or behind the budget: two words behind it, or the low words of two
   variables that it names. */
static struct ovenlute_dot next_point(const struct call *call, const struct ovenlute_env *after)
{
    size_t at = after->registers.counter + (size_t)between(1, 4);
    uint32_t first, second;

    if (at + 1 >= call->words)
        return any_dot(&after->bounds);
    first = call->list[at];
    second = call->list[at + 1];
    if (one_in(2)) {
        uint32_t variable = call->list[after->registers.counter + 1] + below(3);
        first = (uint32_t)after->variables[variable % VARIABLES];
        second = (uint32_t)after->variables[(variable + 1) % VARIABLES];
    }
    return (struct ovenlute_dot){ after->registers.origin.x + (int16_t)first, after->registers.origin.y + (int16_t)second };
}

static struct ovenlute_dot beside(struct ovenlute_dot dot)
{
    return (struct ovenlute_dot){ dot.x + between(-1, 1), dot.y + between(-1, 1) };
}

static struct ovenlute_dot make_dot(const struct call *call, const struct ovenlute_env *after, const uint8_t *screen)
{
    switch (below(10)) {
    case 0:
        return outside_dot(&call->env.bounds);
    case 1:
        return corner_dot(call);
    case 2: case 3:
        return any_dot(&call->env.bounds);
    case 4: case 5:
        return next_point(call, after);
    case 6: case 7:
        return beside(changed_dot(call, screen));
    default:
        return changed_dot(call, screen);
    }
}

void make_dots(struct call *call, const struct ovenlute_env *after, const uint8_t *screen)
{
    draw_from(STREAM_OF_DOTS);
    for (int i = 0; i < DOTS_ASKED; i++)
        call->dots[i] = make_dot(call, after, screen);
    draw_from(STREAM_OF_CALLS);
}
