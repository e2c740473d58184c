#include "writers.h"
#include "area.h"
#include "count.h"

static int is_in(struct area area, struct ovenlute_dot dot)
{
    return area.left <= dot.x && dot.x <= area.right && area.top <= dot.y && dot.y <= area.bottom;
}

/* With a dot more on each side. */
static struct area wider(struct area area)
{
    return (struct area){ area.left - 1, area.top - 1, area.right + 1, area.bottom + 1 };
}

static struct area screen_of(const struct ovenlute_bounds *bounds)
{
    return (struct area){ 0, 0, (int64_t)bounds->width - 1, (int64_t)bounds->height - 1 };
}

static struct area pane_of(const struct ovenlute_bounds *bounds)
{
    return (struct area){ bounds->pane.left, bounds->pane.top, bounds->pane.right, bounds->pane.bottom };
}

/* ---- dots outside the screen ---- */

static int side_kind(struct area screen, struct ovenlute_dot dot)
{
    int is_beside = dot.x < 0 || dot.x > screen.right;

    if (is_beside && (dot.y < 0 || dot.y > screen.bottom))
        return OUTSIDE_CORNER;
    if (is_beside)
        return dot.x < 0 ? OUTSIDE_LEFT : OUTSIDE_RIGHT;
    return dot.y < 0 ? OUTSIDE_TOP : OUTSIDE_BOTTOM;
}

static void count_outside(const struct ovenlute_bounds *bounds, struct ovenlute_dot dot)
{
    struct area screen = screen_of(bounds);

    if (is_in(wider(screen), dot))
        count_kind(WHO_OUTSIDE, side_kind(screen, dot));
    if (!is_word(dot.x) || !is_word(dot.y))
        count_kind(WHO_OUTSIDE, OUTSIDE_BEYOND_WORD);
    if (dot.x == INT32_MIN || dot.y == INT32_MIN)
        count_kind(WHO_OUTSIDE, OUTSIDE_LOWEST);
    if (dot.x == INT32_MAX || dot.y == INT32_MAX)
        count_kind(WHO_OUTSIDE, OUTSIDE_HIGHEST);
}

/* ---- dots of the screen ---- */

static int pane_kind(struct area pane, struct ovenlute_dot dot)
{
    struct area inner = { pane.left + 1, pane.top + 1, pane.right - 1, pane.bottom - 1 };

    if (is_in(pane, dot))
        return is_in(inner, dot) ? DOT_IN_PANE : DOT_AT_PANE_EDGE;
    return is_in(wider(pane), dot) ? DOT_NEXT_TO_PANE : DOT_OFF_PANE;
}

static void count_dot(const struct call *call, struct ovenlute_dot dot)
{
    struct area pane = pane_of(&call->env.bounds);
    struct afgis_env env;

    count_kind(WHO_DOTS, pane_kind(pane, dot));
    to_reference(&call->env, &env);
    if (env.mode != 0 && is_in(pane, dot) && !is_in(window_of(&env), dot))
        count_kind(WHO_DOTS, is_in(wider(window_of(&env)), dot) ? DOT_NEXT_TO_WINDOW : DOT_OFF_WINDOW);
}

/* ---- steps ---- */

static int writer_kind(const uint16_t *opcode)
{
    switch (opcode[0]) {
    case 0x009E: case 0x009F:
        return WRITER_PIXEL;
    case 0x0150: case 0x0151:
        return WRITER_PIXELC;
    case 0x0074: case 0x007C: case 0x007E:
        return opcode[1] == 0 ? WRITER_LINE : WRITER_DASHED_LINE;
    case 0x0075: case 0x007D: case 0x007F:
        return WRITER_LINE_V;
    case 0x0014: case 0x0015:
        return WRITER_FILLED_CIRCLE;
    case 0x0012: case 0x0013:
        return WRITER_OUTLINE;
    default:
        return WRITER_CLEARING;
    }
}

static int step_kind(uint32_t step, uint32_t steps)
{
    if (steps == 1)
        return STEP_ONLY;
    if (step == 1)
        return STEP_FIRST;
    return step == steps ? STEP_LAST : STEP_BETWEEN;
}

/* What the run has left there one step sooner. */
static int before_kind(const struct call *call, struct ovenlute_dot dot, const struct ovenlute_writer *writer)
{
    size_t pixel = (size_t)dot.y * call->env.bounds.width + (size_t)dot.x;
    struct ovenlute_writer earlier = ovenlute_who(call->list, call->words, call->env, writer->step - 1, dot);

    if (earlier.step > 0)
        return earlier.colour == writer->colour ? BEFORE_WRITTEN_SAME : BEFORE_WRITTEN;
    return call->screen[pixel] == writer->colour ? BEFORE_UNWRITTEN_SAME : BEFORE_UNWRITTEN;
}

static void count_step(const struct call *call, const struct outcome *run, struct ovenlute_dot dot,
                       const struct ovenlute_writer *writer)
{
    count_kind(WHO_WRITERS, writer_kind(call->list + writer->opcode));
    count_kind(WHO_STEPS, step_kind(writer->step, run->steps));
    if (writer->step > 200)
        count_kind(WHO_STEPS, writer->step > 65535 ? STEP_ABOVE_65535 : STEP_ABOVE_200);
    if (writer->opcode == 0)
        count_kind(WHO_STEPS, STEP_AT_WORD_0);
    count_kind(WHO_BEFORE, before_kind(call, dot, writer));
}

/* ---- all of it ---- */

static int run_kind(int number)
{
    if (number == 11)
        return WHO_RUN_11;
    if (number == 0)
        return WHO_RUN_ENDS;
    return number == 1 ? WHO_RUN_GOES_ON : WHO_RUN_REFUSED;
}

static int nobody_kind(const struct call *call, int number)
{
    if (call->env.registers.state != RUNNING)
        return call->env.registers.state == HAS_ENDED ? WHO_HAD_ENDED : WHO_WAS_STOPPED;
    return call->budget == 0 ? WHO_NO_BUDGET : run_kind(number);
}

static void count_found(const struct call *call, const struct outcome *run, struct ovenlute_dot dot,
                        const struct ovenlute_writer *writer)
{
    count_dot(call, dot);
    if (writer->step == 0) {
        count_kind(WHO_OF_NOBODY, nobody_kind(call, run->number));
        return;
    }
    count_kind(WHO_RUNS, run_kind(run->number));
    if (run->number != 11)
        count_step(call, run, dot, writer);
}

/* The number, and what there is to it. */
static void count_writer(const struct call *call, const struct outcome *run, struct ovenlute_dot dot,
                         const struct ovenlute_writer *writer)
{
    static const int numbers[] = { 0, 10, 12, 13, 14, 25 };

    for (int i = 0; i < (int)(sizeof numbers / sizeof numbers[0]); i++)
        if (writer->number == numbers[i])
            count_kind(WHO_NUMBERS, i);
    if (writer->number == 0)
        count_found(call, run, dot, writer);
    else if (writer->number == 25)
        count_outside(&call->env.bounds, dot);
    else if (!is_in(screen_of(&call->env.bounds), dot))
        count_kind(WHO_SOONER, writer->number == 10 ? SOONER_10 : SOONER_12 + writer->number - 12);
}

void count_writers(const struct call *call, const struct outcome *run, const struct ovenlute_writer *writers)
{
    for (int i = 0; i < DOTS_ASKED; i++)
        count_writer(call, run, call->dots[i], &writers[i]);
}
