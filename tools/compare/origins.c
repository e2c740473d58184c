#include "origins.h"
#include "count.h"
#include "drawn.h"

enum { LOWEST = -32768, HIGHEST = 32767 };

/* From the screen's (0, 0) no further than a screen has columns or rows. */
static int is_small(int64_t value)
{
    return -MOST_SIDE <= value && value <= MOST_SIDE;
}

static int is_moved(const struct afgis_env *env)
{
    return env->origin_x != 0 || env->origin_y != 0;
}

/* ---- set, or refused ---- */

void count_first_origin(const struct afgis_env *env)
{
    if (is_moved(env))
        count_kind(ORIGINS_SET, SET_BY_ENVIRONMENT);
}

static void count_set(uint16_t opcode, const struct afgis_env *before, const struct afgis_env *after)
{
    int setter = opcode == 0x0100 ? SET_BY_XYORG : SET_BY_XYORGV;

    count_kind(ORIGINS_SET, is_moved(before) ? setter + SET_OVER_ANOTHER : setter);
    if (is_moved(before) && !is_moved(after))
        count_kind(ORIGINS_SET, SET_BACK);
}

/* With its low word alone it would be an origin about the screen. */
static int is_wide(int32_t value)
{
    return !is_word(value) && is_small((int16_t)value);
}

static void count_out_of_range(int32_t x, int32_t y)
{
    if (is_word(x))
        count_kind(REFUSED_ORIGINS, REFUSED_ORIGIN_Y);
    else
        count_kind(REFUSED_ORIGINS, is_word(y) ? REFUSED_ORIGIN_X : REFUSED_ORIGIN_BOTH);
    if (is_wide(x) || is_wide(y))
        count_kind(REFUSED_ORIGINS, REFUSED_ORIGIN_LOW_WORD);
}

static void count_refused(const uint16_t *opcode, const struct afgis_env *before, int number)
{
    if (number == 23)
        count_kind(REFUSED_ORIGINS, opcode[1] < VARIABLES ? REFUSED_ORIGIN_FOLLOWER : REFUSED_ORIGIN_VARIABLE);
    else if (number == 25)
        count_out_of_range(before->variables[opcode[1]], before->variables[opcode[1] + 1]);
}

/* ---- modes ---- */

static void count_mode(uint32_t before, uint32_t after)
{
    if (before != after)
        count_kind(MODES_CHANGED, (int)(2 * before + after - (after > before)));
}

/* ---- drawn under ---- */

static void count_ends(enum group group, int64_t value, int64_t lowest, int64_t highest, int first)
{
    if (value == lowest)
        count_kind(group, first);
    else if (value == highest)
        count_kind(group, first + 1);
}

static int is_end(int32_t value)
{
    return value == LOWEST || value == HIGHEST;
}

static void count_under(int32_t x, int32_t y)
{
    count_ends(ORIGINS, x, LOWEST, HIGHEST, ORIGIN_X_LOWEST);
    count_ends(ORIGINS, y, LOWEST, HIGHEST, ORIGIN_Y_LOWEST);
    if (x == 0 && y == 0)
        count_kind(ORIGINS, ORIGIN_NONE);
    else if (!is_end(x) && !is_end(y))
        count_kind(ORIGINS, is_small(x) && is_small(y) ? ORIGIN_SMALL : ORIGIN_OTHER);
}

/* A dot beyond the word is not drawable; of a line or a circle some may be. */
static int beyond_kind(const struct drawn *drawn)
{
    switch (drawn->shape) {
    case SHAPE_DOT:
        return SUM_DOT_BEYOND;
    case SHAPE_LINE: case SHAPE_DASHED_LINE:
        return drawn->is_seen ? SUM_LINE_BEYOND_SEEN : SUM_LINE_BEYOND;
    default:
        return drawn->is_seen ? SUM_CIRCLE_BEYOND_SEEN : SUM_CIRCLE_BEYOND;
    }
}

static void count_sums(const struct drawn *drawn)
{
    const struct ends *sums = &drawn->points;

    count_ends(SUMS, sums->x0, 2 * LOWEST, 2 * HIGHEST, SUM_X_LOWEST);
    count_ends(SUMS, sums->y0, 2 * LOWEST, 2 * HIGHEST, SUM_Y_LOWEST);
    if (!is_word(sums->x0) || !is_word(sums->y0) || !is_word(sums->x1) || !is_word(sums->y1))
        count_kind(SUMS, beyond_kind(drawn));
}

static int is_same(struct area a, struct area b)
{
    return a.left == b.left && a.top == b.top && a.right == b.right && a.bottom == b.bottom;
}

static int window_kind(const struct afgis_env *env)
{
    struct area screen = { 0, 0, (int64_t)env->width - 1, (int64_t)env->height - 1 };
    struct area window = window_of(env);
    struct area seen = common(window, screen);

    if (is_empty(window))
        return WINDOW_1_EMPTY;
    if (is_empty(seen))
        return WINDOW_1_OFF;
    if (!is_word(window.left) || !is_word(window.top) || !is_word(window.right) || !is_word(window.bottom))
        return WINDOW_1_BEYOND_SEEN;
    return is_same(window, seen) ? WINDOW_1_INSIDE : WINDOW_1_CUT;
}

static void count_drawn(const struct drawn *drawn, const struct afgis_env *env)
{
    count_under(env->origin_x, env->origin_y);
    if (!is_moved(env))
        return;
    if (drawn->is_seen)
        count_kind(MOVED_SHAPES, (int)drawn->shape);
    count_sums(drawn);
    if (env->mode != 0)
        count_kind(MOVED_WINDOWS, env->mode == 1 ? window_kind(env) : WINDOW_2);
}

void count_origin(const uint16_t *opcode, const struct afgis_env *before, const struct afgis_env *after, struct afgis_answer answer)
{
    struct drawn drawn;

    if (answer.steps == 0) {
        if (opcode[0] == 0x0101)
            count_refused(opcode, before, answer.number);
        return;
    }
    if (opcode[0] == 0x0100 || opcode[0] == 0x0101)
        count_set(opcode[0], before, after);
    else if (is_moved(before) && (opcode[0] == 0x0016 || opcode[0] == 0x0017))
        count_mode(before->mode, after->mode);
    else if (drawn_of(opcode, before, after, &drawn))
        count_drawn(&drawn, before);
}
