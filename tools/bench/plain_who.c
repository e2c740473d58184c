#include "plain.h"

/* The dot that is asked for, and whether the opcode that is carried out writes it. */
struct question {
    int32_t x, y;
    int is_written;
    uint8_t colour;
};

struct machine {
    const uint16_t *list;
    size_t words;
    struct afgis_env *env;
    struct question *question;
};

#include "interpreter.h"

static int may_be_painted(const struct machine *m)
{
    struct area area = drawable(m->env);
    const struct question *dot = m->question;

    return dot->x >= area.left && dot->x <= area.right && dot->y >= area.top && dot->y <= area.bottom;
}

static void answer(const struct machine *m, int is_written, uint8_t colour)
{
    m->question->is_written = is_written;
    m->question->colour = colour;
}

/* A line on its long axis: how far the dot is from the end with the smaller coordinate, how long the line is, and the same on the
   other axis. No division: the place on the other axis is the floor of a fraction, and so at most that and more than that less one. */
static inline int is_at(int64_t k, int64_t n, int64_t aside, int64_t difference)
{
    int64_t dividend = 2 * k * difference + n;

    if (k < 0 || k > n)
        return 0;
    return n == 0 ? aside == 0 : 2 * n * aside <= dividend && dividend < 2 * n * (aside + 1);
}

static inline int is_on_line(const struct question *dot, uint32_t pattern, int32_t x0, int32_t y0, int32_t x1, int32_t y1)
{
    int32_t across = x0 < x1 ? x1 - x0 : x0 - x1;
    int32_t down = y0 < y1 ? y1 - y0 : y0 - y1;
    int x_is_long = across >= down;
    int is_turned = x_is_long ? x1 < x0 : y1 < y0;
    int32_t x = dot->x - (is_turned ? x1 : x0);
    int32_t y = dot->y - (is_turned ? y1 : y0);
    int32_t dx = is_turned ? x0 - x1 : x1 - x0;
    int32_t dy = is_turned ? y0 - y1 : y1 - y0;
    uint32_t k = (uint32_t)(x_is_long ? x : y);
    uint32_t number = is_turned ? (uint32_t)(x_is_long ? across : down) - k : k;

    if (!(x_is_long ? is_at(x, across, y, dy) : is_at(y, down, x, dx)))
        return 0;
    return pattern >> number % 32 & 1;
}

static int paint_line(const struct machine *m, const uint16_t *word, uint32_t *counter)
{
    int32_t x0 = m->env->origin_x + (int16_t)word[2], y0 = m->env->origin_y + (int16_t)word[3];
    int32_t x1 = m->env->origin_x + (int16_t)word[4], y1 = m->env->origin_y + (int16_t)word[5];

    if (word[1] > 1)
        return 24;
    answer(m, may_be_painted(m) && is_on_line(m->question, word[1] == 0 ? UINT32_MAX : m->env->pattern, x0, y0, x1, y1),
           m->env->colour);
    *counter += 6;
    return 0;
}

static inline int is_in_disc(int64_t across, int64_t down, int64_t square)
{
    return across * across + down * down <= square;
}

/* Of the four neighbours the two that are farther from the centre are asked. */
static inline int is_on_outline(int64_t across, int64_t down, int64_t square)
{
    across = across < 0 ? -across : across;
    down = down < 0 ? -down : down;
    return is_in_disc(across, down, square)
        && (!is_in_disc(across + 1, down, square) || !is_in_disc(across, down + 1, square));
}

static int paint_circle(const struct machine *m, const uint16_t *word, uint32_t *counter)
{
    int64_t across = m->question->x - (m->env->origin_x + (int16_t)word[2]);
    int64_t down = m->question->y - (m->env->origin_y + (int16_t)word[3]);
    int32_t radius = (int16_t)word[4], square = radius * radius;

    if (word[1] != 0)
        return 24;
    if (radius < 0)
        return 25;
    answer(m, may_be_painted(m) && (word[0] == 0x0014 ? is_in_disc(across, down, square) : is_on_outline(across, down, square)),
           m->env->colour);
    *counter += 5;
    return 0;
}

static int paint_dot(const struct machine *m, const uint16_t *word, uint32_t *counter)
{
    const struct afgis_env *env = m->env;
    int is_there = env->origin_x + (int16_t)word[1] == m->question->x && env->origin_y + (int16_t)word[2] == m->question->y;

    answer(m, is_there && may_be_painted(m), env->colour);
    *counter += 3;
    return 0;
}

static void clear(const struct machine *m, uint8_t colour)
{
    answer(m, may_be_painted(m), colour);
}

struct afgis_writer plain_who(const uint16_t *list, size_t words, struct afgis_env env, uint32_t budget, struct afgis_dot dot)
{
    struct question question = { dot.x, dot.y, 0, 0 };
    struct machine m = { list, words, &env, &question };
    struct afgis_writer writer = { 0, 0, 0, 0 };
    uint32_t counter = env.counter;

    for (uint32_t step = 1; env.state == 0 && step <= budget; step++) {
        uint32_t opcode = counter;
        question.is_written = 0;
        if (carry_out(&m, &counter) != 0)
            return writer;
        if (question.is_written)
            writer = (struct afgis_writer){ 0, question.colour, step, opcode };
    }
    return writer;
}
