#include "libc.h"
#include "plain.h"

struct machine {
    const uint16_t *list;
    size_t words;
    uint8_t *screen;
    struct afgis_env *env;
};

#include "interpreter.h"

static inline void paint(const struct machine *m, struct area area, int32_t x, int32_t y, uint8_t colour)
{
    if (x >= area.left && x <= area.right && y >= area.top && y <= area.bottom)
        m->screen[(uint32_t)y * m->env->width + (uint32_t)x] = colour;
}

/* Bresenham's way from the end with the smaller coordinate on the long axis: no division, a test per dot; where it is dashed,
   one more of the pattern's bit, which is counted from the first point given. */
static inline void walk_line(const struct machine *m, int is_dashed, int32_t x0, int32_t y0, int32_t x1, int32_t y1)
{
    int32_t across = x0 < x1 ? x1 - x0 : x0 - x1;
    int32_t down = y0 < y1 ? y1 - y0 : y0 - y1;
    int x_is_long = across >= down;
    int is_turned = x_is_long ? x1 < x0 : y1 < y0;
    int32_t x = is_turned ? x1 : x0;
    int32_t y = is_turned ? y1 : y0;
    int falls = is_turned ? (x_is_long ? y0 < y1 : x0 < x1) : (x_is_long ? y1 < y0 : x1 < x0);
    int32_t step = falls ? -1 : 1;
    int32_t long_side = x_is_long ? across : down;
    int32_t short_side = x_is_long ? down : across;
    int32_t error = falls ? long_side - 1 : long_side;
    uint32_t number = is_turned ? (uint32_t)long_side : 0;
    uint32_t next = is_turned ? UINT32_MAX : 1;
    uint32_t pattern = m->env->pattern;
    uint8_t colour = m->env->colour;
    struct area area = drawable(m->env);

    for (int32_t k = 0; k <= long_side; k++) {
        if (!is_dashed || (pattern >> number % 32 & 1))
            paint(m, area, x, y, colour);
        number += next;
        error += 2 * short_side;
        if (error >= 2 * long_side) {
            error -= 2 * long_side;
            x += x_is_long ? 0 : step;
            y += x_is_long ? step : 0;
        }
        x += x_is_long ? 1 : 0;
        y += x_is_long ? 0 : 1;
    }
}

/* A walk of its own for each type, so that neither asks for it at a dot. */
static int paint_line(const struct machine *m, const uint16_t *word, uint32_t *counter)
{
    int32_t x0 = m->env->origin_x + (int16_t)word[2], y0 = m->env->origin_y + (int16_t)word[3];
    int32_t x1 = m->env->origin_x + (int16_t)word[4], y1 = m->env->origin_y + (int16_t)word[5];

    if (word[1] > 1)
        return 24;
    if (word[1] == 0)
        walk_line(m, 0, x0, y0, x1, y1);
    else
        walk_line(m, 1, x0, y0, x1, y1);
    *counter += 6;
    return 0;
}

static void clear(const struct machine *m, uint8_t colour)
{
    struct area area = drawable(m->env);

    for (int32_t y = area.top; y <= area.bottom; y++)
        if (area.left <= area.right)
            memset(m->screen + (uint32_t)y * m->env->width + (uint32_t)area.left, colour,
                   (size_t)(area.right - area.left + 1));
}

struct circle {
    int32_t x, y, radius;
};

/* The largest whole number whose square is at most the rest, looked for from the one of the row before. */
static inline int32_t half_width(int32_t half, int32_t rest)
{
    while (half * half > rest)
        half--;
    while ((half + 1) * (half + 1) <= rest)
        half++;
    return half;
}

/* The rows of the circle that may be painted. */
static struct area rows_of(const struct machine *m, struct circle circle)
{
    struct area area = drawable(m->env);

    area.top = larger(area.top, circle.y - circle.radius);
    area.bottom = smaller(area.bottom, circle.y + circle.radius);
    return area;
}

/* A row's part each, as wide as the square of the radius leaves room for. */
static void paint_disc(const struct machine *m, struct circle circle)
{
    struct area area = rows_of(m, circle);
    int32_t half = 0;

    for (int32_t y = area.top; y <= area.bottom; y++) {
        int32_t down = y - circle.y;
        half = half_width(half, circle.radius * circle.radius - down * down);
        int32_t first = larger(area.left, circle.x - half);
        int32_t last = smaller(area.right, circle.x + half);
        if (first <= last)
            memset(m->screen + (uint32_t)y * m->env->width + (uint32_t)first, m->env->colour, (size_t)(last - first + 1));
    }
}

static inline void paint_part(const struct machine *m, struct area area, int32_t y, int32_t first, int32_t last)
{
    uint8_t *row = m->screen + (uint32_t)y * m->env->width;
    uint8_t colour = m->env->colour;

    first = larger(area.left, first);
    last = smaller(area.right, last);
    for (int32_t x = first; x <= last; x++)
        row[x] = colour;
}

/* A row has two parts: what the next row away from the centre doesn't cover, and at least the outermost dot on either side. */
static void paint_outline(const struct machine *m, struct circle circle)
{
    struct area area = rows_of(m, circle);
    int32_t square = circle.radius * circle.radius;
    int32_t half = 0;

    for (int32_t y = area.top; y <= area.bottom; y++) {
        int32_t down = y < circle.y ? circle.y - y : y - circle.y;
        int32_t inner = 0;
        half = half_width(half, square - down * down);
        if (down < circle.radius)
            inner = smaller(half_width(half, square - (down + 1) * (down + 1)) + 1, half);
        paint_part(m, area, y, circle.x - half, circle.x - inner);
        paint_part(m, area, y, circle.x + inner, circle.x + half);
    }
}

static int paint_circle(const struct machine *m, const uint16_t *word, uint32_t *counter)
{
    struct circle circle = { m->env->origin_x + (int16_t)word[2], m->env->origin_y + (int16_t)word[3], (int16_t)word[4] };

    if (word[1] != 0)
        return 24;
    if (circle.radius < 0)
        return 25;
    if (word[0] == 0x0014)
        paint_disc(m, circle);
    else
        paint_outline(m, circle);
    *counter += 5;
    return 0;
}

static int paint_dot(const struct machine *m, const uint16_t *word, uint32_t *counter)
{
    const struct afgis_env *env = m->env;

    paint(m, drawable(env), env->origin_x + (int16_t)word[1], env->origin_y + (int16_t)word[2], env->colour);
    *counter += 3;
    return 0;
}

/* "The word index at fault": for 23 the operand that names the variable, behind CPIV's long or INCV's opcode word. */
static uint32_t place_of(const struct machine *m, uint32_t counter, int refusal)
{
    return refusal == 23 ? counter + (m->list[counter] == 0x0033 ? 3 : 1) : counter;
}

static void stop(struct machine *m, uint32_t counter, int refusal)
{
    m->env->state = (uint8_t)refusal;
    m->env->place = place_of(m, counter, refusal);
}

struct afgis_answer plain_run(const uint16_t *list, size_t words, uint8_t *screen, size_t bytes,
                              struct afgis_env *env, uint32_t budget)
{
    struct machine m = { list, words, screen, env };
    struct afgis_answer answer = { 1, 0, 0 };
    uint32_t counter = env->counter;

    if (bytes != (size_t)env->width * env->height) {
        answer.number = 11;
        return answer;
    }
    while (env->state == 0 && answer.steps < budget) {
        int refusal = carry_out(&m, &counter);
        if (refusal == 0)
            answer.steps++;
        else
            stop(&m, counter, refusal);
    }
    env->counter = counter;
    answer.place = env->place;
    if (env->state != 0)
        answer.number = env->state == 1 ? 0 : env->state;
    return answer;
}
