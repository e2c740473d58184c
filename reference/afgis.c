/*
 * AFGIS display lists by documents 01 and 02, in plain C. The sections follow 01's, with one for 02's circles, one for its
 * line pattern, one for its origin, one for its repeat blocks and one for its lit dots; a sentence in quotation marks is one of
 * these papers' own. The condition numbers and the numbers of RTRN, XYORG, XYORGV, RPT and ERPT come from document 004.
 */

#include "afgis.h"
#include "numbers.h"
#include "record.h"

/* What carrying out one opcode answers: this, or a number 20 to 29. */
enum { DONE = 0 };

/* The states of an environment besides 20 to 29. */
enum { STATE_RUNNING = 0, STATE_ENDED = 1 };

/* What an opcode works on. */
struct machine {
    const uint16_t *list;
    size_t words;
    uint8_t *screen;
    struct afgis_env *env;
    struct record *record;  /* or NULL, where nobody asks */
    uint32_t step;          /* of the opcode that is carried out, counted from 1 */
    uint32_t misnamed;      /* with 23: how far behind the opcode word the operand word at fault is */
};

static int is_between(int64_t value, int64_t low, int64_t high)
{
    return low <= value && value <= high;
}

static int fits_word(int32_t value)
{
    return is_between(value, -32768, 32767);
}

/* ---- What a call is given ---- */

static int size_is_good(uint32_t width, uint32_t height)
{
    return is_between(width, 1, MOST_SIDE) && is_between(height, 1, MOST_SIDE);
}

static int pane_is_good(const struct afgis_env *env)
{
    return env->left <= env->right && env->right < env->width
        && env->top <= env->bottom && env->bottom < env->height;
}

static int stack_is_good(const struct afgis_env *env)
{
    if (env->depth > RETURNS)
        return 0;
    for (uint32_t i = 0; i < env->depth; i++)
        if (env->stack[i] > MOST_WORDS)
            return 0;
    return 1;
}

static int repeat_is_good(const struct afgis_repeat *repeat)
{
    return repeat->start <= MOST_WORDS && is_between(repeat->left, 1, MOST_PASSES);
}

/* "Up to eight open repeats, each a word index and 1 to 1,000 passes left, checked under 12." */
static int repeats_are_good(const struct afgis_env *env)
{
    if (env->nesting > REPEATS)
        return 0;
    for (uint32_t i = 0; i < env->nesting; i++)
        if (!repeat_is_good(&env->repeats[i]))
            return 0;
    return 1;
}

static int is_stopped(uint8_t state)
{
    return is_between(state, PAST_END, STACK_EMPTY);
}

static int state_is_good(uint8_t state)
{
    return state == STATE_RUNNING || state == STATE_ENDED || is_stopped(state);
}

/* "A stopped environment keeps the place (0 to 65,536, else 12)"; any other has none to keep. */
static int place_is_good(const struct afgis_env *env)
{
    return is_stopped(env->state) ? env->place <= MOST_WORDS : env->place == 0;
}

/* "The ranges checked under 12 grow" with the origin. */
static int fields_are_good(const struct afgis_env *env)
{
    return pane_is_good(env)
        && fits_word(env->x) && fits_word(env->y)
        && fits_word(env->origin_x) && fits_word(env->origin_y)
        && env->mode <= 2
        && fits_word(env->x0) && fits_word(env->y0) && fits_word(env->x1) && fits_word(env->y1)
        && env->counter <= MOST_WORDS
        && stack_is_good(env)
        && repeats_are_good(env)
        && state_is_good(env->state)
        && place_is_good(env);
}

int afgis_fresh(uint32_t width, uint32_t height, uint32_t left, uint32_t top, uint32_t right, uint32_t bottom,
                struct afgis_env *env)
{
    const struct afgis_env zeros = { 0 };

    *env = zeros;
    if (!size_is_good(width, height))
        return BAD_SIZE;
    env->width = width;
    env->height = height;
    env->left = left;
    env->top = top;
    env->right = right;
    env->bottom = bottom;
    if (!pane_is_good(env)) {
        *env = zeros;
        return BAD_FIELD;
    }
    env->colour = 15;
    env->pattern = 0xFFFFFFFF;  /* "the pattern, all ones when fresh" */
    env->x1 = (int32_t)width - 1;
    env->y1 = (int32_t)height - 1;
    return 0;
}

/* ---- Which dots are painted ---- */

static int is_in_window(const struct afgis_env *env, int32_t x, int32_t y)
{
    return is_between(x, env->x0, env->x1) && is_between(y, env->y0, env->y1);
}

/* "Clip mode 1 is now relative to the origin and mode 2 absolute." */
static int is_unclipped(const struct afgis_env *env, int32_t x, int32_t y)
{
    switch (env->mode) {
    case 1:
        return is_in_window(env, x - env->origin_x, y - env->origin_y);
    case 2:
        return is_in_window(env, x, y);
    default:
        return 1;
    }
}

/* "Inside the screen, inside the pane, and, in modes 1 and 2, inside the clip window." "The pane stays absolute." */
static int is_drawable(const struct afgis_env *env, int32_t x, int32_t y)
{
    return is_between(x, 0, (int64_t)env->width - 1) && is_between(y, 0, (int64_t)env->height - 1)
        && is_between(x, env->left, env->right) && is_between(y, env->top, env->bottom)
        && is_unclipped(env, x, y);
}

/* A pixel, counted from the screen's own (0, 0). "Points elsewhere are skipped; that is no refusal." */
static void paint_pixel(struct machine *m, int32_t x, int32_t y, uint8_t colour)
{
    size_t pixel;

    if (!is_drawable(m->env, x, y))
        return;
    pixel = (size_t)y * m->env->width + (size_t)x;
    m->screen[pixel] = colour;
    if (m->record != NULL)
        m->record->steps[pixel] = m->step;
}

/* "Drawing coordinates are relative to the origin; the sum may leave the signed word and is then merely not drawable." */
static void paint(struct machine *m, int32_t x, int32_t y, uint8_t colour)
{
    paint_pixel(m, m->env->origin_x + x, m->env->origin_y + y, colour);
}

static int64_t distance(int32_t a, int32_t b)
{
    return a < b ? (int64_t)b - a : (int64_t)a - b;
}

/* Rounded toward minus infinity; the divisor is above 0. */
static int64_t floor_of(int64_t dividend, int64_t divisor)
{
    int64_t quotient = dividend / divisor;

    return dividend % divisor < 0 ? quotient - 1 : quotient;
}

/* "The other axis gets floor((2kd + n) / 2n) added, d its signed difference." */
static int64_t aside(int64_t k, int64_t difference, int64_t n)
{
    return n == 0 ? 0 : floor_of(2 * k * difference + n, 2 * n);
}

/* The types of a line: all of its dots, or those that the pattern has. */
enum { SOLID = 0, DASHED = 1 };

/* "Painted when bit k modulo 32 of the pattern is one, bit 0 lowest; zero bits paint nothing; each line starts at bit 0." */
static int is_in_pattern(uint32_t pattern, int64_t dot)
{
    return (pattern >> dot % 32) % 2 == 1;
}

/* "Start from the end with the smaller coordinate on the long axis"; but dashes are "counted along the long axis from the first
   point given". */
static void paint_line(struct machine *m, int32_t type, int32_t x0, int32_t y0, int32_t x1, int32_t y1)
{
    int64_t across = distance(x0, x1);
    int64_t down = distance(y0, y1);
    int x_is_long = across >= down;
    int64_t n = x_is_long ? across : down;
    int starts_at_second = x_is_long ? x1 < x0 : y1 < y0;
    int64_t x = starts_at_second ? x1 : x0;
    int64_t y = starts_at_second ? y1 : y0;
    int64_t end_x = starts_at_second ? x0 : x1;
    int64_t end_y = starts_at_second ? y0 : y1;

    for (int64_t k = 0; k <= n; k++) {
        int32_t dot_x = (int32_t)(x + (x_is_long ? k : aside(k, end_x - x, n)));
        int32_t dot_y = (int32_t)(y + (x_is_long ? aside(k, end_y - y, n) : k));
        int64_t number = x_is_long ? distance(x0, dot_x) : distance(y0, dot_y);
        if (type == SOLID || is_in_pattern(m->env->pattern, number))
            paint(m, dot_x, dot_y, m->env->colour);
    }
}

struct circle {
    int32_t x, y, radius;
};

/* Whether a dot belongs to a circle: to the filled one or to its outline. */
typedef int shape(const struct circle *circle, int32_t x, int32_t y);

/* "The square of its x distance plus the square of its y distance is at most the square of the radius." */
static int is_in_circle(const struct circle *circle, int32_t x, int32_t y)
{
    int64_t across = distance(circle->x, x);
    int64_t down = distance(circle->y, y);
    int64_t radius = circle->radius;

    return across * across + down * down <= radius * radius;
}

/* "The dots of the filled circle with at least one of four neighbours outside it." */
static int is_on_outline(const struct circle *circle, int32_t x, int32_t y)
{
    return is_in_circle(circle, x, y)
        && (!is_in_circle(circle, x - 1, y) || !is_in_circle(circle, x + 1, y)
            || !is_in_circle(circle, x, y - 1) || !is_in_circle(circle, x, y + 1));
}

/* Every dot of the screen is asked: the drawing coordinates that the origin brings there. */
static void paint_circle(struct machine *m, const struct circle *circle, shape *belongs)
{
    for (int32_t row = 0; row < (int32_t)m->env->height; row++)
        for (int32_t column = 0; column < (int32_t)m->env->width; column++) {
            int32_t x = column - m->env->origin_x;
            int32_t y = row - m->env->origin_y;
            if (belongs(circle, x, y))
                paint(m, x, y, m->env->colour);
        }
}

/* ---- Opcodes of the base: words, longs, variables ---- */

/* The list ends inside an opcode of this many words; the counter is below the list's length. */
static int is_cut(const struct machine *m, uint32_t length)
{
    return m->words - m->env->counter < length;
}

/* The word this far behind the opcode word. */
static uint16_t word_at(const struct machine *m, uint32_t distance_in_words)
{
    return m->list[m->env->counter + distance_in_words];
}

static int32_t signed_word_at(const struct machine *m, uint32_t distance_in_words)
{
    int32_t word = word_at(m, distance_in_words);

    return word <= 32767 ? word : word - 65536;
}

/* "A long is two words, low word first." */
static uint32_t long_at(const struct machine *m, uint32_t distance_in_words)
{
    uint32_t low = word_at(m, distance_in_words);
    uint32_t high = word_at(m, distance_in_words + 1);

    return high * 65536u + low;
}

/* "Keep the low 32 bits in two's complement." */
static int32_t low_32_bits(int64_t value)
{
    int64_t low = (uint32_t)value;

    return (int32_t)(low <= INT32_MAX ? low : low - 4294967296);
}

static int is_variable(uint32_t number)
{
    return number < VARIABLES;
}

/* The opcode is done: on to the next one. */
static int done(struct machine *m, uint32_t length)
{
    m->env->counter += length;
    return DONE;
}

/* "The first operand word naming a variable above 63 or a Vi whose followers go past it" is this far behind the opcode word. */
static int no_variable(struct machine *m, uint32_t distance_in_words)
{
    m->misnamed = distance_in_words;
    return NO_VARIABLE;
}

/* A V form: its values are those of Vi and its followers. */
static int read_variables(struct machine *m, uint32_t count, int32_t *values)
{
    if (is_cut(m, 2))
        return CUT;
    if (!is_variable(word_at(m, 1) + count - 1))
        return no_variable(m, 1);
    for (uint32_t i = 0; i < count; i++)
        values[i] = m->env->variables[word_at(m, 1) + i];
    return DONE;
}

/* ---- Opcodes of the base: arithmetic, loads, compares ---- */

enum calculation { ADD, AND, OR, MULTIPLY, DIVIDE, REMAINDER, LOAD, COMPARE };

static int divide(int32_t *vd, int32_t source, enum calculation calculation)
{
    int64_t dividend = *vd;

    if (source == 0)
        return ZERO_DIVISOR;
    *vd = low_32_bits(calculation == DIVIDE ? dividend / source : dividend % source);
    return DONE;
}

/* "Vd's value is kept first, the other second." */
static void compare(struct afgis_env *env, int32_t vd, int32_t source)
{
    env->first = vd;
    env->second = source;
}

static int calculate(struct machine *m, uint32_t length, enum calculation calculation, int32_t source,
                     uint16_t number)
{
    int32_t *vd = &m->env->variables[number];

    switch (calculation) {
    case ADD:
        *vd = low_32_bits((int64_t)*vd + source);
        break;
    case AND:
        *vd = low_32_bits((uint32_t)*vd & (uint32_t)source);
        break;
    case OR:
        *vd = low_32_bits((uint32_t)*vd | (uint32_t)source);
        break;
    case MULTIPLY:
        *vd = low_32_bits((int64_t)*vd * source);
        break;
    case DIVIDE:
    case REMAINDER:
        if (divide(vd, source, calculation) != DONE)
            return ZERO_DIVISOR;
        break;
    case LOAD:
        *vd = source;
        break;
    case COMPARE:
        compare(m->env, *vd, source);
        break;
    }
    return done(m, length);
}

/* long Vd */
static int long_form(struct machine *m, enum calculation calculation)
{
    if (is_cut(m, 4))
        return CUT;
    if (!is_variable(word_at(m, 3)))
        return no_variable(m, 3);
    return calculate(m, 4, calculation, low_32_bits(long_at(m, 1)), word_at(m, 3));
}

/* Vs Vd */
static int variable_form(struct machine *m, enum calculation calculation)
{
    if (is_cut(m, 3))
        return CUT;
    if (!is_variable(word_at(m, 1)))
        return no_variable(m, 1);
    if (!is_variable(word_at(m, 2)))
        return no_variable(m, 2);
    return calculate(m, 3, calculation, m->env->variables[word_at(m, 1)], word_at(m, 2));
}

/* LDIV word Vd: "the word as signed". */
static int load_word(struct machine *m)
{
    if (is_cut(m, 3))
        return CUT;
    if (!is_variable(word_at(m, 2)))
        return no_variable(m, 2);
    return calculate(m, 3, LOAD, signed_word_at(m, 1), word_at(m, 2));
}

/* INCV V and DCRV V. */
static int count_by(struct machine *m, int32_t by)
{
    if (is_cut(m, 2))
        return CUT;
    if (!is_variable(word_at(m, 1)))
        return no_variable(m, 1);
    return calculate(m, 2, ADD, by, word_at(m, 1));
}

/* ---- Opcodes of the base: jumps, calls, the end ---- */

static int end_list(struct machine *m)
{
    m->env->state = STATE_ENDED;
    return done(m, 1);
}

/* The seven conditions, numbered as on 004's jump pages. */
enum { ALWAYS = 0x0, LESS = 0x4, GREATER_EQUAL = 0x5, LESS_EQUAL = 0x6, GREATER = 0x7, EQUAL = 0xA, NOT_EQUAL = 0xB };

static int is_condition(uint16_t condition)
{
    return condition == ALWAYS || is_between(condition, LESS, GREATER)
        || condition == EQUAL || condition == NOT_EQUAL;
}

static int holds(const struct afgis_env *env, uint16_t condition)
{
    switch (condition) {
    case LESS:
        return env->first < env->second;
    case GREATER_EQUAL:
        return env->first >= env->second;
    case LESS_EQUAL:
        return env->first <= env->second;
    case GREATER:
        return env->first > env->second;
    case EQUAL:
        return env->first == env->second;
    case NOT_EQUAL:
        return env->first != env->second;
    default:
        return 1;
    }
}

/* "A bit address from the list's start: a multiple of 16"; -1 for no word index. */
static int64_t absolute_target(uint32_t address)
{
    return address % 16 == 0 ? (int64_t)address / 16 : -1;
}

/* "The next opcode's index plus the signed offset in words." */
static int64_t relative_target(const struct machine *m, uint32_t length, int32_t offset)
{
    return (int64_t)m->env->counter + length + offset;
}

static int is_target(const struct machine *m, int64_t target)
{
    return is_between(target, 0, (int64_t)m->words - 1);
}

static int jump(struct machine *m, uint32_t length, uint16_t condition, int64_t target)
{
    if (!is_condition(condition))
        return NOT_ALLOWED;
    if (!holds(m->env, condition))
        return done(m, length);
    if (!is_target(m, target))
        return BAD_TARGET;
    m->env->counter = (uint32_t)target;
    return DONE;
}

static int jump_absolute(struct machine *m)
{
    if (is_cut(m, 4))
        return CUT;
    return jump(m, 4, word_at(m, 1), absolute_target(long_at(m, 2)));
}

static int jump_relative(struct machine *m)
{
    if (is_cut(m, 3))
        return CUT;
    return jump(m, 3, word_at(m, 1), relative_target(m, 3, signed_word_at(m, 2)));
}

/* "The return index is the next opcode's." */
static int call(struct machine *m, uint32_t length, int64_t target)
{
    struct afgis_env *env = m->env;

    if (!is_target(m, target))
        return BAD_TARGET;
    if (env->depth == RETURNS)
        return STACK_FULL;
    env->stack[env->depth] = env->counter + length;
    env->depth++;
    env->counter = (uint32_t)target;
    return DONE;
}

static int call_absolute(struct machine *m)
{
    if (is_cut(m, 3))
        return CUT;
    return call(m, 3, absolute_target(long_at(m, 1)));
}

static int call_absolute_v(struct machine *m)
{
    int32_t address;
    int refusal = read_variables(m, 1, &address);

    return refusal != DONE ? refusal : call(m, 2, absolute_target((uint32_t)address));
}

static int call_relative(struct machine *m)
{
    if (is_cut(m, 2))
        return CUT;
    return call(m, 2, relative_target(m, 2, signed_word_at(m, 1)));
}

static int call_relative_v(struct machine *m)
{
    int32_t offset;
    int refusal = read_variables(m, 1, &offset);

    return refusal != DONE ? refusal : call(m, 2, relative_target(m, 2, offset));
}

/* "RTRN goes there untested." */
static int return_from_call(struct machine *m)
{
    struct afgis_env *env = m->env;

    if (env->depth == 0)
        return STACK_EMPTY;
    env->depth--;
    env->counter = env->stack[env->depth];
    return DONE;
}

/* ---- Opcodes of the base: clip mode, clip window, colour ---- */

static int set_mode(struct machine *m, int32_t mode)
{
    if (!is_between(mode, 0, 2))
        return NOT_ALLOWED;
    m->env->mode = (uint32_t)mode;
    return done(m, 2);
}

static int clip_mode(struct machine *m)
{
    return is_cut(m, 2) ? CUT : set_mode(m, word_at(m, 1));
}

static int clip_mode_v(struct machine *m)
{
    int32_t mode;
    int refusal = read_variables(m, 1, &mode);

    return refusal != DONE ? refusal : set_mode(m, mode);
}

static int set_window(struct machine *m, uint32_t length, int32_t x0, int32_t y0, int32_t x1, int32_t y1)
{
    if (!fits_word(x0) || !fits_word(y0) || !fits_word(x1) || !fits_word(y1))
        return OUT_OF_RANGE;
    m->env->x0 = x0;
    m->env->y0 = y0;
    m->env->x1 = x1;
    m->env->y1 = y1;
    return done(m, length);
}

static int clip_window(struct machine *m)
{
    if (is_cut(m, 5))
        return CUT;
    return set_window(m, 5, signed_word_at(m, 1), signed_word_at(m, 2), signed_word_at(m, 3), signed_word_at(m, 4));
}

static int clip_window_v(struct machine *m)
{
    int32_t v[4];
    int refusal = read_variables(m, 4, v);

    return refusal != DONE ? refusal : set_window(m, 2, v[0], v[1], v[2], v[3]);
}

static int set_colour(struct machine *m, uint32_t length, uint32_t colour)
{
    m->env->colour = (uint8_t)(colour % 256);
    return done(m, length);
}

static int foreground(struct machine *m)
{
    return is_cut(m, 3) ? CUT : set_colour(m, 3, long_at(m, 1));
}

static int foreground_v(struct machine *m)
{
    int32_t colour;
    int refusal = read_variables(m, 1, &colour);

    return refusal != DONE ? refusal : set_colour(m, 2, (uint32_t)colour);
}

/* ---- Opcodes of the base: position ---- */

/* "Positions stay logical": no origin is added, and none is looked at. */
static int set_position(struct machine *m, uint32_t length, int32_t x, int32_t y)
{
    if (!fits_word(x) || !fits_word(y))
        return OUT_OF_RANGE;
    m->env->x = x;
    m->env->y = y;
    return done(m, length);
}

static int move_to(struct machine *m)
{
    return is_cut(m, 3) ? CUT : set_position(m, 3, signed_word_at(m, 1), signed_word_at(m, 2));
}

static int move_to_v(struct machine *m)
{
    int32_t v[2];
    int refusal = read_variables(m, 2, v);

    return refusal != DONE ? refusal : set_position(m, 2, v[0], v[1]);
}

/* "Offsets within a signed word." */
static int move_by(struct machine *m, uint32_t length, int32_t dx, int32_t dy)
{
    if (!fits_word(dx) || !fits_word(dy))
        return OUT_OF_RANGE;
    return set_position(m, length, m->env->x + dx, m->env->y + dy);
}

static int move_to_relative(struct machine *m)
{
    return is_cut(m, 3) ? CUT : move_by(m, 3, signed_word_at(m, 1), signed_word_at(m, 2));
}

static int move_to_relative_v(struct machine *m)
{
    int32_t v[2];
    int refusal = read_variables(m, 2, v);

    return refusal != DONE ? refusal : move_by(m, 2, v[0], v[1]);
}

/* ---- Opcodes of the base: dots, lines, clearing ---- */

static int draw_dot(struct machine *m, uint32_t length, int32_t x, int32_t y, uint32_t colour)
{
    if (!fits_word(x) || !fits_word(y))
        return OUT_OF_RANGE;
    paint(m, x, y, (uint8_t)(colour % 256));
    return done(m, length);
}

static int pixel(struct machine *m)
{
    return is_cut(m, 3) ? CUT : draw_dot(m, 3, signed_word_at(m, 1), signed_word_at(m, 2), m->env->colour);
}

static int pixel_v(struct machine *m)
{
    int32_t v[2];
    int refusal = read_variables(m, 2, v);

    return refusal != DONE ? refusal : draw_dot(m, 2, v[0], v[1], m->env->colour);
}

static int pixel_colour(struct machine *m)
{
    return is_cut(m, 5) ? CUT : draw_dot(m, 5, signed_word_at(m, 1), signed_word_at(m, 2), long_at(m, 3));
}

static int pixel_colour_v(struct machine *m)
{
    int32_t v[3];
    int refusal = read_variables(m, 3, v);

    return refusal != DONE ? refusal : draw_dot(m, 2, v[0], v[1], (uint32_t)v[2]);
}

/* "For lines, type 1 is no longer 24." */
static int is_line_type(int32_t type)
{
    return type == SOLID || type == DASHED;
}

/* "LINE leaves the position." */
static int draw_line(struct machine *m, uint32_t length, int32_t type, int32_t x0, int32_t y0, int32_t x1, int32_t y1)
{
    if (!is_line_type(type))
        return NOT_ALLOWED;
    if (!fits_word(x0) || !fits_word(y0) || !fits_word(x1) || !fits_word(y1))
        return OUT_OF_RANGE;
    paint_line(m, type, x0, y0, x1, y1);
    return done(m, length);
}

/* "The others move it to the end point." */
static int draw_line_to(struct machine *m, uint32_t length, int32_t type, int32_t x, int32_t y)
{
    int refusal = draw_line(m, length, type, m->env->x, m->env->y, x, y);

    if (refusal != DONE)
        return refusal;
    m->env->x = x;
    m->env->y = y;
    return DONE;
}

static int draw_line_by(struct machine *m, uint32_t length, int32_t type, int32_t dx, int32_t dy)
{
    if (!is_line_type(type))
        return NOT_ALLOWED;
    if (!fits_word(dx) || !fits_word(dy))
        return OUT_OF_RANGE;
    return draw_line_to(m, length, type, m->env->x + dx, m->env->y + dy);
}

static int line(struct machine *m)
{
    if (is_cut(m, 6))
        return CUT;
    return draw_line(m, 6, signed_word_at(m, 1), signed_word_at(m, 2), signed_word_at(m, 3), signed_word_at(m, 4),
                     signed_word_at(m, 5));
}

static int line_v(struct machine *m)
{
    int32_t v[5];
    int refusal = read_variables(m, 5, v);

    return refusal != DONE ? refusal : draw_line(m, 2, v[0], v[1], v[2], v[3], v[4]);
}

static int line_to(struct machine *m)
{
    if (is_cut(m, 4))
        return CUT;
    return draw_line_to(m, 4, signed_word_at(m, 1), signed_word_at(m, 2), signed_word_at(m, 3));
}

static int line_to_v(struct machine *m)
{
    int32_t v[3];
    int refusal = read_variables(m, 3, v);

    return refusal != DONE ? refusal : draw_line_to(m, 2, v[0], v[1], v[2]);
}

static int line_to_relative(struct machine *m)
{
    if (is_cut(m, 4))
        return CUT;
    return draw_line_by(m, 4, signed_word_at(m, 1), signed_word_at(m, 2), signed_word_at(m, 3));
}

static int line_to_relative_v(struct machine *m)
{
    int32_t v[3];
    int refusal = read_variables(m, 3, v);

    return refusal != DONE ? refusal : draw_line_by(m, 2, v[0], v[1], v[2]);
}

/* "Every drawable pixel gets the low 8 bits; the wait word is ignored." */
static int clear(struct machine *m, uint32_t length, uint32_t colour)
{
    for (uint32_t y = 0; y < m->env->height; y++)
        for (uint32_t x = 0; x < m->env->width; x++)
            paint_pixel(m, (int32_t)x, (int32_t)y, (uint8_t)(colour % 256));
    return done(m, length);
}

static int clear_window(struct machine *m)
{
    return is_cut(m, 4) ? CUT : clear(m, 4, long_at(m, 1));
}

static int clear_window_v(struct machine *m)
{
    int32_t v[2];
    int refusal = read_variables(m, 2, v);

    return refusal != DONE ? refusal : clear(m, 2, (uint32_t)v[0]);
}

/* ---- Opcodes of 02's T-01: circles ---- */

/* "Only type 0, outline too; others are 24." "A radius outside 0 to 32,767 is 25, and comes with the coordinates in the order
   of checks." "No circle moves the position." */
static int draw_circle(struct machine *m, uint32_t length, shape *belongs, int32_t type, struct circle circle)
{
    if (type != 0)
        return NOT_ALLOWED;
    if (!fits_word(circle.x) || !fits_word(circle.y) || !is_between(circle.radius, 0, 32767))
        return OUT_OF_RANGE;
    paint_circle(m, &circle, belongs);
    return done(m, length);
}

static int circle(struct machine *m, shape *belongs)
{
    if (is_cut(m, 5))
        return CUT;
    return draw_circle(m, 5, belongs, signed_word_at(m, 1),
                       (struct circle){ signed_word_at(m, 2), signed_word_at(m, 3), signed_word_at(m, 4) });
}

static int circle_v(struct machine *m, shape *belongs)
{
    int32_t v[4];
    int refusal = read_variables(m, 4, v);

    return refusal != DONE ? refusal : draw_circle(m, 2, belongs, v[0], (struct circle){ v[1], v[2], v[3] });
}

/* ---- Opcodes of 02's T-03: the line pattern ---- */

static int set_pattern(struct machine *m, uint32_t length, uint32_t pattern)
{
    m->env->pattern = pattern;
    return done(m, length);
}

static int line_pattern(struct machine *m)
{
    return is_cut(m, 3) ? CUT : set_pattern(m, 3, long_at(m, 1));
}

static int line_pattern_v(struct machine *m)
{
    int32_t pattern;
    int refusal = read_variables(m, 1, &pattern);

    return refusal != DONE ? refusal : set_pattern(m, 2, (uint32_t)pattern);
}

/* ---- Opcodes of 02's T-06: the logical origin ---- */

/* It is set and not added to the one before. "25 beyond a signed word." */
static int set_origin(struct machine *m, uint32_t length, int32_t x, int32_t y)
{
    if (!fits_word(x) || !fits_word(y))
        return OUT_OF_RANGE;
    m->env->origin_x = x;
    m->env->origin_y = y;
    return done(m, length);
}

static int origin(struct machine *m)
{
    return is_cut(m, 3) ? CUT : set_origin(m, 3, signed_word_at(m, 1), signed_word_at(m, 2));
}

static int origin_v(struct machine *m)
{
    int32_t v[2];
    int refusal = read_variables(m, 2, v);

    return refusal != DONE ? refusal : set_origin(m, 2, v[0], v[1]);
}

/* ---- Opcodes of 02's T-09: repeat blocks ---- */

/* "A count outside the range is 24"; "a ninth is 28". The word is read as signed, as LDIV's is. */
static int open_repeat(struct machine *m)
{
    struct afgis_env *env = m->env;

    if (is_cut(m, 2))
        return CUT;
    if (!is_between(signed_word_at(m, 1), 1, MOST_PASSES))
        return NOT_ALLOWED;
    if (env->nesting == REPEATS)
        return STACK_FULL;
    env->repeats[env->nesting] = (struct afgis_repeat){ env->counter + 2, word_at(m, 1) };
    env->nesting++;
    return done(m, 2);
}

/* "ERPT takes off one pass and goes back to the opcode behind its RPT if any is left, else closes the block"; "ERPT with none
   open is 29". */
static int end_pass(struct machine *m)
{
    struct afgis_env *env = m->env;
    struct afgis_repeat *innermost;

    if (env->nesting == 0)
        return STACK_EMPTY;
    innermost = &env->repeats[env->nesting - 1];
    innermost->left--;
    if (innermost->left > 0) {
        env->counter = innermost->start;
        return DONE;
    }
    env->nesting--;
    return done(m, 1);
}

/* ---- Opcodes of the base: "one decision over the opcode word" ---- */

static int carry_out(struct machine *m)
{
    if (m->env->counter >= m->words)
        return PAST_END;
    switch (word_at(m, 0)) {
    case 0x0000: return done(m, 1);                  /* NOOP */
    case 0x0001: return end_list(m);                 /* EODL */
    case 0x0002: return long_form(m, ADD);           /* ADIV long Vd */
    case 0x0003: return variable_form(m, ADD);       /* ADVV Vs Vd */
    case 0x0006: return long_form(m, AND);           /* ANDIV long Vd */
    case 0x0007: return variable_form(m, AND);       /* ANDVV Vs Vd */
    case 0x000E: return call_absolute(m);            /* CAL long */
    case 0x000F: return call_absolute_v(m);          /* CALV V */
    case 0x0012: return circle(m, is_on_outline);    /* CIR type x y radius */
    case 0x0013: return circle_v(m, is_on_outline);  /* CIRV Vi */
    case 0x0014: return circle(m, is_in_circle);     /* CIRS type x y radius */
    case 0x0015: return circle_v(m, is_in_circle);   /* CIRSV Vi */
    case 0x0016: return clip_mode(m);                /* CLIPMODE mode */
    case 0x0017: return clip_mode_v(m);              /* CLIPMODEV V */
    case 0x0018: return clip_window(m);              /* CLIPWIN x0 y0 x1 y1 */
    case 0x0019: return clip_window_v(m);            /* CLIPWINV Vi */
    case 0x001F: return foreground(m);               /* COLORF long */
    case 0x0020: return foreground_v(m);             /* COLORFV V */
    case 0x0033: return long_form(m, COMPARE);       /* CPIV long Vd */
    case 0x0034: return variable_form(m, COMPARE);   /* CPVV Vs Vd */
    case 0x0042: return count_by(m, -1);             /* DCRV V */
    case 0x0045: return variable_form(m, DIVIDE);    /* DIVV Vs Vd */
    case 0x004F: return end_pass(m);                 /* ERPT */
    case 0x005D: return count_by(m, 1);              /* INCV V */
    case 0x0065: return load_word(m);                /* LDIV word Vd */
    case 0x0066: return long_form(m, LOAD);          /* LDIVL long Vd */
    case 0x0071: return variable_form(m, LOAD);      /* LDVV Vs Vd */
    case 0x0074: return line(m);                     /* LINE type x0 y0 x1 y1 */
    case 0x0075: return line_v(m);                   /* LINEV Vi */
    case 0x0078: return line_pattern(m);             /* LINEPATN long */
    case 0x0079: return line_pattern_v(m);           /* LINEPATNV V */
    case 0x007C: return line_to(m);                  /* LINETO type x y */
    case 0x007D: return line_to_v(m);                /* LINETOV Vi */
    case 0x007E: return line_to_relative(m);         /* LINETOR type dx dy */
    case 0x007F: return line_to_relative_v(m);       /* LINETORV Vi */
    case 0x0080: return variable_form(m, MULTIPLY);  /* MLTV Vs Vd */
    case 0x0081: return variable_form(m, REMAINDER); /* MODV Vs Vd */
    case 0x0082: return move_to(m);                  /* MOVETO x y */
    case 0x0083: return move_to_v(m);                /* MOVETOV Vi */
    case 0x0084: return move_to_relative(m);         /* MOVETOR dx dy */
    case 0x0085: return move_to_relative_v(m);       /* MOVETORV Vi */
    case 0x0090: return long_form(m, OR);            /* ORIV long Vd */
    case 0x0091: return variable_form(m, OR);        /* ORVV Vs Vd */
    case 0x009E: return pixel(m);                    /* PIXEL x y */
    case 0x009F: return pixel_v(m);                  /* PIXELV Vi */
    case 0x00B7: return open_repeat(m);              /* RPT count */
    case 0x00B9: return return_from_call(m);         /* RTRN */
    case 0x0100: return origin(m);                   /* XYORG x y */
    case 0x0101: return origin_v(m);                 /* XYORGV Vi */
    case 0x010A: return jump_absolute(m);            /* JUMPA condition long */
    case 0x010C: return jump_relative(m);            /* JUMPR condition word */
    case 0x010E: return call_relative(m);            /* CALR word */
    case 0x010F: return call_relative_v(m);          /* CALRV V */
    case 0x0150: return pixel_colour(m);             /* PIXELC x y long */
    case 0x0151: return pixel_colour_v(m);           /* PIXELCV Vi */
    case 0x0188: return clear_window(m);             /* CLRWIN long word */
    case 0x0189: return clear_window_v(m);           /* CLRWINV Vi */
    default: return NO_OPCODE;
    }
}

/* ---- The order of the numbers ---- */

/* "First come 10 to 14, lowest first"; 0 when none of them holds. */
static int door(const struct afgis_env *env, size_t words, size_t bytes, uint32_t budget)
{
    if (!size_is_good(env->width, env->height))
        return BAD_SIZE;
    if (bytes != (size_t)env->width * env->height)
        return BAD_SCREEN;
    if (!fields_are_good(env))
        return BAD_FIELD;
    if (words > MOST_WORDS)
        return LONG_LIST;
    if (budget > MOST_STEPS)
        return LARGE_BUDGET;
    return 0;
}

/* "A stopped or ended environment answers its number again." */
static int number_of_state(uint8_t state)
{
    return state == STATE_ENDED ? ENDED : state;
}

/* "The word index at fault": for 23 the operand's, "for the others the index where the opcode begins or, for 20, was due". */
static void stop(struct machine *m, int refusal)
{
    m->env->state = (uint8_t)refusal;
    m->env->place = m->env->counter + (refusal == NO_VARIABLE ? m->misnamed : 0);
}

/* The opcode that is due, as the step of this number. */
static int carry_out_next(struct machine *m, uint32_t step)
{
    m->step = step;
    if (m->record != NULL)
        m->record->opcodes[step] = m->env->counter;
    return carry_out(m);
}

/* "Then, before each opcode, the budget." */
static struct afgis_answer run_from_here(struct machine *m, uint32_t budget)
{
    struct afgis_answer answer = { 0, 0, 0 };

    while (m->env->state == STATE_RUNNING) {
        if (answer.steps == budget) {
            answer.number = BUDGET_USED;
            return answer;
        }
        int refusal = carry_out_next(m, answer.steps + 1);
        if (refusal == DONE)
            answer.steps++;
        else
            stop(m, refusal);
    }
    answer.number = number_of_state(m->env->state);
    answer.place = m->env->place;
    return answer;
}

struct afgis_answer run_recorded(const uint16_t *list, size_t words, uint8_t *screen, size_t bytes,
                                 struct afgis_env *env, uint32_t budget, struct record *record)
{
    struct machine m = { list, words, screen, env, record, 0, 0 };
    struct afgis_answer refused = { door(env, words, bytes, budget), 0, 0 };

    return refused.number != 0 ? refused : run_from_here(&m, budget);
}

struct afgis_answer afgis_run(const uint16_t *list, size_t words, uint8_t *screen, size_t bytes,
                              struct afgis_env *env, uint32_t budget)
{
    return run_recorded(list, words, screen, bytes, env, budget, NULL);
}

/* ---- Lit dots, of 02's T-04 ---- */

/* "A walk of every dot under T-03's rule". "A greater length is 25, count 0." */
struct afgis_lit_dots afgis_lit(uint32_t length, uint32_t pattern)
{
    struct afgis_lit_dots answer = { 0, 0 };

    if (length > MOST_DOTS) {
        answer.number = OUT_OF_RANGE;
        return answer;
    }
    for (uint32_t dot = 0; dot < length; dot++)
        if (is_in_pattern(pattern, dot))
            answer.count++;
    return answer;
}
