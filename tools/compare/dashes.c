#include "dashes.h"
#include "count.h"
#include "course.h"
#include "forms.h"

enum { BITS = 32 };

/* A word, or Vi's value. */
int line_type(const uint16_t *opcode, const struct afgis_env *before, int32_t *type)
{
    int form = form_of(opcode[0]);

    if (form >= 0 && forms[form].operands[0] == 't')
        *type = (int16_t)opcode[1];
    else if (form >= 0 && forms[form].implied[0] == 't')
        *type = before->variables[opcode[1]];
    else
        return 0;
    return 1;
}

/* ---- refused ---- */

static void count_wrong_type(int32_t type)
{
    if (type == 2)
        count_kind(REFUSED_LINES, REFUSED_LINE_TYPE_2);
    else if (type == -1)
        count_kind(REFUSED_LINES, REFUSED_LINE_TYPE_MINUS_1);
    else if ((uint16_t)type == DASHED)
        count_kind(REFUSED_LINES, REFUSED_LINE_LOW_WORD_1);
}

/* ---- drawn ---- */

static int opcode_kind(uint16_t opcode)
{
    return opcode < 0x007C ? opcode - 0x0074 + DASH_LINE : opcode - 0x007C + DASH_LINETO;
}

int pattern_kind(uint32_t pattern)
{
    switch (pattern) {
    case 0: return PATTERN_NONE;
    case UINT32_MAX: return PATTERN_ALL;
    case 1: return PATTERN_LOWEST;
    case 0x80000000: return PATTERN_HIGHEST;
    default: return PATTERN_OTHER;
    }
}

static void count_length(int64_t dots)
{
    static const int64_t lengths[] = { 1, 2, BITS - 1, BITS, BITS + 1, 2 * BITS, 65536 };

    for (int i = 0; i < (int)(sizeof lengths / sizeof lengths[0]); i++)
        if (dots == lengths[i])
            count_kind(DASH_LENGTHS, i);
}

/* The drawable dots by their numbers from the first point given. */
static struct seen numbers_of(struct ends ends, const struct afgis_env *env)
{
    struct course course = course_of(ends, area_of(env));
    struct seen seen = seen_of(&course);

    if (course.way == X_BACK || course.way == Y_BACK)
        seen = (struct seen){ course.n - seen.high, course.n - seen.low, course.n - seen.last, course.n - seen.first };
    return seen;
}

static int is_cut_by_window(struct ends ends, const struct afgis_env *env, struct seen seen)
{
    struct afgis_env without = *env;
    struct seen all;

    without.mode = 0;
    all = numbers_of(ends, &without);
    return seen.first != all.first || seen.last != all.last;
}

static void count_first(enum group group, int64_t number)
{
    if (number > BITS)
        count_kind(group, DASH_FROM_ABOVE_32);
    else if (number > 0)
        count_kind(group, number == BITS ? DASH_FROM_32 : DASH_FROM_1);
}

static void count_part(enum group group, struct ends ends, const struct afgis_env *env, int64_t n)
{
    struct seen seen = numbers_of(ends, env);

    if (seen.first > seen.last) {
        count_kind(group, DASH_UNSEEN);
        return;
    }
    if (seen.first == 0 && seen.last == n)
        count_kind(group, DASH_WHOLE);
    if (seen.first > 0)
        count_kind(group, DASH_CUT_AT_FIRST);
    if (seen.last < n)
        count_kind(group, DASH_CUT_AT_SECOND);
    if (is_cut_by_window(ends, env, seen))
        count_kind(group, DASH_CUT_BY_WINDOW);
    count_first(group, seen.first);
}

static void count_drawn(const uint16_t *opcode, const struct afgis_env *before, const struct afgis_env *after)
{
    struct course course;
    struct ends ends;

    ends_of(opcode, before, after, &ends);
    course = course_of(ends, area_of(before));
    count_kind(DASH_OPCODES, opcode_kind(opcode[0]));
    count_kind(DASH_PATTERNS, pattern_kind(before->pattern));
    count_length(course.n + 1);
    count_part(DASHES_X_AHEAD + course.way, ends, before, course.n);
}

void count_dash(const uint16_t *opcode, const struct afgis_env *before, const struct afgis_env *after,
                struct afgis_answer answer)
{
    int32_t type;

    if ((answer.steps == 0 && answer.number != 24 && answer.number != 25) || !line_type(opcode, before, &type))
        return;
    if (answer.number == 24)
        count_wrong_type(type);
    else if (type == DASHED && answer.number == 25)
        count_kind(REFUSED_LINES, REFUSED_DASH_POINT);
    else if (type == DASHED)
        count_drawn(opcode, before, after);
}
