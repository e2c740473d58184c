#include "repeats.h"
#include "count.h"

enum { RPT = 0x00B7, ERPT = 0x004F };

/* ---- the environment's ---- */

static void count_fields(const struct afgis_repeat *repeat)
{
    if (repeat->start == 0 || repeat->start == MOST_WORDS)
        count_kind(REPEAT_FIELDS, repeat->start == 0 ? FIELD_START_0 : FIELD_START_65536);
    if (repeat->left == 1 || repeat->left == MOST_PASSES)
        count_kind(REPEAT_FIELDS, repeat->left == 1 ? FIELD_LEFT_1 : FIELD_LEFT_1000);
}

static int is_out_of_range(const struct afgis_repeat *repeat)
{
    return repeat->start > MOST_WORDS || repeat->left == 0 || repeat->left > MOST_PASSES;
}

/* More than eight are no kind; that they were let in will be a difference. */
void count_open_repeats(const struct afgis_env *env)
{
    if (env->nesting > REPEATS)
        return;
    count_kind(OPEN_REPEATS, (int)env->nesting);
    for (uint32_t i = 0; i < env->nesting; i++)
        count_fields(&env->repeats[i]);
    if (env->nesting < REPEATS && is_out_of_range(&env->repeats[env->nesting]))
        count_kind(REPEAT_FIELDS, FIELD_PAST_NESTING);
}

/* ---- RPT ---- */

static int count_of(uint16_t count)
{
    return count == 1 ? COUNT_1 : count == MOST_PASSES ? COUNT_1000 : COUNT_INSIDE;
}

int refused_count(uint16_t count)
{
    switch (count) {
    case 0: return REFUSED_COUNT_0;
    case 1001: return REFUSED_COUNT_1001;
    case 0x7FFF: return REFUSED_COUNT_7FFF;
    case 0x8000: return REFUSED_COUNT_8000;
    case 0xFFFF: return REFUSED_COUNT_FFFF;
    default: return REFUSED_COUNT_OTHER;
    }
}

/* One that is open already begins where this one does. */
static int is_open(const struct afgis_env *env, uint32_t start)
{
    for (uint32_t i = 0; i < env->nesting; i++)
        if (env->repeats[i].start == start)
            return 1;
    return 0;
}

static void count_opened(uint16_t count, const struct afgis_env *before, const struct afgis_env *after)
{
    count_kind(REPEATS_OPENED, (int)after->nesting - 1);
    count_kind(COUNTS, count_of(count));
    if (is_open(before, after->counter))
        count_kind(WITH_REPEATS, INSIDE_SAME_REPEAT);
}

static void count_not_opened(const uint16_t *opcode, int number)
{
    if (number == 24)
        count_kind(REFUSED_REPEATS, refused_count(opcode[1]));
    else
        count_kind(REFUSED_REPEATS, number == 22 ? REFUSED_REPEAT_CUT : REFUSED_REPEAT_NINTH);
}

/* ---- ERPT ---- */

static void count_back(const struct afgis_repeat *repeat, uint32_t counter)
{
    if (repeat->left == MOST_PASSES || repeat->left == 2)
        count_kind(PASSES, repeat->left == 2 ? PASS_OF_2 : PASS_OF_1000);
    if (repeat->start == counter)
        count_kind(PASSES, PASS_TO_ITSELF);
    if (repeat->start == MOST_WORDS)
        count_kind(PASSES, PASS_BEHIND_LIST);
}

static void count_pass(const struct afgis_env *before, const struct afgis_env *after)
{
    int innermost = (int)before->nesting - 1;

    count_kind(after->nesting == before->nesting ? WENT_BACK : CLOSED, innermost);
    if (after->nesting == before->nesting)
        count_back(&before->repeats[innermost], before->counter);
    if (before->depth > 0)
        count_kind(PASSES, PASS_INSIDE_CALL);
}

/* ---- with a repeat open ---- */

static void count_inside(uint16_t opcode, const struct afgis_env *before, const struct afgis_env *after)
{
    uint32_t start = before->repeats[before->nesting - 1].start;

    switch (opcode) {
    case 0x010A: case 0x010C:
        count_kind(WITH_REPEATS, after->counter < start ? INSIDE_JUMP_BEFORE : INSIDE_JUMP);
        break;
    case 0x000E: case 0x000F: case 0x010E: case 0x010F:
        count_kind(WITH_REPEATS, INSIDE_CALL);
        break;
    case 0x00B9:
        count_kind(WITH_REPEATS, INSIDE_RETURN);
        break;
    case 0x0001:
        count_kind(WITH_REPEATS, INSIDE_END);
        break;
    }
}

void count_repeat(const uint16_t *opcode, const struct afgis_env *before, const struct afgis_env *after, struct afgis_answer answer)
{
    if (answer.steps == 0) {
        if (opcode[0] == RPT)
            count_not_opened(opcode, answer.number);
        else if (opcode[0] == ERPT)
            count_kind(PASSES, PASS_NONE_OPEN);
    } else if (opcode[0] == RPT) {
        count_opened(opcode[1], before, after);
    } else if (opcode[0] == ERPT) {
        count_pass(before, after);
    } else if (before->nesting > 0) {
        count_inside(opcode[0], before, after);
    }
}

void count_sliced_repeat(const struct call *call)
{
    const struct ovenlute_env *env = &call->env;
    uint32_t counter = env->registers.counter;

    if (env->nesting == 0 || env->nesting > REPEATS)
        return;
    count_kind(SLICED_REPEATS, SLICE_INSIDE);
    if (counter == env->repeats[env->nesting - 1].start)
        count_kind(SLICED_REPEATS, SLICE_AT_START);
    if (counter < call->words && call->list[counter] == ERPT)
        count_kind(SLICED_REPEATS, SLICE_BEFORE_ERPT);
}
