#include "libc.h"
#include "shrink.h"
#include "asked.h"

enum { MOST_TRIES = 20000, PARTS_KEPT = 100, WORDS_SHOWN = 64, BYTES_SHOWN = 8 };

/* The smaller call that is tried. */
static struct call trial;
static int tries;

static int differs(const struct call *call)
{
    struct verdict verdict;

    judge(call, &verdict);
    return verdict.difference != NULL;
}

/* The difference isn't only that both numbers are other than expected. */
static int strictly_differs(struct call *call)
{
    int expected = call->expected, expected_check = call->expected_check;

    call->expected = call->expected_check = NO_EXPECTATION;
    if (differs(call))
        return 1;
    call->expected = expected;
    call->expected_check = expected_check;
    return 0;
}

/* Takes the trial over if it still shows a difference. */
static int take_over(struct call *call)
{
    if (tries >= MOST_TRIES)
        return 0;
    tries++;
    if (!differs(&trial))
        return 0;
    copy_call(call, &trial);
    return 1;
}

/* ---- budget and start ---- */

static int try_budget(struct call *call, uint32_t budget)
{
    copy_call(&trial, call);
    trial.budget = budget;
    return budget < call->budget && take_over(call);
}

/* Lower by half of it first, then by ever less. */
static int shrink_budget(struct call *call)
{
    int changed = 0;

    changed |= try_budget(call, 0);
    for (uint32_t by = call->budget / 2 + 1; by > 0; by /= 2)
        while (call->budget > by && try_budget(call, call->budget - by))
            changed = 1;
    return changed;
}

/* Starts where the reference stands before its last step. */
static int shrink_start(struct call *call)
{
    struct verdict verdict;

    if (call->budget < 2)
        return 0;
    copy_call(&trial, call);
    trial.budget = call->budget - 1;
    judge(&trial, &verdict);
    trial.env = verdict.reference.env;
    trial.budget = 1;
    return take_over(call);
}

/* ---- list ---- */

static int try_without(struct call *call, size_t from, size_t count)
{
    uint32_t *counter = &trial.env.registers.counter;

    copy_call(&trial, call);
    memmove(trial.list + from, trial.list + from + count, (trial.words - from - count) * sizeof trial.list[0]);
    trial.words -= count;
    if (*counter >= from + count && *counter <= call->words)
        *counter -= (uint32_t)count;
    return take_over(call);
}

/* Takes parts of this many words out; gives up after so many parts that can't be missed. */
static int shrink_list_by(struct call *call, size_t count)
{
    int changed = 0;
    int kept = 0;

    for (size_t from = 0; from + count <= call->words && kept < PARTS_KEPT;)
        if (try_without(call, from, count)) {
            changed = 1;
        } else {
            kept++;
            from += count;
        }
    return changed;
}

/* Halves first, then ever smaller parts. */
static int shrink_list(struct call *call)
{
    int changed = 0;

    for (size_t count = call->words; count > 0; count /= 2)
        changed |= shrink_list_by(call, count);
    return changed;
}

/* All words zero, for lists of which only the length counts. */
static void clear_list(struct call *call)
{
    copy_call(&trial, call);
    memset(trial.list, 0, trial.words * sizeof trial.list[0]);
    take_over(call);
}

static int try_word(struct call *call, size_t place, uint16_t word)
{
    copy_call(&trial, call);
    trial.list[place] = word;
    return call->list[place] > word && take_over(call);
}

static int shrink_words(struct call *call)
{
    int changed = 0;

    for (size_t i = 0; i < call->words && i < WORDS_SHOWN; i++)
        changed |= try_word(call, i, 0) || try_word(call, i, 1) || try_word(call, i, call->list[i] / 2);
    return changed;
}

/* ---- screen and environment ---- */

/* Keeps by how much the screen's bytes were wrong. */
static int try_size(struct call *call, uint32_t width, uint32_t height)
{
    struct ovenlute_bounds *bounds = &trial.env.bounds;
    int64_t surplus = (int64_t)call->bytes - (int64_t)call->env.bounds.width * call->env.bounds.height;
    int64_t bytes = (int64_t)width * height + surplus;

    if (bytes < 0 || bytes > (int64_t)call->bytes || width == 0 || height == 0)
        return 0;
    copy_call(&trial, call);
    bounds->width = width;
    bounds->height = height;
    if (bounds->pane.right >= width)
        bounds->pane.right = width - 1;
    if (bounds->pane.bottom >= height)
        bounds->pane.bottom = height - 1;
    trial.bytes = (size_t)bytes;
    return take_over(call);
}

static int shrink_size(struct call *call)
{
    const struct ovenlute_bounds *bounds = &call->env.bounds;
    int changed = 0;

    while (bounds->width > 16 && try_size(call, bounds->width / 2, bounds->height))
        changed = 1;
    while (bounds->height > 16 && try_size(call, bounds->width, bounds->height / 2))
        changed = 1;
    while (bounds->width > 1 && bounds->width <= 16 && try_size(call, bounds->width - 1, bounds->height))
        changed = 1;
    while (bounds->height > 1 && bounds->height <= 16 && try_size(call, bounds->width, bounds->height - 1))
        changed = 1;
    return changed;
}

static void plain_env(const struct call *call, struct ovenlute_env *env)
{
    const struct ovenlute_bounds *bounds = &call->env.bounds;
    struct ovenlute_pane whole = { 0, 0, bounds->width - 1, bounds->height - 1 };

    fresh_env(env, bounds->width, bounds->height, whole);
}

static int try_variable(struct call *call, int variable, int32_t value)
{
    copy_call(&trial, call);
    trial.env.variables[variable] = value;
    return call->env.variables[variable] != value && take_over(call);
}

static int shrink_variables(struct call *call)
{
    int changed = 0;

    for (int i = 0; i < VARIABLES; i++)
        if (call->env.variables[i] != 0)
            changed |= try_variable(call, i, 0) || try_variable(call, i, call->env.variables[i] / 2);
    return changed;
}

static int shrink_stack(struct call *call)
{
    int changed = 0;

    for (uint32_t i = 0; i < stacked(&call->env); i++) {
        if (call->env.stack[i] == 0)
            continue;
        copy_call(&trial, call);
        trial.env.stack[i] = 0;
        changed |= take_over(call);
    }
    return changed;
}

static int try_repeat(struct call *call, uint32_t number, uint32_t start, uint32_t left)
{
    const struct ovenlute_repeat *repeat = &call->env.repeats[number];

    copy_call(&trial, call);
    trial.env.repeats[number] = (struct ovenlute_repeat){ start, left };
    return (repeat->start != start || repeat->left != left) && take_over(call);
}

/* Each begins at word 0, has one pass left, or half as many. */
static int shrink_repeats(struct call *call)
{
    int changed = 0;

    for (uint32_t i = 0; i < repeated(&call->env); i++) {
        const struct ovenlute_repeat *repeat = &call->env.repeats[i];
        changed |= try_repeat(call, i, 0, repeat->left);
        changed |= try_repeat(call, i, repeat->start, 1) || try_repeat(call, i, repeat->start, repeat->left / 2);
    }
    return changed;
}

static int try_field(struct call *call, enum field field, int64_t value)
{
    copy_call(&trial, call);
    set_field(&trial.env, field, value);
    return get_field(&call->env, field) != value && take_over(call);
}

/* Each field as in a fresh environment, or else nearer to it by half. */
static int shrink_env(struct call *call)
{
    struct ovenlute_env plain;
    int changed = 0;

    plain_env(call, &plain);
    for (enum field field = LEFT; field < FIELDS; field++) {
        int64_t value = get_field(&call->env, field);
        int64_t aim = get_field(&plain, field);
        changed |= try_field(call, field, aim) || try_field(call, field, aim + (value - aim) / 2);
    }
    changed |= shrink_variables(call);
    changed |= shrink_stack(call);
    changed |= shrink_repeats(call);
    return changed;
}

static void clear_screen(struct call *call)
{
    copy_call(&trial, call);
    memset(trial.screen, 0, trial.bytes);
    take_over(call);
}

void shrink(struct call *call)
{
    int changed;

    if (!strictly_differs(call))
        return;
    tries = 0;
    clear_list(call);
    do {
        changed = shrink_size(call);
        changed |= shrink_budget(call);
        changed |= shrink_start(call);
        changed |= shrink_list(call);
        changed |= shrink_words(call);
        changed |= shrink_env(call);
    } while (changed && tries < MOST_TRIES);
    clear_screen(call);
}

/* ---- printing ---- */

static void print_list(const struct call *call)
{
    printf("  list, %llu words:", (unsigned long long)call->words);
    for (size_t i = 0; i < call->words && i < WORDS_SHOWN; i++)
        printf(" %04X", call->list[i]);
    printf("%s\n", call->words > WORDS_SHOWN ? " ..." : "");
}

/* The open repeats that another environment doesn't have there. */
static void print_repeats(const struct ovenlute_env *env, const struct ovenlute_env *other)
{
    for (uint32_t i = 0; i < repeated(env); i++) {
        const struct ovenlute_repeat *repeat = &env->repeats[i];
        if (i >= repeated(other) || memcmp(repeat, &other->repeats[i], sizeof *repeat) != 0)
            printf(" repeat[%u] from %u, %u left", (unsigned)i, (unsigned)repeat->start, (unsigned)repeat->left);
    }
}

/* The fields of an environment in which it isn't as another. */
static void print_fields(const struct ovenlute_env *env, const struct ovenlute_env *other)
{
    for (enum field field = 0; field < FIELDS; field++)
        if (get_field(env, field) != get_field(other, field))
            printf(" %s %lld", field_name(field), (long long)get_field(env, field));
    for (int i = 0; i < VARIABLES; i++)
        if (env->variables[i] != other->variables[i])
            printf(" V%d %d", i, (int)env->variables[i]);
    for (uint32_t i = 0; i < stacked(env); i++)
        if (env->stack[i] != (i < stacked(other) ? other->stack[i] : 0))
            printf(" stack[%u] %u", (unsigned)i, (unsigned)env->stack[i]);
    print_repeats(env, other);
    printf("\n");
}

static void print_outcome(const char *name, const struct call *call, const struct outcome *outcome)
{
    printf("  %s: number %d, place %u, steps %u, changed:", name, outcome->number, (unsigned)outcome->place,
           (unsigned)outcome->steps);
    print_fields(&outcome->env, &call->env);
}

static void print_checked(const struct call *call, struct ovenlute_checked box)
{
    struct afgis_checked reference = afgis_check(call->list, call->words);

    printf("  checked: box %d, place %u, steps %u; reference %d, place %u, steps %u\n", box.number, (unsigned)box.place,
           (unsigned)box.steps, reference.number, (unsigned)reference.place, (unsigned)reference.steps);
}

static void print_writers(const struct call *call, const struct ovenlute_writer *box)
{
    struct afgis_writer wanted[DOTS_ASKED];

    ask_reference_who(call, wanted);
    for (int i = 0; i < DOTS_ASKED; i++)
        printf("  who at (%d, %d): box %d, step %u, opcode %u, colour %u; reference %d, step %u, opcode %u, colour %u\n",
               (int)call->dots[i].x, (int)call->dots[i].y, box[i].number, (unsigned)box[i].step, (unsigned)box[i].opcode,
               box[i].colour, wanted[i].number, (unsigned)wanted[i].step, (unsigned)wanted[i].opcode, wanted[i].colour);
}

static void print_bytes(const struct call *call, const struct verdict *verdict)
{
    uint32_t width = call->env.bounds.width;
    int shown = 0;

    for (size_t i = 0; i < call->bytes && width > 0 && shown < BYTES_SHOWN; i++) {
        if (verdict->box.screen[i] == verdict->reference.screen[i])
            continue;
        printf("  byte (%u, %u): before %u, box %u, reference %u\n", (unsigned)(i % width), (unsigned)(i / width),
               call->screen[i], verdict->box.screen[i], verdict->reference.screen[i]);
        shown++;
    }
}

void print_call(const struct call *call)
{
    struct ovenlute_env plain;

    plain_env(call, &plain);
    print_list(call);
    printf("  screen %u x %u, %llu bytes; budget %u", (unsigned)call->env.bounds.width,
           (unsigned)call->env.bounds.height, (unsigned long long)call->bytes, (unsigned)call->budget);
    if (call->expected != NO_EXPECTATION)
        printf("; number that was to be met %d", call->expected);
    if (call->expected_check != NO_EXPECTATION)
        printf("; number that was to be told %d", call->expected_check);
    printf("\n");
    printf("  environment fresh, the pane the whole screen, but:");
    print_fields(&call->env, &plain);
}

void print_difference(const struct call *call)
{
    struct verdict verdict;

    judge(call, &verdict);
    printf("difference: %s\n", verdict.difference ? verdict.difference : "none when run again");
    print_call(call);
    print_outcome("box", call, &verdict.box);
    print_outcome("reference", call, &verdict.reference);
    print_checked(call, verdict.checked);
    print_writers(call, verdict.writers);
    print_bytes(call, &verdict);
}
