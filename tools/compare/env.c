#include "env.h"
#include "libc.h"

enum width { UNSIGNED_32, SIGNED_32, UNSIGNED_8 };

static const struct {
    const char *name;
    size_t offset;
    enum width width;
} fields[FIELDS] = {
    [WIDTH] = { "width", offsetof(struct ovenlute_env, bounds.width), UNSIGNED_32 },
    [HEIGHT] = { "height", offsetof(struct ovenlute_env, bounds.height), UNSIGNED_32 },
    [LEFT] = { "left", offsetof(struct ovenlute_env, bounds.pane.left), UNSIGNED_32 },
    [TOP] = { "top", offsetof(struct ovenlute_env, bounds.pane.top), UNSIGNED_32 },
    [RIGHT] = { "right", offsetof(struct ovenlute_env, bounds.pane.right), UNSIGNED_32 },
    [BOTTOM] = { "bottom", offsetof(struct ovenlute_env, bounds.pane.bottom), UNSIGNED_32 },
    [POSITION_X] = { "x", offsetof(struct ovenlute_env, registers.position.x), SIGNED_32 },
    [POSITION_Y] = { "y", offsetof(struct ovenlute_env, registers.position.y), SIGNED_32 },
    [ORIGIN_X] = { "ox", offsetof(struct ovenlute_env, registers.origin.x), SIGNED_32 },
    [ORIGIN_Y] = { "oy", offsetof(struct ovenlute_env, registers.origin.y), SIGNED_32 },
    [WINDOW_X0] = { "x0", offsetof(struct ovenlute_env, registers.window.x0), SIGNED_32 },
    [WINDOW_Y0] = { "y0", offsetof(struct ovenlute_env, registers.window.y0), SIGNED_32 },
    [WINDOW_X1] = { "x1", offsetof(struct ovenlute_env, registers.window.x1), SIGNED_32 },
    [WINDOW_Y1] = { "y1", offsetof(struct ovenlute_env, registers.window.y1), SIGNED_32 },
    [MODE] = { "mode", offsetof(struct ovenlute_env, registers.mode), UNSIGNED_32 },
    [PATTERN] = { "pattern", offsetof(struct ovenlute_env, registers.pattern), UNSIGNED_32 },
    [FIRST] = { "first", offsetof(struct ovenlute_env, registers.first), SIGNED_32 },
    [SECOND] = { "second", offsetof(struct ovenlute_env, registers.second), SIGNED_32 },
    [COUNTER] = { "counter", offsetof(struct ovenlute_env, registers.counter), UNSIGNED_32 },
    [DEPTH] = { "depth", offsetof(struct ovenlute_env, registers.depth), UNSIGNED_32 },
    [NESTING] = { "nesting", offsetof(struct ovenlute_env, nesting), UNSIGNED_32 },
    [PLACE] = { "place", offsetof(struct ovenlute_env, registers.place), UNSIGNED_32 },
    [COLOUR] = { "colour", offsetof(struct ovenlute_env, registers.colour), UNSIGNED_8 },
    [STATE] = { "state", offsetof(struct ovenlute_env, registers.state), UNSIGNED_8 },
};

const char *field_name(enum field field)
{
    return fields[field].name;
}

int64_t get_field(const struct ovenlute_env *env, enum field field)
{
    const void *place = (const uint8_t *)env + fields[field].offset;

    switch (fields[field].width) {
    case UNSIGNED_32:
        return *(const uint32_t *)place;
    case SIGNED_32:
        return *(const int32_t *)place;
    default:
        return *(const uint8_t *)place;
    }
}

void set_field(struct ovenlute_env *env, enum field field, int64_t value)
{
    void *place = (uint8_t *)env + fields[field].offset;

    switch (fields[field].width) {
    case UNSIGNED_32:
        *(uint32_t *)place = (uint32_t)value;
        break;
    case SIGNED_32:
        *(int32_t *)place = (int32_t)value;
        break;
    default:
        *(uint8_t *)place = (uint8_t)value;
    }
}

int is_word(int64_t value)
{
    return -32768 <= value && value <= 32767;
}

uint32_t stacked(const struct ovenlute_env *env)
{
    return env->registers.depth <= RETURNS ? env->registers.depth : RETURNS;
}

uint32_t repeated(const struct ovenlute_env *env)
{
    return env->nesting <= REPEATS ? env->nesting : REPEATS;
}

int same_env(const struct ovenlute_env *a, const struct ovenlute_env *b)
{
    for (enum field field = 0; field < FIELDS; field++)
        if (get_field(a, field) != get_field(b, field))
            return 0;
    return memcmp(a->variables, b->variables, sizeof a->variables) == 0
        && memcmp(a->stack, b->stack, stacked(a) * sizeof a->stack[0]) == 0
        && memcmp(a->repeats, b->repeats, repeated(a) * sizeof a->repeats[0]) == 0;
}

void fresh_env(struct ovenlute_env *env, uint32_t width, uint32_t height, struct ovenlute_pane pane)
{
    memset(env, 0, sizeof *env);
    env->bounds.width = width;
    env->bounds.height = height;
    env->bounds.pane = pane;
    env->registers.window.x1 = (int32_t)width - 1;
    env->registers.window.y1 = (int32_t)height - 1;
    env->registers.colour = 15;
    env->registers.pattern = UINT32_MAX;
}

int is_fresh(const struct ovenlute_env *env)
{
    struct ovenlute_env fresh;

    fresh_env(&fresh, env->bounds.width, env->bounds.height, env->bounds.pane);
    return same_env(env, &fresh);
}

void to_reference(const struct ovenlute_env *from, struct afgis_env *to)
{
    const struct ovenlute_registers *registers = &from->registers;

    to->width = from->bounds.width;
    to->height = from->bounds.height;
    to->left = from->bounds.pane.left;
    to->top = from->bounds.pane.top;
    to->right = from->bounds.pane.right;
    to->bottom = from->bounds.pane.bottom;
    to->x = registers->position.x;
    to->y = registers->position.y;
    to->origin_x = registers->origin.x;
    to->origin_y = registers->origin.y;
    to->colour = registers->colour;
    to->mode = registers->mode;
    to->pattern = registers->pattern;
    to->x0 = registers->window.x0;
    to->y0 = registers->window.y0;
    to->x1 = registers->window.x1;
    to->y1 = registers->window.y1;
    to->first = registers->first;
    to->second = registers->second;
    to->counter = registers->counter;
    to->depth = registers->depth;
    to->nesting = from->nesting;
    to->state = registers->state;
    to->place = registers->place;
    memcpy(to->variables, from->variables, sizeof to->variables);
    memcpy(to->stack, from->stack, sizeof to->stack);
    for (int i = 0; i < REPEATS; i++)
        to->repeats[i] = (struct afgis_repeat){ from->repeats[i].start, from->repeats[i].left };
}

void from_reference(const struct afgis_env *from, struct ovenlute_env *to)
{
    struct ovenlute_registers *registers = &to->registers;

    to->bounds.width = from->width;
    to->bounds.height = from->height;
    to->bounds.pane.left = from->left;
    to->bounds.pane.top = from->top;
    to->bounds.pane.right = from->right;
    to->bounds.pane.bottom = from->bottom;
    registers->position.x = from->x;
    registers->position.y = from->y;
    registers->origin.x = from->origin_x;
    registers->origin.y = from->origin_y;
    registers->colour = from->colour;
    registers->mode = from->mode;
    registers->pattern = from->pattern;
    registers->window.x0 = from->x0;
    registers->window.y0 = from->y0;
    registers->window.x1 = from->x1;
    registers->window.y1 = from->y1;
    registers->first = from->first;
    registers->second = from->second;
    registers->counter = from->counter;
    registers->depth = from->depth;
    to->nesting = from->nesting;
    registers->state = from->state;
    registers->place = from->place;
    memcpy(to->variables, from->variables, sizeof to->variables);
    memcpy(to->stack, from->stack, sizeof to->stack);
    for (int i = 0; i < REPEATS; i++)
        to->repeats[i] = (struct ovenlute_repeat){ from->repeats[i].start, from->repeats[i].left };
}
