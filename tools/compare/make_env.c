#include "libc.h"
#include "make.h"
#include "random.h"

static const int32_t edges[] = {
    0, 1, -1, 2, 3, 16, 63, 64, 65, 255, 256, 32767, 32768, -32768, -32769, 65535, 65536, 65537,
    INT32_MAX, INT32_MIN, INT32_MIN + 1,
};

int32_t edge_value(void)
{
    return edges[below(sizeof edges / sizeof edges[0])];
}

int32_t make_coordinate(uint32_t side, int is_far)
{
    if (is_far && one_in(4))
        return one_in(2) ? between(-32768, 32767) : (one_in(2) ? 32767 - between(0, 1) : -32768 + between(0, 1));
    if (one_in(16))
        return one_in(2) ? between(62, 65) : between(-256, 256);
    return between(-2, (int32_t)side + 1);
}

/* ---- sizes, panes, windows ---- */

static void set_size(struct call *call, int kind, uint32_t width, uint32_t height)
{
    call->env.bounds.width = width;
    call->env.bounds.height = height;
    call->kinds[SIZES] = kind;
}

static void make_size(struct call *call)
{
    if (one_in(40))
        set_size(call, SIZE_DOT, 1, 1);
    else if (one_in(60))
        set_size(call, SIZE_MIDDLE, (uint32_t)between(13, 200), (uint32_t)between(13, 150));
    else if (one_in(1000))
        set_size(call, SIZE_LONG, MOST_SIDE, (uint32_t)between(1, 6));
    else if (one_in(1000))
        set_size(call, SIZE_LONG, (uint32_t)between(1, 6), MOST_SIDE);
    else if (one_in(20000))
        set_size(call, SIZE_FULL, MOST_SIDE, MOST_SIDE);
    else
        set_size(call, SIZE_SMALL, (uint32_t)between(1, 12), (uint32_t)between(2, 12));
}

/* Two numbers below the side, in order. */
static void make_span(uint32_t side, uint32_t *low, uint32_t *high)
{
    uint32_t a = below(side);
    uint32_t b = below(side);

    *low = a < b ? a : b;
    *high = a < b ? b : a;
}

static struct ovenlute_pane make_pane(uint32_t width, uint32_t height, int kind)
{
    struct ovenlute_pane pane = { 0, 0, width - 1, height - 1 };

    if (kind == PANE_PART || (kind == PANE_STRIP && one_in(2)))
        make_span(width, &pane.left, &pane.right);
    if (kind == PANE_PART)
        make_span(height, &pane.top, &pane.bottom);
    if (kind == PANE_STRIP || kind == PANE_DOT)
        pane.top = pane.bottom = below(height);
    if (kind == PANE_DOT)
        pane.left = pane.right = below(width);
    return pane;
}

static void order(int32_t *low, int32_t *high)
{
    if (*low > *high) {
        int32_t kept = *low;
        *low = *high;
        *high = kept;
    }
}

static struct ovenlute_window make_part_window(int32_t width, int32_t height)
{
    struct ovenlute_window window;

    window.x0 = between(-2, width);
    window.y0 = between(-2, height);
    window.x1 = between(-1, width + 1);
    window.y1 = between(-1, height + 1);
    order(&window.x0, &window.x1);
    order(&window.y0, &window.y1);
    return window;
}

static struct ovenlute_window make_empty_window(int32_t width, int32_t height)
{
    struct ovenlute_window window = { 0, 0, width - 1, height - 1 };

    if (one_in(2)) {
        window.x1 = between(-1, width - 2);
        window.x0 = window.x1 + between(1, 2);
    } else {
        window.y1 = between(-1, height - 2);
        window.y0 = window.y1 + between(1, 2);
    }
    return window;
}

static struct ovenlute_window make_outside_window(int32_t width, int32_t height)
{
    struct ovenlute_window left = { -9, 0, -1, height - 1 };
    struct ovenlute_window below_screen = { 0, height, width - 1, 32767 };

    return one_in(2) ? left : below_screen;
}

static int32_t any_word(void)
{
    return between(-32768, 32767);
}

static struct ovenlute_window make_window(int32_t width, int32_t height, int kind)
{
    struct ovenlute_window window = { 0, 0, width - 1, height - 1 };

    switch (kind) {
    case WINDOW_PART:
        return make_part_window(width, height);
    case WINDOW_DOT:
        window.x0 = window.x1 = between(0, width - 1);
        window.y0 = window.y1 = between(0, height - 1);
        break;
    case WINDOW_EMPTY:
        return make_empty_window(width, height);
    case WINDOW_OUTSIDE:
        return make_outside_window(width, height);
    case WINDOW_WIDEST:
        window.x0 = window.y0 = -32768;
        window.x1 = window.y1 = 32767;
        break;
    case WINDOW_ANY:
        window.x0 = any_word();
        window.y0 = any_word();
        window.x1 = any_word();
        window.y1 = any_word();
        break;
    }
    return window;
}

/* ---- the other fields ---- */

static int32_t make_variable(const struct ovenlute_env *env, int is_far)
{
    switch (below(8)) {
    case 0:
        return edge_value();
    case 1:
        return (int32_t)random_bits();
    case 2:
        return 16 * between(0, 20);
    case 3:
        return 0;
    default:
        return make_coordinate(env->bounds.width, is_far);
    }
}

static int make_state(int kind)
{
    if (kind == ENV_ENDED)
        return HAS_ENDED;
    return kind == ENV_STOPPED ? between(20, 29) : RUNNING;
}

/* Where a stopped environment was stopped: anywhere, and often at an end of what is allowed. */
static uint32_t make_place(void)
{
    return one_in(4) ? MOST_WORDS - below(2) : below(one_in(2) ? 2 : MOST_WORDS + 1);
}

/* The window that an origin brings to where this one is. */
static struct ovenlute_window window_before(struct ovenlute_window window, struct ovenlute_dot origin)
{
    return (struct ovenlute_window){ before_origin(window.x0, origin.x), before_origin(window.y0, origin.y),
                                     before_origin(window.x1, origin.x), before_origin(window.y1, origin.y) };
}

/* Origin, position, mode and window: those that an origin moves are mostly made for it. */
static void make_places(struct call *call, int is_far)
{
    const struct ovenlute_bounds *bounds = &call->env.bounds;
    struct ovenlute_registers *registers = &call->env.registers;

    if (one_in(2))
        registers->origin = make_origin(bounds);
    registers->position.x = before_origin(make_coordinate(bounds->width, is_far), registers->origin.x);
    registers->position.y = before_origin(make_coordinate(bounds->height, is_far), registers->origin.y);
    registers->mode = below(3);
    call->kinds[MODES] = (int)registers->mode;
    call->kinds[WINDOWS] = (int)below(WINDOW_KINDS);
    registers->window = make_window((int32_t)bounds->width, (int32_t)bounds->height, call->kinds[WINDOWS]);
    if (registers->mode == 1 && !one_in(3))
        registers->window = window_before(registers->window, registers->origin);
}

static void make_registers(struct call *call, int is_far)
{
    struct ovenlute_env *env = &call->env;
    struct ovenlute_registers *registers = &env->registers;

    make_places(call, is_far);
    registers->pattern = make_pattern();
    registers->first = one_in(4) ? edge_value() : between(-2, 2);
    registers->second = one_in(4) ? edge_value() : between(-2, 2);
    registers->colour = (uint8_t)random_bits();
    registers->state = (uint8_t)make_state(call->kinds[ENVIRONMENTS]);
    if (call->kinds[ENVIRONMENTS] == ENV_STOPPED)
        registers->place = make_place();
    for (int i = 0; i < VARIABLES; i++)
        env->variables[i] = make_variable(env, is_far);
    for (int i = 0; i < RETURNS; i++)
        env->stack[i] = random_bits();
    for (int i = 0; i < REPEATS; i++)
        env->repeats[i] = (struct ovenlute_repeat){ random_bits(), one_in(4) ? 0 : random_bits() };
}

static int make_env_kind(void)
{
    switch (below(16)) {
    case 0:
        return ENV_STOPPED;
    case 1:
        return ENV_ENDED;
    case 2: case 3: case 4: case 5:
        return ENV_FRESH;
    default:
        return ENV_MID_RUN;
    }
}

void make_env(struct call *call, int is_far)
{
    struct ovenlute_bounds *bounds = &call->env.bounds;

    make_size(call);
    call->kinds[PANES] = one_in(2) ? PANE_WHOLE : (int)below(PANE_KINDS);
    call->kinds[ENVIRONMENTS] = make_env_kind();
    fresh_env(&call->env, bounds->width, bounds->height,
              make_pane(bounds->width, bounds->height, call->kinds[PANES]));
    if (call->kinds[ENVIRONMENTS] != ENV_FRESH)
        make_registers(call, is_far);
}

/* ---- fields out of range ---- */

static uint32_t choose(const uint32_t *values, uint32_t count)
{
    return values[below(count)];
}

static uint32_t bad_side(void)
{
    static const uint32_t sides[] = { 0, 2049, 2050, 4096, 65536, 0x80000000, UINT32_MAX };

    return choose(sides, sizeof sides / sizeof sides[0]);
}

static int32_t bad_word(void)
{
    static const uint32_t words[] = { 32768, 65535, 65536, INT32_MAX, 0x80000000, 0xFFFF7FFF };

    return (int32_t)choose(words, sizeof words / sizeof words[0]);
}

static uint32_t bad_mode(void)
{
    static const uint32_t modes[] = { 3, 4, 255, 256, 65536, 0x80000000, UINT32_MAX };

    return choose(modes, sizeof modes / sizeof modes[0]);
}

static uint32_t bad_index(void)
{
    static const uint32_t indices[] = { 65537, 65538, 131072, 0x80000000, UINT32_MAX };

    return choose(indices, sizeof indices / sizeof indices[0]);
}

static uint32_t bad_depth(void)
{
    static const uint32_t depths[] = { 17, 18, 255, 256, 65536, 0x80000000, UINT32_MAX };

    return choose(depths, sizeof depths / sizeof depths[0]);
}

static uint32_t bad_nesting(void)
{
    static const uint32_t nestings[] = { 9, 10, 16, 255, 256, 65536, 0x80000000, UINT32_MAX };

    return choose(nestings, sizeof nestings / sizeof nestings[0]);
}

static uint32_t bad_passes(void)
{
    static const uint32_t passes[] = { 1001, 1002, 65535, 65536, 65537, 0x80000000, 0x80000001, UINT32_MAX };

    return choose(passes, sizeof passes / sizeof passes[0]);
}

static uint32_t bad_state(void)
{
    static const uint32_t states[] = { 2, 3, 10, 19, 30, 31, 128, 255 };

    return choose(states, sizeof states / sizeof states[0]);
}

/* At least one past the other end, or one past the screen. */
static uint32_t past(uint32_t limit)
{
    return one_in(3) ? UINT32_MAX - below(2) : limit + 1 + below(2);
}

/* The stacked index that is broken must lie below the depth. */
static void break_stack(struct ovenlute_env *env)
{
    if (env->registers.depth == 0 || env->registers.depth > RETURNS)
        env->registers.depth = (uint32_t)between(1, RETURNS);
    for (uint32_t i = 0; i < env->registers.depth; i++)
        env->stack[i] = below(MOST_WORDS + 1);
    env->stack[below(env->registers.depth)] = bad_index();
}

/* The repeat that is broken must lie below the nesting, and no other is. */
static void break_repeats(struct ovenlute_env *env, int member)
{
    struct ovenlute_repeat *broken;

    if (env->nesting == 0)
        env->nesting = (uint32_t)between(1, REPEATS);
    for (int i = 0; i < REPEATS; i++)
        env->repeats[i] = make_repeat(below(MOST_WORDS + 1));
    broken = &env->repeats[below(env->nesting)];
    if (member == BROKEN_NESTING)
        env->nesting = bad_nesting();
    else if (member == BROKEN_START)
        broken->start = bad_index();
    else
        broken->left = member == BROKEN_NO_PASSES ? 0 : bad_passes();
}

/* A place past the longest list, or one where there is none to keep. */
static void break_place(struct ovenlute_registers *registers, int is_stopped)
{
    registers->state = (uint8_t)(is_stopped ? between(20, 29) : between(RUNNING, HAS_ENDED));
    registers->place = is_stopped || one_in(2) ? bad_index() : 1 + below(MOST_WORDS);
}

void break_size(struct call *call)
{
    struct ovenlute_bounds *bounds = &call->env.bounds;

    call->kinds[ENVIRONMENTS] = ENV_BROKEN;
    call->kinds[BROKEN_FIELDS] = (int)below(2);
    if (call->kinds[BROKEN_FIELDS] == 0)
        bounds->width = bad_side();
    else
        bounds->height = bad_side();
}

static void break_pane(struct ovenlute_bounds *bounds, int side)
{
    struct ovenlute_pane *pane = &bounds->pane;

    switch (side) {
    case 0:
        pane->left = past(pane->right);
        break;
    case 1:
        pane->top = past(pane->bottom);
        break;
    case 2:
        pane->right = past(bounds->width - 1);
        break;
    default:
        pane->bottom = past(bounds->height - 1);
    }
}

void break_field(struct call *call)
{
    struct ovenlute_env *env = &call->env;
    int member = between(2, BROKEN_PASSES_ABOVE);

    call->kinds[ENVIRONMENTS] = ENV_BROKEN;
    call->kinds[BROKEN_FIELDS] = member;
    if (member < 6)
        break_pane(&env->bounds, member - 2);
    else if (member < 14)
        set_field(env, POSITION_X + (enum field)(member - 6), bad_word());
    else if (member == 14)
        env->registers.mode = bad_mode();
    else if (member == 15)
        env->registers.counter = bad_index();
    else if (member == 16)
        env->registers.depth = bad_depth();
    else if (member == 17)
        break_stack(env);
    else if (member == 18)
        env->registers.state = (uint8_t)bad_state();
    else if (member < BROKEN_NESTING)
        break_place(&env->registers, member == 19);
    else
        break_repeats(env, member);
}

/* ---- fresh environments and two panes ---- */

static uint32_t make_good_side(void)
{
    if (one_in(8))
        return MOST_SIDE - below(2);
    return (uint32_t)between(1, one_in(4) ? MOST_SIDE : 12);
}

void make_request(struct request *request)
{
    struct ovenlute_bounds bounds;

    request->kind = one_in(2) ? FRESH_GOOD : (int)below(FRESH_KINDS);
    bounds.width = make_good_side();
    bounds.height = make_good_side();
    bounds.pane = make_pane(bounds.width, bounds.height, (int)below(PANE_KINDS));
    if (request->kind == FRESH_BAD_PANE || request->kind == FRESH_BOTH_BAD)
        break_pane(&bounds, between(0, 3));
    if (request->kind == FRESH_BAD_SIZE || request->kind == FRESH_BOTH_BAD) {
        if (one_in(2))
            bounds.width = bad_side();
        else
            bounds.height = bad_side();
    }
    request->width = bounds.width;
    request->height = bounds.height;
    request->pane = bounds.pane;
}

/* Cuts the screen in two between columns or rows; a screen of one dot can't be cut. */
static void part_panes(struct ovenlute_bounds *a, struct ovenlute_bounds *b)
{
    a->pane = b->pane = make_pane(a->width, a->height, PANE_WHOLE);
    if (a->width > 1 && (a->height == 1 || one_in(2))) {
        a->pane.right = below(a->width - 1);
        b->pane.left = a->pane.right + 1;
    } else {
        a->pane.bottom = below(a->height - 1);
        b->pane.top = a->pane.bottom + 1;
    }
}

void make_two_panes(struct call *a, struct call *b)
{
    if (a->env.bounds.width == 1 && a->env.bounds.height == 1)
        set_size(a, SIZE_SMALL, 2, 2);
    set_size(b, a->kinds[SIZES], a->env.bounds.width, a->env.bounds.height);
    a->bytes = b->bytes = (size_t)a->env.bounds.width * a->env.bounds.height;
    memcpy(b->screen, a->screen, a->bytes);
    a->kinds[PANES] = b->kinds[PANES] = PANE_PART;
    part_panes(&a->env.bounds, &b->env.bounds);
    if (one_in(4))
        b->env.bounds.pane = make_pane(b->env.bounds.width, b->env.bounds.height, PANE_PART);
}
