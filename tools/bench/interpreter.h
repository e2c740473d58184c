/* The steps of the plain C interpreter, for plain.c, which paints, and plain_who.c, which asks: each has its own struct machine before
   this file and the four below behind it. */
#ifndef INTERPRETER_H
#define INTERPRETER_H

/* What LINE, CIR and CIRS, PIXEL and CLRWIN do: 0 and on to the next opcode, or the number with which they are refused. */
static int paint_line(const struct machine *m, const uint16_t *word, uint32_t *counter);
static int paint_circle(const struct machine *m, const uint16_t *word, uint32_t *counter);
static int paint_dot(const struct machine *m, const uint16_t *word, uint32_t *counter);
static void clear(const struct machine *m, uint8_t colour);

/* What may be painted: both ends inside. */
struct area {
    int32_t left, top, right, bottom;
};

static int32_t larger(int32_t a, int32_t b)
{
    return a > b ? a : b;
}

static int32_t smaller(int32_t a, int32_t b)
{
    return a < b ? a : b;
}

/* Worked out for each opcode that paints: one of another kind may have changed it. */
static struct area drawable(const struct afgis_env *env)
{
    struct area area = { (int32_t)env->left, (int32_t)env->top, (int32_t)env->right, (int32_t)env->bottom };

    if (env->mode != 0) {
        int32_t across = env->mode == 1 ? env->origin_x : 0;
        int32_t down = env->mode == 1 ? env->origin_y : 0;
        area.left = larger(area.left, env->x0 + across);
        area.top = larger(area.top, env->y0 + down);
        area.right = smaller(area.right, env->x1 + across);
        area.bottom = smaller(area.bottom, env->y1 + down);
    }
    return area;
}

static int set_mode(struct afgis_env *env, const uint16_t *word, uint32_t *counter)
{
    if (word[1] > 2)
        return 24;
    env->mode = word[1];
    *counter += 2;
    return 0;
}

static int set_window(struct afgis_env *env, const uint16_t *word, uint32_t *counter)
{
    env->x0 = (int16_t)word[1];
    env->y0 = (int16_t)word[2];
    env->x1 = (int16_t)word[3];
    env->y1 = (int16_t)word[4];
    *counter += 5;
    return 0;
}

static int set_origin(struct afgis_env *env, const uint16_t *word, uint32_t *counter)
{
    env->origin_x = (int16_t)word[1];
    env->origin_y = (int16_t)word[2];
    *counter += 3;
    return 0;
}

static int32_t long_at(const uint16_t *word)
{
    return (int32_t)(word[0] | (uint32_t)word[1] << 16);
}

/* The seven conditions; -1 for any other number. */
static int condition(const struct afgis_env *env, uint16_t number)
{
    switch (number) {
    case 0x0: return 1;
    case 0x4: return env->first < env->second;
    case 0x5: return env->first >= env->second;
    case 0x6: return env->first <= env->second;
    case 0x7: return env->first > env->second;
    case 0xA: return env->first == env->second;
    case 0xB: return env->first != env->second;
    default: return -1;
    }
}

static int jump(const struct machine *m, const uint16_t *word, uint32_t *counter)
{
    int taken = condition(m->env, word[1]);
    int64_t target = (int64_t)*counter + 3 + (int16_t)word[2];

    if (taken < 0)
        return 24;
    if (!taken) {
        *counter += 3;
        return 0;
    }
    if (target < 0 || target >= (int64_t)m->words)
        return 27;
    *counter = (uint32_t)target;
    return 0;
}

static int open_repeat(struct afgis_env *env, const uint16_t *word, uint32_t *counter)
{
    if (word[1] < 1 || word[1] > 1000)
        return 24;
    if (env->nesting == 8)
        return 28;
    *counter += 2;
    env->repeats[env->nesting] = (struct afgis_repeat){ *counter, word[1] };
    env->nesting++;
    return 0;
}

static int end_pass(struct afgis_env *env, uint32_t *counter)
{
    struct afgis_repeat *repeat;

    if (env->nesting == 0)
        return 29;
    repeat = &env->repeats[env->nesting - 1];
    repeat->left--;
    if (repeat->left > 0) {
        *counter = repeat->start;
        return 0;
    }
    env->nesting--;
    *counter += 1;
    return 0;
}

/* One opcode: 0, or the number with which it is refused. */
static inline int carry_out(struct machine *m, uint32_t *counter)
{
    struct afgis_env *env = m->env;
    const uint16_t *word = m->list + *counter;
    size_t left = m->words - *counter;

    if (*counter >= m->words)
        return 20;
    switch (word[0]) {
    case 0x0001:
        env->state = 1;
        *counter += 1;
        return 0;
    case 0x0012:
    case 0x0014:
        return left < 5 ? 22 : paint_circle(m, word, counter);
    case 0x0016:
        return left < 2 ? 22 : set_mode(env, word, counter);
    case 0x0018:
        return left < 5 ? 22 : set_window(env, word, counter);
    case 0x0033:
        if (left < 4)
            return 22;
        if (word[3] > 63)
            return 23;
        env->first = env->variables[word[3]];
        env->second = long_at(word + 1);
        *counter += 4;
        return 0;
    case 0x004F:
        return end_pass(env, counter);
    case 0x005D:
        if (left < 2)
            return 22;
        if (word[1] > 63)
            return 23;
        env->variables[word[1]] = (int32_t)((uint32_t)env->variables[word[1]] + 1);
        *counter += 2;
        return 0;
    case 0x0074:
        return left < 6 ? 22 : paint_line(m, word, counter);
    case 0x0078:
        if (left < 3)
            return 22;
        env->pattern = (uint32_t)long_at(word + 1);
        *counter += 3;
        return 0;
    case 0x009E:
        return left < 3 ? 22 : paint_dot(m, word, counter);
    case 0x00B7:
        return left < 2 ? 22 : open_repeat(env, word, counter);
    case 0x0100:
        return left < 3 ? 22 : set_origin(env, word, counter);
    case 0x010C:
        return left < 3 ? 22 : jump(m, word, counter);
    case 0x0188:
        if (left < 4)
            return 22;
        clear(m, (uint8_t)word[1]);
        *counter += 4;
        return 0;
    default:
        return 21;
    }
}

#endif
