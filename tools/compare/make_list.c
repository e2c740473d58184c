#include "libc.h"
#include "random.h"
#include "sketch.h"

enum { LOOP_VARIABLE = 0 };

/* ---- kinds of lists ---- */

static void put_valid(struct sketch *sketch)
{
    uint32_t count = 1 + below(12);

    for (uint32_t i = 0; i < count; i++) {
        uint32_t form = below(FORMS);
        if (forms[form].opcode != 0x0001 || one_in(4))
            put_form(sketch, &forms[form]);
    }
}

/* Most lists end with EODL, some without, some inside their last opcode. */
static void put_valid_and_end(struct sketch *sketch)
{
    struct call *call = sketch->call;

    put_valid(sketch);
    if (!one_in(4))
        put_end(sketch);
    else if (one_in(2) && call->words > 3)
        call->words -= 1 + below(3);
}

static void put_random_words(struct sketch *sketch)
{
    uint32_t count = 1 + below(40);

    for (uint32_t i = 0; i < count; i++) {
        if (one_in(3))
            put_word(sketch, forms[below(FORMS)].opcode);
        else
            put_word(sketch, one_in(2) ? between(0, 70) : (int32_t)random_bits());
    }
    put_opcode(sketch, (uint16_t)random_bits());
}

static void damage(struct call *call)
{
    uint16_t *word = &call->list[below((uint32_t)call->words)];

    switch (below(4)) {
    case 0:
        *word = (uint16_t)random_bits();
        break;
    case 1:
        *word = (uint16_t)edge_value();
        break;
    case 2:
        *word = (uint16_t)(*word + between(-1, 1));
        break;
    default:
        *word ^= (uint16_t)(1u << below(16));
    }
}

/* Goes back to an index by JUMPA or JUMPR. */
static void put_jump_back(struct sketch *sketch, int32_t condition, size_t start)
{
    int is_absolute = one_in(2);

    put_opcode(sketch, is_absolute ? 0x010A : 0x010C);
    put_word(sketch, condition);
    if (is_absolute)
        put_long(sketch, 16 * (int32_t)start);
    else
        put_word(sketch, (int32_t)start - (int32_t)sketch->call->words - 1);
}

/* A counting loop, with up to two opcodes besides the count. */
static void put_loop(struct sketch *sketch)
{
    static const uint16_t body[] = { 0x0003, 0x0080, 0x0085, 0x009E, 0x009F, 0x007E, 0x0020, 0x0101, 0x0188 };
    int32_t limit = between(-3, 40);
    size_t start;

    put_load(sketch, limit - between(0, 30), LOOP_VARIABLE);
    start = sketch->call->words;
    for (uint32_t i = below(3); i > 0; i--)
        put_named(sketch, body[below(sizeof body / sizeof body[0])]);
    put_opcode(sketch, one_in(4) ? 0x0042 : 0x005D);
    put_word(sketch, LOOP_VARIABLE);
    put_opcode(sketch, 0x0033);
    put_long(sketch, limit);
    put_word(sketch, LOOP_VARIABLE);
    put_jump_back(sketch, make_condition(), start);
    put_end(sketch);
}

/* A loop that only counts and never ends. */
static void put_endless_loop(struct sketch *sketch)
{
    put_opcode(sketch, one_in(2) ? 0x0042 : 0x005D);
    put_word(sketch, LOOP_VARIABLE);
    put_jump_back(sketch, 0, 0);
}

/* As many calls in a row as the stack holds, or nearly, then as many returns, or nearly. */
static void put_call_chain(struct sketch *sketch)
{
    uint32_t calls = 13 + below(6);
    uint32_t returns = calls - 2 + below(5);

    for (uint32_t i = 0; i < calls; i++) {
        put_opcode(sketch, 0x010E);
        put_word(sketch, one_in(12) ? -2 : 0);
    }
    for (uint32_t i = 0; i < returns; i++)
        put_opcode(sketch, 0x00B9);
    if (one_in(2))
        put_end(sketch);
}

/* A part that calls itself by one of the four calls, and returns behind it. */
static void put_recursion(struct sketch *sketch)
{
    static const uint16_t calls[] = { 0x000E, 0x000F, 0x010E, 0x010F };
    uint16_t opcode = calls[below(4)];
    int32_t start = opcode == 0x000F || opcode == 0x010F ? 4 : 0;

    if (start > 0) {
        put_opcode(sketch, 0x0066);
        put_long(sketch, opcode == 0x000F ? 16 * start : -2);
        put_word(sketch, LOOP_VARIABLE);
    }
    put_opcode(sketch, opcode);
    if (opcode == 0x000E)
        put_long(sketch, 16 * start);
    else
        put_word(sketch, opcode == 0x010E ? -2 : LOOP_VARIABLE);
    put_opcode(sketch, 0x00B9);
}

/* Calls, returns and little else, with targets everywhere. */
static void put_call_maze(struct sketch *sketch)
{
    static const uint16_t opcodes[] = { 0x000E, 0x000F, 0x010E, 0x010F, 0x00B9, 0x00B9, 0x005D, 0x0000 };

    for (uint32_t i = 4 + below(12); i > 0; i--)
        put_named(sketch, opcodes[below(8)]);
    put_end(sketch);
}

static void put_calls(struct sketch *sketch)
{
    switch (below(3)) {
    case 0:
        put_call_chain(sketch);
        break;
    case 1:
        put_recursion(sketch);
        break;
    default:
        put_call_maze(sketch);
    }
}

/* Patterns and lines by all their opcodes. */
static void put_lines(struct sketch *sketch)
{
    static const uint16_t opcodes[] = { 0x0078, 0x0079, 0x0074, 0x0075, 0x007C, 0x007D, 0x007E, 0x007F };

    for (uint32_t i = 2 + below(8); i > 0; i--)
        put_named(sketch, opcodes[below(8)]);
    put_end(sketch);
}

/* Origins, modes and windows, and every shape under them. */
static void put_origins(struct sketch *sketch)
{
    static const uint16_t opcodes[] = {
        0x0100, 0x0100, 0x0101, 0x0101, 0x0016, 0x0016, 0x0017, 0x0018, 0x0082, 0x009E, 0x009F, 0x0150, 0x0151, 0x0074, 0x0075,
        0x007C, 0x007E, 0x0012, 0x0013, 0x0014, 0x0015, 0x0188, 0x0189,
    };

    for (uint32_t i = 3 + below(10); i > 0; i--)
        put_named(sketch, opcodes[below(sizeof opcodes / sizeof opcodes[0])]);
    put_end(sketch);
}

/* 65,536 words, or a few less: a jump to the opcodes at the very end. */
static void put_longest(struct sketch *sketch)
{
    struct call *call = sketch->call;
    size_t start = MOST_WORDS - 20 - below(3);

    memset(call->list, 0, sizeof call->list);
    put_opcode(sketch, 0x010A);
    put_word(sketch, 0);
    put_long(sketch, 16 * (int32_t)start);
    call->words = start;
    while (call->words < MOST_WORDS - 12)
        put_form(sketch, &forms[below(FORMS)]);
    if (call->words > MOST_WORDS || one_in(2))
        call->words = MOST_WORDS;
    if (one_in(4))
        call->list[MOST_WORDS - 1] = forms[below(FORMS)].opcode;
}

static int make_list_kind(void)
{
    static const int kinds[] = {
        LIST_VALID, LIST_VALID, LIST_VALID, LIST_VALID, LIST_VALID, LIST_VALID, LIST_VALID, LIST_DAMAGED,
        LIST_DAMAGED, LIST_DAMAGED, LIST_RANDOM, LIST_RANDOM, LIST_LOOP, LIST_LOOP, LIST_CALLS, LIST_CALLS,
        LIST_LINES, LIST_LINES, LIST_LINES, LIST_ORIGINS, LIST_ORIGINS, LIST_ORIGINS, LIST_REPEATS, LIST_REPEATS,
        LIST_REPEATS, LIST_REPEATS,
    };

    if (one_in(100))
        return LIST_EMPTY;
    if (one_in(500))
        return LIST_LONGEST;
    if (one_in(5000))
        return LIST_ENDLESS;
    return kinds[below(sizeof kinds / sizeof kinds[0])];
}

static void put_list(struct sketch *sketch, int kind)
{
    switch (kind) {
    case LIST_EMPTY:
        break;
    case LIST_RANDOM:
        put_random_words(sketch);
        break;
    case LIST_VALID:
    case LIST_DAMAGED:
        put_valid_and_end(sketch);
        break;
    case LIST_LOOP:
        put_loop(sketch);
        break;
    case LIST_ENDLESS:
        put_endless_loop(sketch);
        break;
    case LIST_CALLS:
        put_calls(sketch);
        break;
    case LIST_LINES:
        put_lines(sketch);
        break;
    case LIST_ORIGINS:
        put_origins(sketch);
        break;
    case LIST_REPEATS:
        put_repeats(sketch);
        break;
    default:
        put_longest(sketch);
    }
}

/* ---- where the run goes on from ---- */

static uint32_t make_index(const struct sketch *sketch)
{
    uint32_t index;

    if (one_in(16))
        return MOST_WORDS - below(2);
    if (!one_in(8) && sketch->opcodes > 0)
        index = (uint32_t)sketch->starts[below((uint32_t)sketch->opcodes)];
    else
        index = below((uint32_t)sketch->call->words + 2);
    return index <= MOST_WORDS ? index : MOST_WORDS;
}

/* Repeats that were opened here or elsewhere. */
static void place_repeats(struct sketch *sketch)
{
    struct ovenlute_env *env = &sketch->call->env;

    if (one_in(2))
        env->nesting = one_in(3) ? REPEATS - below(2) : below(REPEATS + 1);
    for (uint32_t i = 0; i < env->nesting; i++)
        env->repeats[i] = make_repeat(one_in(32) ? 0 : make_index(sketch));
}

static void place_counter(struct sketch *sketch)
{
    struct ovenlute_env *env = &sketch->call->env;

    if (one_in(3))
        env->registers.counter = make_index(sketch);
    if (one_in(2))
        env->registers.depth = one_in(2) ? (uint32_t)between(14, RETURNS) : below(RETURNS + 1);
    for (uint32_t i = 0; i < env->registers.depth; i++)
        env->stack[i] = make_index(sketch);
    place_repeats(sketch);
}

/* Some word may be an RPT or an ERPT. */
static int may_repeat(const struct call *call)
{
    for (size_t i = 0; i < call->words; i++)
        if (call->list[i] == 0x00B7 || call->list[i] == 0x004F)
            return 1;
    return 0;
}

int make_list(struct call *call, int is_far)
{
    struct sketch sketch;

    start_sketch(&sketch, call, is_far);
    call->kinds[LISTS] = make_list_kind();
    put_list(&sketch, call->kinds[LISTS]);
    settle_targets(&sketch);
    if (call->kinds[LISTS] == LIST_DAMAGED)
        damage(call);
    if (call->kinds[ENVIRONMENTS] != ENV_FRESH)
        place_counter(&sketch);
    return call->kinds[LISTS] == LIST_VALID && sketch.jumps == 0 && !may_repeat(call);
}

void make_list_of_word(struct call *call, uint16_t word)
{
    struct sketch sketch;

    start_sketch(&sketch, call, 0);
    call->kinds[LISTS] = LIST_OPCODE_WORD;
    put_opcode(&sketch, word);
    for (int i = 0; i < 5; i++)
        put_word(&sketch, 0);
    put_end(&sketch);
}
