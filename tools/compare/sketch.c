#include "libc.h"
#include "random.h"
#include "sketch.h"

void start_sketch(struct sketch *sketch, struct call *call, int is_far)
{
    sketch->call = call;
    sketch->origin = call->env.registers.origin;
    sketch->is_far = is_far;
    sketch->opcodes = 0;
    sketch->jumps = 0;
    call->words = 0;
}

/* ---- words ---- */

void put_word(struct sketch *sketch, int32_t word)
{
    sketch->call->list[sketch->call->words++] = (uint16_t)word;
}

void put_long(struct sketch *sketch, int32_t value)
{
    put_word(sketch, value);
    put_word(sketch, (int32_t)((uint32_t)value >> 16));
}

void put_opcode(struct sketch *sketch, uint16_t opcode)
{
    if (sketch->opcodes < MOST_STARTS)
        sketch->starts[sketch->opcodes++] = sketch->call->words;
    put_word(sketch, opcode);
}

/* Leaves room for a target that settle_targets fills in. */
static void put_target(struct sketch *sketch, int kind)
{
    struct target *target = &sketch->targets[sketch->jumps];

    if (sketch->jumps < MOST_TARGETS) {
        target->place = sketch->call->words;
        target->kind = kind;
        sketch->jumps++;
    }
    put_word(sketch, 0);
    if (kind != OFFSET_WORD)
        put_word(sketch, 0);
}

/* ---- operands ---- */

int32_t make_condition(void)
{
    static const int32_t conditions[] = { 0x0, 0x4, 0x5, 0x6, 0x7, 0xA, 0xB };

    if (one_in(12))
        return one_in(2) ? between(0, 16) : edge_value();
    return conditions[below(sizeof conditions / sizeof conditions[0])];
}

static int32_t make_offset(const struct sketch *sketch)
{
    if (one_in(24))
        return one_in(2) ? 32767 : -32768;
    return make_coordinate(sketch->call->env.bounds.width, sketch->is_far);
}

static int32_t make_immediate(void)
{
    if (one_in(3))
        return one_in(2) ? edge_value() : (int32_t)random_bits();
    return between(-4, 12);
}

/* A part of what the opcode draws, or of the origin that it sets. */
static int32_t shape_value(const struct sketch *sketch, char letter)
{
    switch (letter) {
    case 'e':
        return sketch->line.x0;
    case 'f':
        return sketch->line.y0;
    case 'g':
        return sketch->line.x1;
    case 'j':
        return sketch->line.y1;
    case 's':
        return one_in(8) ? make_offset(sketch) : sketch->line.x1 - sketch->line.x0;
    case 'z':
        return one_in(8) ? make_offset(sketch) : sketch->line.y1 - sketch->line.y0;
    case 'h':
        return sketch->circle.x;
    case 'k':
        return sketch->circle.y;
    case 'q':
        return sketch->circle.radius;
    case 'b':
        return sketch->moved.x;
    default:
        return sketch->moved.y;
    }
}

/* A value for the operand of this letter. */
static int32_t make_value(const struct sketch *sketch, char letter)
{
    const struct ovenlute_bounds *bounds = &sketch->call->env.bounds;

    switch (letter) {
    case 'c':
        return make_condition();
    case 'm':
        return one_in(8) ? edge_value() : between(0, 3);
    case 't':
        return one_in(12) ? edge_value() : between(0, 1);
    case 'u':
        return one_in(12) ? edge_value() : 0;
    case 'p':
        return (int32_t)make_pattern();
    case 'P':
        return make_count();
    case 'x':
        return before_origin(make_coordinate(bounds->width, sketch->is_far), sketch->aim.x);
    case 'y':
        return before_origin(make_coordinate(bounds->height, sketch->is_far), sketch->aim.y);
    case 'd':
        return make_offset(sketch);
    case 'o':
        return (int32_t)random_bits();
    case 'l': case 'w':
        return make_immediate();
    default:
        return shape_value(sketch, letter);
    }
}

/* A value for a variable: now and then one whose low word alone would do. */
static int32_t make_wide_value(const struct sketch *sketch, char letter)
{
    if (one_in(20))
        return edge_value();
    if (one_in(20))
        return (int32_t)((uint32_t)make_value(sketch, letter) + 65536u * (uint32_t)between(-2, 2));
    return make_value(sketch, letter);
}

/* The number of the first of `count` variables; now and then one too high. */
static uint16_t make_variable_number(uint32_t count)
{
    if (one_in(24))
        return one_in(2) ? (uint16_t)edge_value() : (uint16_t)(VARIABLES - count + 1 + below(count));
    if (one_in(8))
        return (uint16_t)(VARIABLES - count);
    return (uint16_t)below(VARIABLES - count + 1);
}

/* ---- one opcode ---- */

void put_load(struct sketch *sketch, int32_t value, uint16_t variable)
{
    if (value == (int16_t)value && one_in(2)) {
        put_opcode(sketch, 0x0065);
        put_word(sketch, value);
    } else {
        put_opcode(sketch, 0x0066);
        put_long(sketch, value);
    }
    put_word(sketch, variable);
}

static void put_target_load(struct sketch *sketch, int kind, uint16_t variable)
{
    put_opcode(sketch, 0x0066);
    put_target(sketch, kind);
    put_word(sketch, variable);
}

/* Loads what a V form will find in its variables. */
static void put_loads(struct sketch *sketch, const char *implied, uint16_t variable)
{
    for (uint16_t i = 0; implied[i]; i++) {
        if (implied[i] == 'a')
            put_target_load(sketch, ADDRESS, (uint16_t)(variable + i));
        else if (implied[i] == 'r')
            put_target_load(sketch, OFFSET_LONG, (uint16_t)(variable + i));
        else
            put_load(sketch, make_wide_value(sketch, implied[i]), (uint16_t)(variable + i));
    }
}

static void put_operand(struct sketch *sketch, char letter, uint16_t variable)
{
    if (letter == 'v' || letter == 'i')
        put_word(sketch, variable);
    else if (letter == 'a')
        put_target(sketch, ADDRESS);
    else if (letter == 'r')
        put_target(sketch, OFFSET_WORD);
    else if (letter == 'l' || letter == 'o' || letter == 'p')
        put_long(sketch, make_value(sketch, letter));
    else
        put_word(sketch, make_value(sketch, letter));
}

/* Loads values near an edge into those of two variables that there are; at times -1 and the smallest number. */
static void put_edge_loads(struct sketch *sketch, const uint16_t *variables)
{
    int is_smallest_by_minus_one = one_in(8);

    if (variables[0] < VARIABLES)
        put_load(sketch, is_smallest_by_minus_one ? -1 : edge_value(), variables[0]);
    if (variables[1] < VARIABLES)
        put_load(sketch, is_smallest_by_minus_one ? INT32_MIN : edge_value(), variables[1]);
}

static int has(const struct form *form, char letter)
{
    return strchr(form->operands, letter) || strchr(form->implied, letter);
}

/* The opcode draws from the position, and a MOVETO before it brings that to the line's first point. */
static void put_first_point(struct sketch *sketch)
{
    put_opcode(sketch, 0x0082);
    put_word(sketch, sketch->line.x0);
    put_word(sketch, sketch->line.y0);
}

/* What the opcode draws, or the origin that it sets: made once, since it is more than one operand. */
static void make_shape(struct sketch *sketch, const struct form *form)
{
    const struct ovenlute_bounds *bounds = &sketch->call->env.bounds;

    sketch->aim = one_in(3) ? (struct ovenlute_dot){ 0, 0 } : sketch->origin;
    if (has(form, 'q'))
        sketch->circle = make_circle(bounds, sketch->aim);
    if (has(form, 't'))
        sketch->line = make_line(bounds, sketch->aim, sketch->is_far);
    if (has(form, 'b'))
        sketch->moved = make_origin(bounds);
}

void put_form(struct sketch *sketch, const struct form *form)
{
    uint32_t implied = (uint32_t)strlen(form->implied);
    uint16_t variables[2];
    size_t earlier_jumps = sketch->jumps;
    int named = 0;

    make_shape(sketch, form);
    if (has(form, 't') && !has(form, 'e') && one_in(2))
        put_first_point(sketch);
    variables[0] = make_variable_number(implied > 0 ? implied : 1);
    variables[1] = make_variable_number(1);
    if (implied > 0 && variables[0] + implied <= VARIABLES && one_in(2))
        put_loads(sketch, form->implied, variables[0]);
    if (strchr(form->operands, 'v') && one_in(6))
        put_edge_loads(sketch, variables);
    put_opcode(sketch, form->opcode);
    for (const char *letter = form->operands; *letter; letter++)
        put_operand(sketch, *letter, variables[*letter == 'v' ? named++ : 0]);
    for (size_t i = earlier_jumps; i < sketch->jumps; i++)
        sketch->targets[i].next = sketch->call->words;
    if (has(form, 'b'))
        sketch->origin = sketch->moved;
}

void put_named(struct sketch *sketch, uint16_t opcode)
{
    put_form(sketch, &forms[form_of(opcode)]);
}

void put_end(struct sketch *sketch)
{
    put_opcode(sketch, 0x0001);
}

/* ---- targets ---- */

/* Mostly an opcode's start; at times any index, or one near the list's end. */
static int64_t choose_index(const struct sketch *sketch)
{
    size_t words = sketch->call->words;

    if (one_in(12))
        return (int64_t)words + between(-2, 1);
    if (one_in(12))
        return one_in(4) ? -1 : (int64_t)below((uint32_t)words + 1);
    return (int64_t)sketch->starts[below((uint32_t)sketch->opcodes)];
}

static void write_word(struct sketch *sketch, size_t place, int64_t value)
{
    sketch->call->list[place] = (uint16_t)value;
}

static void write_long(struct sketch *sketch, size_t place, int64_t value)
{
    write_word(sketch, place, value);
    write_word(sketch, place + 1, value >> 16);
}

static void settle_target(struct sketch *sketch, const struct target *target)
{
    int64_t index = choose_index(sketch);

    if (target->kind == OFFSET_WORD)
        write_word(sketch, target->place, one_in(24) ? edge_value() : index - (int64_t)target->next);
    else if (one_in(24))
        write_long(sketch, target->place, edge_value());
    else if (target->kind == OFFSET_LONG)
        write_long(sketch, target->place, index - (int64_t)target->next);
    else
        write_long(sketch, target->place, 16 * index + (one_in(24) ? between(1, 15) : 0));
}

void settle_targets(struct sketch *sketch)
{
    for (size_t i = 0; i < sketch->jumps; i++)
        settle_target(sketch, &sketch->targets[i]);
}
