/* Lists whose last opcode meets two refusals at once, of which the lower number must come back; and lists whose last one
   meets 23 at any of its operands. */

#include "forms.h"
#include "libc.h"
#include "make.h"
#include "random.h"

static void put(struct call *call, int32_t word)
{
    call->list[call->words++] = (uint16_t)word;
}

static uint16_t put_one_of(struct call *call, const uint16_t *opcodes, uint32_t count)
{
    uint16_t opcode = opcodes[below(count)];

    put(call, opcode);
    return opcode;
}

/* ---- what each refusal needs ---- */

static int32_t bad_variable(void)
{
    static const int32_t numbers[] = { 64, 65, 255, 256, 32768, 65535 };

    return numbers[below(6)];
}

/* Type 1 is a line's, and none of a circle's, whose opcodes are the lower ones. */
static int32_t bad_type(uint16_t opcode)
{
    static const int32_t types[] = { 2, 3, 8, 255, 256, 32767, -1 };

    return opcode < 0x0074 && one_in(4) ? 1 : types[below(7)];
}

static int32_t bad_condition(void)
{
    static const int32_t conditions[] = { 1, 2, 3, 8, 9, 12, 13, 14, 15, 16, 256, 32768, 65535 };

    return conditions[below(13)];
}

static int32_t bad_coordinate(void)
{
    static const int32_t coordinates[] = { 32768, -32769, 65535, 65536, INT32_MAX, INT32_MIN };

    return coordinates[below(6)];
}

/* No multiple of 16, or behind the list, which is short here. */
static int32_t bad_address(void)
{
    return one_in(2) ? between(1, 15) : 16 * between(100, 70000);
}

static int32_t bad_offset(void)
{
    return one_in(2) ? between(100, 32767) : between(-32768, -100);
}

static void fill_stack(struct call *call)
{
    call->env.registers.depth = RETURNS;
    for (int i = 0; i < RETURNS; i++)
        call->env.stack[i] = below(MOST_WORDS + 1);
}

static void fill_repeats(struct call *call)
{
    call->env.nesting = REPEATS;
    for (int i = 0; i < REPEATS; i++)
        call->env.repeats[i] = make_repeat(below(MOST_WORDS + 1));
}

/* From here an offset of two or more leads out of range. */
static void move_to_edge(struct call *call)
{
    call->env.registers.position.x = 32767 - between(0, 1);
}

static uint32_t zero_variable(struct call *call)
{
    uint32_t number = below(VARIABLES);

    call->env.variables[number] = 0;
    return number;
}

/* ---- the pairs ---- */

static const uint16_t divisions[] = { 0x0045, 0x0081 };
static const uint16_t typed_v_forms[] = { 0x0075, 0x007D, 0x007F, 0x0013, 0x0015 };
static const uint16_t circles[] = { 0x0012, 0x0014 };
static const uint16_t circle_v_forms[] = { 0x0013, 0x0015 };

/* Vs above 63, and no Vd. */
static void make_22_23(struct call *call)
{
    static const uint16_t opcodes[] = { 0x0003, 0x0007, 0x0091, 0x0080, 0x0045, 0x0081, 0x0071, 0x0034 };

    put_one_of(call, opcodes, 8);
    put(call, bad_variable());
}

/* A condition or type that isn't allowed, and no last word. */
static void make_22_24(struct call *call)
{
    static const uint16_t jumps[] = { 0x010A, 0x010C };
    static const uint16_t typed[] = { 0x0074, 0x007C, 0x007E, 0x0012, 0x0014 };

    if (one_in(2)) {
        put_one_of(call, jumps, 2);
        put(call, bad_condition());
    } else {
        put(call, bad_type(put_one_of(call, typed, 5)));
        put(call, between(-2, 9));
    }
}

/* A new position out of range in x, and no dy. */
static void make_22_25(struct call *call)
{
    move_to_edge(call);
    if (one_in(2)) {
        put(call, 0x0084);
    } else {
        put(call, 0x007E);
        put(call, 0);
    }
    put(call, between(2, 32767));
}

/* Vs holds zero, and no Vd. */
static void make_22_26(struct call *call)
{
    put_one_of(call, divisions, 2);
    put(call, (int32_t)zero_variable(call));
}

/* A call with a full stack, or an RPT with eight open, that lacks its last word. */
static void make_22_28(struct call *call)
{
    static const uint16_t opcodes[] = { 0x000E, 0x000F, 0x010E, 0x010F, 0x00B7 };

    fill_stack(call);
    fill_repeats(call);
    put_one_of(call, opcodes, 5);
}

/* A wrong type in Vi, and followers above 63. */
static void make_23_24(struct call *call)
{
    int32_t number = between(62, 63);

    call->env.variables[number] = bad_type(put_one_of(call, typed_v_forms, 5));
    put(call, number);
}

/* The last variable out of range, and a follower above 63. */
static void make_23_25(struct call *call)
{
    static const uint16_t pairs[] = { 0x0083, 0x0085, 0x009F, 0x0019, 0x0151, 0x0101 };

    call->env.variables[62] = 0;
    call->env.variables[63] = bad_coordinate();
    if (one_in(2)) {
        put_one_of(call, pairs, 6);
        put(call, 63);
    } else {
        put_one_of(call, typed_v_forms, 5);
        put(call, 62);
    }
}

/* Vs holds zero, and Vd above 63. */
static void make_23_26(struct call *call)
{
    put_one_of(call, divisions, 2);
    put(call, (int32_t)zero_variable(call));
    put(call, bad_variable());
}

/* A call by a variable above 63 with a full stack. */
static void make_23_28(struct call *call)
{
    static const uint16_t calls[] = { 0x000F, 0x010F };

    fill_stack(call);
    put_one_of(call, calls, 2);
    put(call, bad_variable());
}

/* A wrong type and a radius out of range. */
static void make_circle_24_25(struct call *call)
{
    int32_t number = between(0, 60);

    if (one_in(2)) {
        put(call, bad_type(put_one_of(call, circles, 2)));
        put(call, between(-2, 9));
        put(call, between(-2, 9));
        put(call, between(-32768, -1));
    } else {
        call->env.variables[number] = bad_type(put_one_of(call, circle_v_forms, 2));
        call->env.variables[number + 3] = bad_radius();
        put(call, number);
    }
}

/* A wrong type and a point out of range. */
static void make_point_24_25(struct call *call)
{
    int32_t number = between(0, 59);

    if (one_in(3)) {
        move_to_edge(call);
        put(call, 0x007E);
        put(call, bad_type(0x007E));
        put(call, between(2, 32767));
        put(call, 0);
    } else {
        call->env.variables[number] = bad_type(put_one_of(call, typed_v_forms, 5));
        call->env.variables[number + between(1, 2)] = bad_coordinate();
        put(call, number);
    }
}

static void make_24_25(struct call *call)
{
    if (one_in(3))
        make_circle_24_25(call);
    else
        make_point_24_25(call);
}

/* A wrong condition and a target that isn't allowed. */
static void make_24_27(struct call *call)
{
    int32_t address = bad_address();

    if (one_in(2)) {
        put(call, 0x010A);
        put(call, bad_condition());
        put(call, address);
        put(call, address >> 16);
    } else {
        put(call, 0x010C);
        put(call, bad_condition());
        put(call, bad_offset());
    }
}

/* A wrong count and eight open. */
static void make_24_28(struct call *call)
{
    fill_repeats(call);
    put(call, 0x00B7);
    put(call, bad_count());
}

/* A target that isn't allowed and a full stack. */
static void make_27_28(struct call *call)
{
    int32_t number = between(0, 63);
    int32_t address = bad_address();

    fill_stack(call);
    if (one_in(3)) {
        put(call, 0x000E);
        put(call, address);
        put(call, address >> 16);
    } else if (one_in(2)) {
        put(call, 0x010E);
        put(call, bad_offset());
    } else {
        int is_relative = one_in(2);
        call->env.variables[number] = is_relative ? bad_offset() : address;
        put(call, is_relative ? 0x010F : 0x000F);
        put(call, number);
    }
}

/* In the order in which they are counted. */
static const struct {
    int lower;
    void (*make)(struct call *call);
} pairs[] = {
    { 22, make_22_23 }, { 22, make_22_24 }, { 22, make_22_25 }, { 22, make_22_26 }, { 22, make_22_28 },
    { 23, make_23_24 }, { 23, make_23_25 }, { 23, make_23_26 }, { 23, make_23_28 },
    { 24, make_24_25 }, { 24, make_24_27 }, { 24, make_24_28 }, { 27, make_27_28 },
};

/* Some opcodes that do nothing, before the one that is to be refused; returns how many. */
static uint32_t start_list(struct call *call, int kind)
{
    uint32_t steps_before = below(4);

    call->env.registers.state = RUNNING;
    call->env.registers.place = 0;
    call->env.registers.counter = 0;
    call->env.registers.depth = 0;
    call->kinds[LISTS] = kind;
    call->kinds[ENVIRONMENTS] = ENV_MID_RUN;
    call->words = 0;
    for (uint32_t i = 0; i < steps_before; i++)
        put(call, 0x0000);
    return steps_before;
}

/* The refusal is met, or waits behind the last allowed step. */
static void expect(struct call *call, uint32_t steps_before, int number)
{
    call->budget = one_in(4) ? steps_before : steps_before + 1 + below(20);
    call->expected = call->budget == steps_before ? 1 : number;
    call->kinds[BUDGETS] = call->budget == steps_before ? BUDGET_BEFORE_REFUSAL : BUDGET_ENOUGH;
}

void make_two_refusals(struct call *call)
{
    uint32_t pair = below(sizeof pairs / sizeof pairs[0]);
    uint32_t steps_before = start_list(call, LIST_TWO_REFUSALS);

    pairs[pair].make(call);
    expect(call, steps_before, pairs[pair].lower);
    call->kinds[OPCODE_PAIRS] = (int)pair;
}

/* ---- 23 at any operand ---- */

/* Vi above 63, or one of which only the last follower is. */
static int32_t bad_first(const struct form *form)
{
    int32_t followers = (int32_t)strlen(form->implied) - 1;

    return followers > 0 && one_in(2) ? 64 - followers + between(0, followers - 1) : bad_variable();
}

/* A word, or a long's two: a variable's number would be wrong in most of them. */
static void put_value(struct call *call, char operand)
{
    put(call, bad_variable());
    if (operand == 'l')
        put(call, bad_variable());
}

/* Both variables of a pair may be wrong, or either. */
static void put_misnamed(struct call *call, const struct form *form)
{
    uint32_t wrong = 1 + below(3);

    put(call, form->opcode);
    if (form->operands[0] == 'i') {
        put(call, bad_first(form));
    } else if (form->operands[1] == 0) {
        put(call, bad_variable());
    } else if (form->operands[0] == 'v') {
        put(call, wrong & 1 ? bad_variable() : between(0, 63));
        put(call, wrong & 2 ? bad_variable() : between(0, 63));
    } else {
        put_value(call, form->operands[0]);
        put(call, bad_variable());
    }
}

void make_misnamed(struct call *call)
{
    uint32_t steps_before = start_list(call, LIST_MISNAMED);
    const struct form *form;

    do
        form = &forms[below(FORMS)];
    while (strchr(form->refusals, '3') == NULL);
    put_misnamed(call, form);
    expect(call, steps_before, 23);
}
