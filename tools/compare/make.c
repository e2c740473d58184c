#include "libc.h"
#include "make.h"
#include "random.h"

/* ---- budgets and screens ---- */

static int budget_kind(uint32_t budget)
{
    if (budget < 2)
        return budget == 0 ? BUDGET_NONE : BUDGET_ONE;
    if (budget <= 200)
        return budget <= 8 ? BUDGET_FEW : BUDGET_ENOUGH;
    if (budget >= MOST_STEPS)
        return budget == MOST_STEPS ? BUDGET_LIMIT : BUDGET_ABOVE;
    return BUDGET_MANY;
}

void set_budget(struct call *call, uint32_t budget)
{
    call->kinds[BUDGETS] = budget_kind(budget);
    call->budget = budget;
}

/* The limit itself only where the run can't go in circles that paint. */
static void make_budget(struct call *call, int is_straight)
{
    if (call->kinds[LISTS] == LIST_ENDLESS || (is_straight && one_in(8)))
        set_budget(call, MOST_STEPS);
    else if (call->kinds[LISTS] == LIST_REPEATS && one_in(24))
        set_budget(call, (uint32_t)between(201, 3000));
    else if (one_in(24))
        set_budget(call, 0);
    else if (one_in(12))
        set_budget(call, 1);
    else if (one_in(3))
        set_budget(call, (uint32_t)between(2, 8));
    else
        set_budget(call, (uint32_t)between(9, one_in(4) ? 200 : 40));
}

static size_t good_bytes(const struct call *call)
{
    return (size_t)call->env.bounds.width * call->env.bounds.height;
}

static void fill_screen(struct call *call)
{
    uint32_t byte = random_bits();

    for (size_t i = 0; i < call->bytes; i++)
        call->screen[i] = (uint8_t)(byte += 37);
}

/* ---- refusals at the door ---- */

static void make_bad_budget(struct call *call)
{
    static const uint32_t budgets[] = { MOST_STEPS + 1, MOST_STEPS + 2, 0x80000000, UINT32_MAX };

    set_budget(call, budgets[below(4)]);
}

static void make_too_long(struct call *call)
{
    call->kinds[LISTS] = LIST_TOO_LONG;
    call->words = MOST_WORDS + 1 + below(LIST_ROOM - MOST_WORDS);
}

static void make_bad_bytes(struct call *call)
{
    size_t good = call->bytes;

    call->kinds[SCREENS] = between(SCREEN_SHORT, SCREEN_OTHER);
    switch (call->kinds[SCREENS]) {
    case SCREEN_SHORT:
        call->bytes = good - 1;
        break;
    case SCREEN_ONE_MORE:
        call->bytes = good + 1;
        break;
    case SCREEN_NONE:
        call->bytes = 0;
        break;
    default:
        call->bytes = good + call->env.bounds.width + 1;
    }
}

/* Breaks what one number of 10 to 14 tells of. */
static void break_by(struct call *call, int number)
{
    switch (number) {
    case 10:
        break_size(call);
        break;
    case 11:
        make_bad_bytes(call);
        break;
    case 12:
        break_field(call);
        break;
    case 13:
        make_too_long(call);
        break;
    default:
        make_bad_budget(call);
    }
}

/* After a broken size the screen has as many bytes as it says, where there is room for them. */
static void follow_size(struct call *call)
{
    if (good_bytes(call) <= 16 * MOST_SIDE)
        call->bytes = good_bytes(call);
}

/* The pair's place among "10+11", "10+12" and so on to "13+14". */
static int door_pair(int lower, int higher)
{
    static const int first_with[] = { 0, 4, 7, 9 };

    return first_with[lower - 10] + higher - lower - 1;
}

/* The higher one first, so that a pane is broken while the size is still good. */
static void make_door_pair(struct call *call)
{
    int lower = between(10, 13);
    int higher = between(lower + 1, 14);

    break_by(call, higher);
    break_by(call, lower);
    call->expected = lower;
    call->kinds[DOOR_PAIRS] = door_pair(lower, higher);
}

static void make_door_refusal(struct call *call, int number)
{
    break_by(call, number);
    if (number == 10)
        follow_size(call);
    call->expected = number;
}

/* ---- whole calls ---- */

static void start_call(struct call *call)
{
    call->expected = call->expected_check = NO_EXPECTATION;
    for (enum group group = 0; group < GROUPS; group++)
        call->kinds[group] = NOT_OF_A_KIND;
    call->kinds[CALLS] = CALL_WHOLE;
    call->kinds[SCREENS] = SCREEN_RIGHT;
}

static void make_allowed_call(struct call *call)
{
    int is_far = one_in(40);
    int is_straight;

    start_call(call);
    make_env(call, is_far);
    is_straight = make_list(call, is_far);
    make_budget(call, is_straight);
    call->bytes = good_bytes(call);
}

void make_call(struct call *call)
{
    make_allowed_call(call);
    if (one_in(16))
        make_door_pair(call);
    else if (one_in(16))
        make_door_refusal(call, between(10, 14));
    else if (one_in(8))
        make_two_refusals(call);
    else if (one_in(16))
        make_misnamed(call);
    else if (one_in(8))
        make_profile(call);
    fill_screen(call);
}

void make_good_call(struct call *call)
{
    do
        make_allowed_call(call);
    while (call->env.registers.state != RUNNING || call->kinds[LISTS] == LIST_ENDLESS);
    fill_screen(call);
}

void make_call_to_cut(struct call *call)
{
    make_allowed_call(call);
    make_whole_profile(call);
    fill_screen(call);
}

void make_call_to_slice(struct call *call)
{
    make_allowed_call(call);
    call->budget = below(61);
    if (one_in(4))
        make_door_refusal(call, between(10, 13));
    fill_screen(call);
}

void make_opcode_word_call(struct call *call, uint16_t word)
{
    make_good_call(call);
    make_list_of_word(call, word);
    call->env.registers.counter = 0;
    set_budget(call, 4);
}

/* PIXEL, INCV, and back to the PIXEL. */
void make_long_run(struct call *call)
{
    static const uint16_t loop[] = { 0x009E, 3, 2, 0x005D, 0, 0x010C, 0, 0xFFF8 };
    struct ovenlute_pane whole = { 0, 0, 6, 4 };

    start_call(call);
    call->kinds[LISTS] = LIST_LOOP;
    memcpy(call->list, loop, sizeof loop);
    call->words = sizeof loop / sizeof loop[0];
    fresh_env(&call->env, 7, 5, whole);
    set_budget(call, (uint32_t)between(70000, 200000));
    call->bytes = good_bytes(call);
    fill_screen(call);
}
