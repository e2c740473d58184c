#include "check.h"
#include "count.h"
#include "libc.h"
#include "make.h"
#include "random.h"
#include "repeats.h"
#include "shrink.h"
#include "slices.h"

/* What calls one after the other came to: the last number and place, the steps of all, and in the call what was left. */
struct sum {
    struct call call;
    int number;
    uint32_t place;
    uint32_t steps;
};

/* ---- calls one after the other ---- */

static void start(struct sum *sum, const struct call *call, int kind)
{
    copy_call(&sum->call, call);
    sum->call.kinds[CALLS] = kind;
    sum->number = 1;
    sum->place = 0;
    sum->steps = 0;
}

static void add_call(struct sum *sum, uint32_t budget)
{
    struct verdict verdict;

    set_budget(&sum->call, budget);
    check_call(&sum->call, &verdict);
    sum->number = verdict.box.number;
    sum->place = verdict.box.place;
    sum->steps += verdict.box.steps;
    go_on(&sum->call, &verdict);
    if (sum->number == 1 && sum->call.kinds[CALLS] == CALL_SLICE)
        count_sliced_repeat(&sum->call);
}

static uint32_t next_slice(int kind)
{
    return kind == SLICES_OF_1 ? 1 : kind == SLICES_OF_7 ? 7 : below(13);
}

/* All of a budget. Behind the list's end or refusal the rest may come at once; slices of any size may end with some of 0. */
static void add_slices(struct sum *sum, int kind, uint32_t budget)
{
    do {
        uint32_t slice = next_slice(kind);
        if (slice > budget || (sum->number != 1 && one_in(2)))
            slice = budget;
        add_call(sum, slice);
        budget -= slice;
    } while (budget > 0 || (kind == SLICES_OF_ANY_SIZE && one_in(3)));
}

/* ---- what must be the same ---- */

static const char *difference(const struct sum *a, const struct sum *b)
{
    if (a->number != b->number)
        return "the number";
    if (a->place != b->place)
        return "the place";
    if (a->steps != b->steps)
        return "the steps";
    if (!same_env(&a->call.env, &b->call.env))
        return "the environment";
    return memcmp(a->call.screen, b->call.screen, a->call.bytes) != 0 ? "the screen" : NULL;
}

static void hold_same(const struct sum *other, const struct sum *whole, const struct call *call, const char *what)
{
    const char *differs = difference(other, whole);

    if (differs != NULL && is_shown()) {
        printf("difference: %s of %s and of one call: numbers %d and %d, steps %u and %u\n", differs, what, other->number,
               whole->number, (unsigned)other->steps, (unsigned)whole->steps);
        print_call(call);
    }
}

/* What was run in slices: by the number at the door, by the state before, by the answer. */
static int sliced_kind(const struct call *call, int number)
{
    if (number >= 10 && number <= 13)
        return SLICED_REFUSED_10 + number - 10;
    if (call->env.registers.state != RUNNING)
        return call->env.registers.state == HAS_ENDED ? SLICED_HAD_ENDED : SLICED_WAS_STOPPED;
    return number == 0 ? SLICED_ENDS : number == 1 ? SLICED_RUNS_ON : SLICED_STOPS;
}

void check_slices(void)
{
    static const char *const names[SLICES_KINDS] = { "slices of 1", "slices of 7", "slices" };
    static struct call call;
    static struct sum whole, other;

    make_call_to_slice(&call);
    start(&whole, &call, CALL_WHOLE);
    add_call(&whole, call.budget);
    count_kind(SLICED, sliced_kind(&call, whole.number));
    for (int kind = 0; kind < SLICES_KINDS; kind++) {
        start(&other, &call, CALL_SLICE);
        add_slices(&other, kind, call.budget);
        count_kind(SLICES, kind);
        hold_same(&other, &whole, &call, names[kind]);
    }
    if (whole.number != 1) {
        start(&other, &call, CALL_LARGER);
        add_call(&other, one_in(2) ? MOST_STEPS : call.budget + 1 + below(100));
        hold_same(&other, &whole, &call, "a larger budget");
    }
}
