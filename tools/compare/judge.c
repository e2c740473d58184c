#include "judge.h"
#include "asked.h"
#include "libc.h"
#include "profile.h"

enum { GUARD = 64, GUARD_BYTE = 0xA5 };

/* The screens that are painted on, with bytes before and behind that nobody may touch. */
static uint8_t box_screen[GUARD + SCREEN_ROOM + GUARD];
static uint8_t reference_screen[GUARD + SCREEN_ROOM + GUARD];
static uint16_t box_list[LIST_ROOM];

static uint8_t *lay_out(uint8_t *room, const struct call *call)
{
    memset(room, GUARD_BYTE, GUARD);
    memcpy(room + GUARD, call->screen, call->bytes);
    memset(room + GUARD + call->bytes, GUARD_BYTE, GUARD);
    return room + GUARD;
}

static int guards_hold(const uint8_t *room, size_t bytes)
{
    for (size_t i = 0; i < GUARD; i++)
        if (room[i] != GUARD_BYTE || room[GUARD + bytes + i] != GUARD_BYTE)
            return 0;
    return 1;
}

static void run_box(const struct call *call, struct outcome *outcome)
{
    uint8_t *screen = lay_out(box_screen, call);
    struct ovenlute_done done;

    memcpy(box_list, call->list, call->words * sizeof box_list[0]);
    outcome->env = call->env;
    done = ovenlute_run(box_list, call->words, screen, call->bytes, &outcome->env, call->budget);
    outcome->number = done.number;
    outcome->place = done.place;
    outcome->steps = done.steps;
    outcome->screen = screen;
}

static void run_reference(const struct call *call, struct outcome *outcome)
{
    uint8_t *screen = lay_out(reference_screen, call);
    struct afgis_env env;
    struct afgis_answer answer;

    to_reference(&call->env, &env);
    answer = afgis_run(call->list, call->words, screen, call->bytes, &env, call->budget);
    from_reference(&env, &outcome->env);
    outcome->number = answer.number;
    outcome->place = answer.place;
    outcome->steps = answer.steps;
    outcome->screen = screen;
}

/* Refused at the door, or stopped or ended before: nothing may change. */
static int must_change_nothing(const struct call *call, int number)
{
    return (number >= 10 && number <= 14) || call->env.registers.state != RUNNING;
}

static int changed_nothing(const struct call *call, const struct outcome *outcome)
{
    return outcome->steps == 0 && same_env(&outcome->env, &call->env)
        && memcmp(outcome->screen, call->screen, call->bytes) == 0;
}

static const char *run_difference(const struct call *call, const struct outcome *box, const struct outcome *reference)
{
    if (box->number != reference->number)
        return "the number";
    if (box->place != reference->place)
        return "the place";
    if (box->steps != reference->steps)
        return "the steps";
    if (!same_env(&box->env, &reference->env))
        return "the environment";
    if (memcmp(box->screen, reference->screen, call->bytes) != 0)
        return "the screen";
    if (!guards_hold(box_screen, call->bytes))
        return "bytes outside the screen";
    if (memcmp(box_list, call->list, call->words * sizeof box_list[0]) != 0)
        return "the list was changed";
    if (must_change_nothing(call, box->number) && !changed_nothing(call, box))
        return "refused, and yet something was changed";
    if (call->expected != NO_EXPECTATION && box->number != call->expected)
        return "both numbers are other than the one that was to be met";
    return NULL;
}

void run_both(const struct call *call, struct verdict *verdict)
{
    run_box(call, &verdict->box);
    run_reference(call, &verdict->reference);
}

void compare_both(const struct call *call, struct verdict *verdict)
{
    verdict->checked = ovenlute_check(box_list, call->words);
    ask_who(call, box_list, verdict->writers);
    verdict->difference = run_difference(call, &verdict->box, &verdict->reference);
    if (verdict->difference == NULL)
        verdict->difference = checked_difference(call, &verdict->box, verdict->checked);
    if (verdict->difference == NULL)
        verdict->difference = who_difference(call, &verdict->box, verdict->writers);
}

void judge(const struct call *call, struct verdict *verdict)
{
    run_both(call, verdict);
    compare_both(call, verdict);
}

const char *judge_fresh(const struct request *request, int *number)
{
    static const int expected[FRESH_KINDS] = {
        [FRESH_GOOD] = 0, [FRESH_BAD_SIZE] = 10, [FRESH_BAD_PANE] = 12, [FRESH_BOTH_BAD] = 10,
    };
    const struct ovenlute_pane *pane = &request->pane;
    struct ovenlute_made made = ovenlute_fresh(request->width, request->height, *pane);
    struct ovenlute_env wanted;
    struct afgis_env env;
    int wanted_number = afgis_fresh(request->width, request->height, pane->left, pane->top, pane->right,
                                    pane->bottom, &env);

    *number = made.number;
    from_reference(&env, &wanted);
    if (made.number != wanted_number)
        return "the number";
    if (!same_env(&made.env, &wanted))
        return "the environment";
    return made.number == expected[request->kind] ? NULL : "both numbers are other than the one that was to be met";
}
