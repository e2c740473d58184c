#include "profile.h"

int is_fresh_run(const struct call *call, const struct outcome *run)
{
    return (run->number < 10 || run->number > 14) && is_fresh(&call->env);
}

int is_stopped_by_values(const struct outcome *run)
{
    return run->number >= 23 && run->number <= 26;
}

/* "Ends in exactly that many steps from a fresh environment, or is stopped earlier by one of 23 to 26"; with a smaller budget it
   is used up. */
static int goes_as_accepted(const struct outcome *run, uint32_t steps, uint32_t budget)
{
    if (is_stopped_by_values(run))
        return run->steps < steps;
    if (budget < steps)
        return run->number == 1 && run->steps == budget;
    return run->number == 0 && run->steps == steps;
}

/* "As in a run": the same number and place, unless it is stopped sooner or the budget is too small. */
static int goes_as_refused(const struct outcome *run, struct ovenlute_checked checked)
{
    if (run->number == checked.number && run->place == checked.place)
        return 1;
    return run->number == 1 || (is_stopped_by_values(run) && run->place < checked.place);
}

static int goes_as_checked(const struct call *call, const struct outcome *run, struct ovenlute_checked checked)
{
    switch (checked.number) {
    case 0:
        return goes_as_accepted(run, checked.steps, call->budget);
    case 20: case 22: case 24: case 28: case 29:
        return goes_as_refused(run, checked);
    case 31:
        return run->number == 1 || is_stopped_by_values(run);
    default:
        return 1;
    }
}

const char *checked_difference(const struct call *call, const struct outcome *run, struct ovenlute_checked checked)
{
    struct afgis_checked wanted = afgis_check(call->list, call->words);

    if (checked.number != wanted.number)
        return "the number that the list is checked with";
    if (checked.place != wanted.place)
        return "the place that the list is checked with";
    if (checked.steps != wanted.steps)
        return "the steps that the list is checked with";
    if (call->expected_check != NO_EXPECTATION && checked.number != call->expected_check)
        return "both numbers are other than the one that was to be told of the list";
    if (is_fresh_run(call, run) && !goes_as_checked(call, run, checked))
        return "the list was checked, and its run went otherwise";
    return NULL;
}
