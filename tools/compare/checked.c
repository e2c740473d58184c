#include "checked.h"
#include "count.h"
#include "forms.h"
#include "profile.h"
#include "repeats.h"

enum { EODL = 0x0001, ERPT = 0x004F, RPT = 0x00B7 };

/* ---- how far a list is sound ---- */

/* Before an index that an opcode begins at, or behind the EODL: the opcode before, how many blocks are open, and how many were at
   most. */
struct walk {
    uint16_t last;
    int open, deepest;
};

static struct walk walk_to(const struct call *call, size_t index)
{
    struct walk walk = { 0, 0, 0 };

    for (size_t at = 0; at < index && walk.last != EODL; at += form_words(&forms[form_of(walk.last)])) {
        walk.last = call->list[at];
        walk.open += walk.last == RPT;
        walk.open -= walk.last == ERPT;
        walk.deepest = walk.open > walk.deepest ? walk.open : walk.deepest;
    }
    return walk;
}

/* ---- accepted ---- */

static int steps_kind(uint32_t steps)
{
    if (steps <= 1000)
        return steps == 1 ? STEPS_1 : STEPS_TO_1000;
    return steps == MOST_STEPS ? STEPS_MILLION : STEPS_ABOVE_1000;
}

/* The EODL that is read first is the last word, or it is not. */
static int end_kind(const struct call *call)
{
    if (walk_to(call, call->words - 1).last == EODL)
        return EODL_AND_WORDS;
    return call->words == MOST_WORDS ? EODL_LAST_OF_LONGEST : EODL_LAST;
}

static void count_accepted(const struct call *call, uint32_t steps)
{
    count_kind(CHECKED_STEPS, steps_kind(steps));
    count_kind(CHECKED_DEPTHS, walk_to(call, call->words).deepest);
    count_kind(CHECKED_ENDS, end_kind(call));
}

/* ---- refused ---- */

static int foreign_kind(uint16_t opcode, size_t left)
{
    int form = form_of(opcode);
    int is_cut = form >= 0 && left < form_words(&forms[form]);

    if (form < 0)
        return FOREIGN_NONE;
    if (opcode == 0x00B9)
        return FOREIGN_RETURN;
    if (opcode == 0x010A || opcode == 0x010C)
        return is_cut ? FOREIGN_JUMP_CUT : FOREIGN_JUMP;
    return is_cut ? FOREIGN_CALL_CUT : FOREIGN_CALL;
}

static void count_foreign(const struct call *call, size_t place)
{
    count_kind(CHECKED_21, foreign_kind(call->list[place], call->words - place));
    if (walk_to(call, place).open > 0)
        count_kind(CHECKED_21, FOREIGN_INSIDE);
}

static int ended_kind(const struct walk *walk, size_t words)
{
    if (words == 0)
        return CUT_NO_WORDS;
    if (walk->last == RPT)
        return CUT_BEHIND_RPT;
    return walk->open > 0 ? CUT_INSIDE : CUT_OUTSIDE;
}

static int cut_kind(const struct walk *walk, uint16_t opcode)
{
    if (opcode == RPT)
        return walk->open == REPEATS ? CUT_NINTH_RPT : CUT_RPT;
    return walk->open > 0 ? CUT_OPCODE_INSIDE : CUT_OPCODE;
}

/* 20 is told of the place behind the last word. */
static void count_cut(const struct call *call, size_t place)
{
    struct walk walk = walk_to(call, place);

    count_kind(CHECKED_CUTS, place == call->words ? ended_kind(&walk, place) : cut_kind(&walk, call->list[place]));
    if (place >= MOST_WORDS - 1)
        count_kind(CHECKED_CUTS, place == MOST_WORDS ? CUT_AT_65536 : CUT_AT_65535);
}

static void count_bad_count(const struct call *call, size_t place)
{
    count_kind(CHECKED_COUNTS, refused_count(call->list[place + 1]) - REFUSED_COUNT_0);
    if (walk_to(call, place).open == REPEATS)
        count_kind(CHECKED_COUNTS, CHECKED_COUNT_OF_NINTH);
}

/* ---- the runs ---- */

static int accepted_run_kind(const struct outcome *run)
{
    if (is_stopped_by_values(run))
        return RUN_STOPS_23 + run->number - 23;
    if (run->number == 1)
        return RUN_SHORT;
    return run->steps == MOST_STEPS ? RUN_ENDS_IN_MILLION : RUN_ENDS;
}

static int refused_run_kind(const struct outcome *run, struct ovenlute_checked checked)
{
    static const int alike[] = { [20] = RUN_REFUSED_20, [22] = RUN_REFUSED_22, [24] = RUN_REFUSED_24, [28] = RUN_REFUSED_28,
                                 [29] = RUN_REFUSED_29 };

    if (run->number == checked.number && run->place == checked.place)
        return alike[run->number];
    return run->number == 1 ? RUN_NOT_YET : RUN_REFUSED_SOONER;
}

static void count_run(const struct outcome *run, struct ovenlute_checked checked)
{
    switch (checked.number) {
    case 0:
        count_kind(CHECKED_RUNS, accepted_run_kind(run));
        break;
    case 20: case 22: case 24: case 28: case 29:
        count_kind(CHECKED_RUNS, refused_run_kind(run, checked));
        break;
    case 31:
        if (run->number == 1 && run->steps == MOST_STEPS)
            count_kind(CHECKED_RUNS, RUN_ON_AND_ON);
        break;
    }
}

/* ---- all of it ---- */

static void count_told(const struct call *call, struct ovenlute_checked checked)
{
    switch (checked.number) {
    case 0:
        count_accepted(call, checked.steps);
        break;
    case 20: case 22:
        count_cut(call, checked.place);
        break;
    case 21:
        count_foreign(call, checked.place);
        break;
    case 24:
        count_bad_count(call, checked.place);
        break;
    }
}

void count_checked(const struct call *call, const struct outcome *run, struct ovenlute_checked checked)
{
    static const int numbers[] = { 0, 13, 20, 21, 22, 24, 28, 29, 30, 31 };

    for (int i = 0; i < (int)(sizeof numbers / sizeof numbers[0]); i++)
        if (checked.number == numbers[i])
            count_kind(CHECKED, i);
    count_told(call, checked);
    if (is_fresh_run(call, run))
        count_run(run, checked);
}
