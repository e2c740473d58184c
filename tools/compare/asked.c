#include "asked.h"

void ask_who(const struct call *call, const uint16_t *list, struct ovenlute_writer *writers)
{
    for (int i = 0; i < DOTS_ASKED; i++)
        writers[i] = ovenlute_who(list, call->words, call->env, call->budget, call->dots[i]);
}

void ask_reference_who(const struct call *call, struct afgis_writer *writers)
{
    struct afgis_dot dots[DOTS_ASKED];
    struct afgis_env env;

    to_reference(&call->env, &env);
    for (int i = 0; i < DOTS_ASKED; i++)
        dots[i] = (struct afgis_dot){ call->dots[i].x, call->dots[i].y };
    afgis_who(call->list, call->words, &env, call->budget, dots, DOTS_ASKED, writers);
}

static const char *told_difference(const struct ovenlute_writer *box, const struct afgis_writer *reference)
{
    if (box->number != reference->number)
        return "the number that is told with who painted a dot";
    if (box->step != reference->step)
        return "the step that painted a dot";
    if (box->opcode != reference->opcode)
        return "the opcode that painted a dot";
    return box->colour != reference->colour ? "the colour that a dot was painted in" : NULL;
}

/* "This step's painted dots contain it and no later step's do, within that very run": the byte is the step's, or as it was. */
static const char *run_difference(const struct call *call, const struct outcome *run, struct ovenlute_dot dot,
                                  const struct ovenlute_writer *writer)
{
    size_t pixel = (size_t)dot.y * call->env.bounds.width + (size_t)dot.x;

    if (writer->step > run->steps)
        return "a step painted a dot that the run does not have";
    if (writer->step > 0)
        return run->screen[pixel] != writer->colour ? "a step painted a dot, and the run left another colour there" : NULL;
    return run->screen[pixel] != call->screen[pixel] ? "no step painted a dot, and the run changed it" : NULL;
}

/* A run that the door refuses paints nothing; with 11 it is asked all the same. */
static int has_run(const struct outcome *run)
{
    return run->number < 10 || run->number > 14;
}

const char *who_difference(const struct call *call, const struct outcome *run, const struct ovenlute_writer *writers)
{
    struct afgis_writer wanted[DOTS_ASKED];
    const char *difference = NULL;

    ask_reference_who(call, wanted);
    for (int i = 0; i < DOTS_ASKED && difference == NULL; i++) {
        difference = told_difference(&writers[i], &wanted[i]);
        if (difference == NULL && writers[i].number == 0 && has_run(run))
            difference = run_difference(call, run, call->dots[i], &writers[i]);
    }
    return difference;
}
