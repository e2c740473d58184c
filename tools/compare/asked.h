/* Who painted a dot: ovenlute_who against the reference's record of step numbers, and against the call's own run. */
#ifndef ASKED_H
#define ASKED_H

#include "judge.h"

/* What the box tells of the call's dots, and what the reference does. */
void ask_who(const struct call *call, const uint16_t *list, struct ovenlute_writer *writers);
void ask_reference_who(const struct call *call, struct afgis_writer *writers);

/* What is wrong about what the box told, or NULL: the call's run as the box made it. */
const char *who_difference(const struct call *call, const struct outcome *run, const struct ovenlute_writer *writers);

#endif
