/* Which lists were checked, what was told of them, and how their runs went. */
#ifndef CHECKED_H
#define CHECKED_H

#include "judge.h"

/* Counts what the box and the reference told of a call's list: its run, and what was told. */
void count_checked(const struct call *call, const struct outcome *run, struct ovenlute_checked checked);

#endif
