/* T-09's profile: what the box's checker must say of a list, and what a run of the list must then come to. */
#ifndef PROFILE_H
#define PROFILE_H

#include "judge.h"

/* The run's answer says something of what was checked: no door refused it, and its environment is fresh. */
int is_fresh_run(const struct call *call, const struct outcome *run);

/* A run is stopped with one of 23 to 26, which hang on what variables hold. */
int is_stopped_by_values(const struct outcome *run);

/* What is wrong about what the box says of a call's list, against the reference and against the box's own run; or NULL. */
const char *checked_difference(const struct call *call, const struct outcome *run, struct ovenlute_checked checked);

#endif
