/* Calls checked one after the other: judged, counted, and shown as small as can be where box and reference differ. */
#ifndef CHECK_H
#define CHECK_H

#include "judge.h"

/* Counts a difference; true for the first few, which are shown. */
int is_shown(void);

unsigned long long differences_counted(void);

/* Makes the call's dots too, when it has run. */
void check_call(struct call *call, struct verdict *verdict);

/* The call goes on from what the box left. */
void go_on(struct call *call, const struct verdict *verdict);

#endif
