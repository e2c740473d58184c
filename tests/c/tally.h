/* What was checked, and how much of it failed. */
#ifndef TALLY_H
#define TALLY_H

#include "libc.h"

static int failed;
static int checked;

/* One thing checked; what is wrong, or NULL. */
static void check(const char *name, const char *wrong)
{
    checked++;
    if (wrong == NULL)
        return;
    failed++;
    printf("case %s: %s\n", name, wrong);
}

#endif
