/* Runs the box and the reference on the same call, has both check its list and tell who painted its dots, and compares the whole
   answers. */
#ifndef JUDGE_H
#define JUDGE_H

#include "call.h"
#include "make.h"

struct outcome {
    int number;
    uint32_t place;
    uint32_t steps;
    struct ovenlute_env env;
    const uint8_t *screen;  /* as many bytes as the call has; kept until the next call is judged */
};

struct verdict {
    struct outcome box, reference;
    struct ovenlute_checked checked;  /* what the box says of the list */
    struct ovenlute_writer writers[DOTS_ASKED];  /* and of the call's dots */
    const char *difference;  /* what is wrong, or NULL */
};

/* The run alone; then the call's dots can be made. */
void run_both(const struct call *call, struct verdict *verdict);

/* What is asked of a call that was run: its list and its dots; and the verdict. */
void compare_both(const struct call *call, struct verdict *verdict);

void judge(const struct call *call, struct verdict *verdict);

/* What is wrong about ovenlute_fresh's answer, or NULL; sets the box's number. */
const char *judge_fresh(const struct request *request, int *number);

#endif
