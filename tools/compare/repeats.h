/* Which repeats were opened, gone back in and closed, and what came between. */
#ifndef REPEATS_H
#define REPEATS_H

#include "call.h"

/* Counts the repeats that a call's environment comes with. */
void count_open_repeats(const struct afgis_env *env);

/* Counts what an opcode has to do with repeats: the environment before it and after, and what was answered. */
void count_repeat(const uint16_t *opcode, const struct afgis_env *before, const struct afgis_env *after, struct afgis_answer answer);

/* Which of the kinds of counts that aren't allowed this one is. */
int refused_count(uint16_t count);

/* Counts a slice that ended with a repeat open: the call as it goes on from there. */
void count_sliced_repeat(const struct call *call);

#endif
