/* Which origins were set and drawn under, and what they moved. */
#ifndef ORIGINS_H
#define ORIGINS_H

#include "afgis.h"

/* Counts the origin that a call's environment comes with, if it is not (0, 0). */
void count_first_origin(const struct afgis_env *env);

/* Counts what an opcode has to do with the origin: the environment before it and after, and what was answered. */
void count_origin(const uint16_t *opcode, const struct afgis_env *before, const struct afgis_env *after, struct afgis_answer answer);

#endif
