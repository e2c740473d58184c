/* Which kinds of dashed lines were drawn, and which lines were refused. */
#ifndef DASHES_H
#define DASHES_H

#include "afgis.h"

enum { DASHED = 1 };

/* The type of an opcode's line, if it has one: the environment before it. */
int line_type(const uint16_t *opcode, const struct afgis_env *before, int32_t *type);

/* Which kind of pattern it is. */
int pattern_kind(uint32_t pattern);

/* Counts the line of an opcode, if it is one of type 1 that was drawn, or one that was refused with 24 or 25: the environment
   before it and after, and what was answered. */
void count_dash(const uint16_t *opcode, const struct afgis_env *before, const struct afgis_env *after,
                struct afgis_answer answer);

#endif
