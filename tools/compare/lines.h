/* Which kinds of lines were drawn. */
#ifndef LINES_H
#define LINES_H

#include "afgis.h"

/* Counts the line that an opcode drew, if it drew one: the environment before it was carried out, and after. */
void count_line(const uint16_t *opcode, const struct afgis_env *before, const struct afgis_env *after);

#endif
