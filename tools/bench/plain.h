/* A plain C interpreter of the opcodes that the benchmark uses, written for speed as far as plain code goes. */
#ifndef PLAIN_H
#define PLAIN_H

#include "afgis.h"

/* As afgis_run, for INCV, CPIV, JUMPR, RPT, ERPT, LINE, LINEPATN, PIXEL, CIR, CIRS, XYORG, CLIPMODE, CLIPWIN, CLRWIN and EODL;
   the environment is a good one. */
struct afgis_answer plain_run(const uint16_t *list, size_t words, uint8_t *screen, size_t bytes,
                              struct afgis_env *env, uint32_t budget);

/* As afgis_who for one dot of the screen, for the same opcodes: the interpreter of plain_run, which asks of each opcode that paints
   whether the dot is one of its dots. */
struct afgis_writer plain_who(const uint16_t *list, size_t words, struct afgis_env env, uint32_t budget, struct afgis_dot dot);

#endif
