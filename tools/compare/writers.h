/* Of which dots it was told who painted them, and who did. */
#ifndef WRITERS_H
#define WRITERS_H

#include "judge.h"

/* Counts what the box and the reference told of a call's dots: its run, and what was told. */
void count_writers(const struct call *call, const struct outcome *run, const struct ovenlute_writer *writers);

#endif
