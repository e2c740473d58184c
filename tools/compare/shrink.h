/* Makes a call that shows a difference as small as can be found, and prints it. */
#ifndef SHRINK_H
#define SHRINK_H

#include "judge.h"

/* Changes the call to a smaller one on which box and reference still differ. */
void shrink(struct call *call);

/* Prints the call in full. */
void print_call(const struct call *call);

/* Prints it with both answers. */
void print_difference(const struct call *call);

#endif
