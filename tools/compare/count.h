/* How often each kind of call, each number and each form was met. */
#ifndef COUNT_H
#define COUNT_H

#include "call.h"

/* One more member of a group. */
void count_kind(enum group group, int member);

/* All kinds of a call, the number and the place that it came back with, and the forms on its way. */
void count_call(const struct call *call, int number, uint32_t place);

/* How many calls there were. */
uint64_t calls_counted(void);

/* Prints all counts and what was never met; returns how many kinds were never met. */
int print_counts(void);

#endif
