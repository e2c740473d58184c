/* T-14's walk, opcode after opcode, by the table of forms: what it meets in a list, and that it meets nothing once that is mended. */
#ifndef WALKED_H
#define WALKED_H

#include "make.h"

/* Counts what the walk of a list meets. */
void count_walk(const struct damaged *damaged);

/* "Such a walk meets nothing unknown or cut": by the table and by the box's own run, opcode by opcode; what is wrong, or NULL. */
const char *walk_difference(const uint16_t *list, size_t words);

/* Prints how often each form was passed and how often cut by the end, by the words that were there; returns how many of these were
   never met. */
int print_walks(void);

#endif
