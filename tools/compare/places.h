/* Where refusals are: which operand a 23 is at, and how far into a list a place is. */
#ifndef PLACES_H
#define PLACES_H

#include <stdint.h>

/* The operand words of the opcode at `opcode` that name a variable above 63, or a Vi whose followers go past it. */
void count_misnamed(const uint16_t *opcode);

/* The place of an answer 20 to 29. */
void count_place(uint32_t place);

#endif
