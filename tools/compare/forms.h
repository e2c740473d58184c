/* The 47 forms of document 01's base and 02's ten, of circles, of the line pattern, of the origin and of repeats, as the makers
   of lists and the counts need them. */
#ifndef FORMS_H
#define FORMS_H

#include <stdint.h>

/*
 * Letters: l long, w word, v variable number, i number of the first of several variables,
 * c condition, a bit address (long), r offset in words, m mode,
 * x and y coordinates, d offset in dots, o colour (long), p line pattern (long),
 * t a line's type, e and f its first point, across and down, g and j its second, s and z the way from the one to the other,
 * u a circle's type, h and k its centre, across and down, q its radius, b and n the origin, across and down, P a repeat's passes.
 */
struct form {
    uint16_t opcode;
    const char *name;
    const char *operands;  /* the operand words in the list */
    const char *implied;   /* V forms: what the variables from i on hold */
    const char *refusals;  /* which of 22 to 29 it can meet: their last digits */
};

enum { FORMS = 57 };

extern const struct form forms[FORMS];

/* An operand of this letter in the list is two words. */
int is_long(char operand);

/* The opcode and its operands. */
uint32_t form_words(const struct form *form);

/* The form's place in the table, or -1. */
int form_of(uint16_t opcode);

#endif
