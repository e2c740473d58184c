/* Which kinds of circles were drawn, and which were refused. */
#ifndef CIRCLES_H
#define CIRCLES_H

#include "area.h"

/* As an opcode gives it, or as the origin has moved it. */
struct circle {
    int64_t type, x, y, radius;
};

/* The circle that an opcode gives, if it gives one: the environment before it. */
int circle_of(const uint16_t *opcode, const struct afgis_env *before, struct circle *circle);

struct circle moved_circle(struct circle circle, const struct afgis_env *env);

/* Some dot of the filled circle is in the area. */
int meets(const struct circle *circle, struct area area);

/* Counts the circle of an opcode, if it is one that was drawn or refused with 24 or 25: the environment before it, and what was
   answered. */
void count_circle(const uint16_t *opcode, const struct afgis_env *before, struct afgis_answer answer);

#endif
