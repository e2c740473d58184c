/* What an opcode has drawn: its shape, where on the screen or beside it, and whether some of it may be painted. */
#ifndef DRAWN_H
#define DRAWN_H

#include "course.h"

enum shape { SHAPE_DOT, SHAPE_LINE, SHAPE_DASHED_LINE, SHAPE_FILLED_CIRCLE, SHAPE_OUTLINE, SHAPE_CLEARING };

/* A line has two points, a dot and a circle have one, which stands in both places, a clearing has none: zeros. */
struct drawn {
    enum shape shape;
    struct ends points;
    int is_seen;
};

/* Nothing where the opcode draws nothing: the environment before it was carried out, and after. */
int drawn_of(const uint16_t *opcode, const struct afgis_env *before, const struct afgis_env *after, struct drawn *drawn);

#endif
