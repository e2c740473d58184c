/* The way of a line: its ends, its dots in T-02's order, and which of them are drawable. */
#ifndef COURSE_H
#define COURSE_H

#include "area.h"

/* The first point given and the second, as the origin has moved them where a line was drawn. */
struct ends {
    int32_t x0, y0, x1, y1;
};

struct ends moved_ends(struct ends ends, const struct afgis_env *env);

/* The ends of the line that an opcode drew, if it drew one: the environment before it was carried out, and after. */
int ends_of(const uint16_t *opcode, const struct afgis_env *before, const struct afgis_env *after, struct ends *ends);

/* The long axis, and whether the first point given has the smaller coordinate on it or the larger. */
enum way { X_AHEAD, X_BACK, Y_AHEAD, Y_BACK, WAYS };

/* A line from its end with the smaller coordinate on the long axis. What may be painted is turned with it: left and right
   are on the long axis, top and bottom on the other. */
struct course {
    int64_t along, across, n, difference;
    struct area area;
    enum way way;
};

struct course course_of(struct ends ends, struct area area);

/* Its dots from low to high have a drawable place on the long axis, those from first to last on both: none where first is
   above last. */
struct seen {
    int64_t low, high, first, last;
};

struct seen seen_of(const struct course *course);

#endif
