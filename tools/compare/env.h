/* The environment of include/ovenlute.h field by field, and its way to the reference's and back. */
#ifndef ENV_H
#define ENV_H

#include "afgis.h"
#include "ovenlute.h"

/* Every field but the variables, the stack and the repeats. */
enum field {
    WIDTH, HEIGHT, LEFT, TOP, RIGHT, BOTTOM,
    POSITION_X, POSITION_Y, ORIGIN_X, ORIGIN_Y, WINDOW_X0, WINDOW_Y0, WINDOW_X1, WINDOW_Y1,
    MODE, PATTERN, FIRST, SECOND, COUNTER, DEPTH, NESTING, PLACE, COLOUR, STATE,
    FIELDS
};

enum { VARIABLES = 64, RETURNS = 16, REPEATS = 8, MOST_PASSES = 1000, RUNNING = 0, HAS_ENDED = 1 };

const char *field_name(enum field field);
int64_t get_field(const struct ovenlute_env *env, enum field field);
void set_field(struct ovenlute_env *env, enum field field, int64_t value);

int is_word(int64_t value);

/* How many stacked indices count: none past the depth. */
uint32_t stacked(const struct ovenlute_env *env);

/* The same of repeats: none past the nesting. */
uint32_t repeated(const struct ovenlute_env *env);

/* True when every field that is part of the environment is the same. */
int same_env(const struct ovenlute_env *a, const struct ovenlute_env *b);

/* The fresh environment of a good size and pane. */
void fresh_env(struct ovenlute_env *env, uint32_t width, uint32_t height, struct ovenlute_pane pane);

/* True of one that is as fresh as its size and pane allow. */
int is_fresh(const struct ovenlute_env *env);

void to_reference(const struct ovenlute_env *from, struct afgis_env *to);
void from_reference(const struct afgis_env *from, struct ovenlute_env *to);

#endif
