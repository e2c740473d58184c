/* What an environment lets a list paint: the pane and, in modes 1 and 2, only the window's columns and rows of it. */
#ifndef AREA_H
#define AREA_H

#include "afgis.h"

/* Both ends inside: nothing where left is above right, or top above bottom. */
struct area {
    int64_t left, top, right, bottom;
};

struct area area_of(const struct afgis_env *env);

/* Where on the screen the clip window is, or beside it: in mode 1 the origin moves it. */
struct area window_of(const struct afgis_env *env);

int64_t larger(int64_t a, int64_t b);

int is_empty(struct area area);

/* What is inside both. */
struct area common(struct area a, struct area b);

#endif
