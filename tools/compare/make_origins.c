#include "make.h"
#include "random.h"

enum { LOWEST = -32768, HIGHEST = 32767 };

static int32_t make_part(uint32_t side)
{
    switch (below(8)) {
    case 0:
        return one_in(2) ? LOWEST : HIGHEST;
    case 1:
        return between(LOWEST, HIGHEST);
    case 2:
        return 0;
    default:
        return between(-(int32_t)side, (int32_t)side);
    }
}

struct ovenlute_dot make_origin(const struct ovenlute_bounds *bounds)
{
    return (struct ovenlute_dot){ make_part(bounds->width), make_part(bounds->height) };
}

int32_t before_origin(int32_t place, int32_t origin)
{
    if ((origin == LOWEST || origin == HIGHEST) && one_in(8))
        return origin;
    return is_word(place - origin) ? place - origin : place;
}
