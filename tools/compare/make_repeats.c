/* Repeats: those of an environment, and lists of blocks. */

#include "random.h"
#include "sketch.h"

enum { RPT = 0x00B7, ERPT = 0x004F, COUNTED = 1 };

/* ---- counts and open repeats ---- */

int32_t bad_count(void)
{
    static const int32_t counts[] = { 0, 1001, 1002, 0x0FFF, 0x7FFF, 0x8000, 0x8001, 0xFC18, 0xFFFE, 0xFFFF };

    return counts[below(sizeof counts / sizeof counts[0])];
}

int32_t make_count(void)
{
    if (one_in(12))
        return bad_count();
    if (one_in(8))
        return one_in(2) ? MOST_PASSES - between(0, 1) : between(1, MOST_PASSES);
    return between(1, 4);
}

struct ovenlute_repeat make_repeat(uint32_t start)
{
    struct ovenlute_repeat repeat = { start, (uint32_t)between(1, 3) };

    if (one_in(4))
        repeat.left = one_in(2) ? MOST_PASSES - below(2) : (uint32_t)between(1, MOST_PASSES);
    return repeat;
}

/* ---- lists ---- */

static void put_open(struct sketch *sketch)
{
    put_named(sketch, RPT);
}

static void put_close(struct sketch *sketch)
{
    put_opcode(sketch, ERPT);
}

/* What a pass does: mostly it counts or goes on by a little, at times it leaves the block or comes back into one. */
static void put_inside(struct sketch *sketch)
{
    static const uint16_t plain[] = { 0x005D, 0x005D, 0x0042, 0x0003, 0x0000, 0x009E, 0x0084, 0x0101 };
    static const uint16_t across[] = { 0x010A, 0x010C, 0x000E, 0x010E, 0x00B9 };

    if (one_in(10))
        put_named(sketch, across[below(sizeof across / sizeof across[0])]);
    else
        put_named(sketch, plain[below(sizeof plain / sizeof plain[0])]);
}

/* Blocks in one another or side by side, so many opened and closed, and what is between them. */
static void put_nest(struct sketch *sketch)
{
    int open = 0;

    for (uint32_t i = 2 + below(14); i > 0; i--) {
        if (one_in(3)) {
            put_open(sketch);
            open++;
        } else if (open > 0 && one_in(3)) {
            put_close(sketch);
            open--;
        } else {
            put_inside(sketch);
        }
    }
    for (; open > 0 && !one_in(24); open--)
        put_close(sketch);
    if (one_in(24))
        put_close(sketch);
}

/* As many blocks in one another as may be open, or nearly, each of few passes, and as many closed, or nearly. */
static void put_deep(struct sketch *sketch)
{
    uint32_t opened = 6 + below(5);
    uint32_t closed = opened - 1 + below(3);

    for (uint32_t i = 0; i < opened; i++) {
        put_opcode(sketch, RPT);
        put_word(sketch, one_in(16) ? make_count() : between(1, 2));
    }
    put_opcode(sketch, 0x005D);
    put_word(sketch, COUNTED);
    for (uint32_t i = 0; i < closed; i++)
        put_close(sketch);
}

/* An RPT that is jumped back to, or called, and so opens another repeat each time. */
static void put_reopened(struct sketch *sketch)
{
    static const uint16_t back[] = { 0x010A, 0x010C, 0x000E, 0x010E };

    put_open(sketch);
    put_inside(sketch);
    put_named(sketch, back[below(4)]);
    put_close(sketch);
}

/* Repeats, jumps, calls and little else, with targets everywhere. */
static void put_repeat_maze(struct sketch *sketch)
{
    static const uint16_t opcodes[] = { RPT, RPT, RPT, ERPT, ERPT, ERPT, 0x010C, 0x010A, 0x010E, 0x00B9, 0x005D, 0x0033 };

    for (uint32_t i = 4 + below(12); i > 0; i--)
        put_named(sketch, opcodes[below(sizeof opcodes / sizeof opcodes[0])]);
}

void put_repeats(struct sketch *sketch)
{
    switch (below(6)) {
    case 0:
        put_deep(sketch);
        break;
    case 1:
        put_reopened(sketch);
        break;
    case 2:
        put_repeat_maze(sketch);
        break;
    default:
        put_nest(sketch);
    }
    if (!one_in(8))
        put_end(sketch);
}
