/*
 * The fourteen cases of docs/RULES.md with their variants, requests T-01's to T-04's, T-06's and T-09's, a line that is mostly
 * outside, places of refusals, the numbers 10 to 14, lists that are checked, and what the header says of NULL and of its limits,
 * through the C face of the box. Each answer is checked whole: number, place, steps, every field of the environment, every byte.
 */

#include "libc.h"
#include "ovenlute.h"
#include "tally.h"

enum { WIDTH = 5, HEIGHT = 3, BYTES = WIDTH * HEIGHT, MOST_WORDS = 24, MOST_CHANGES = 6 };

/* The fields that a case leaves other than fresh. */
enum change {
    NOTHING, VARIABLE, POSITION_X, POSITION_Y, ORIGIN_X, ORIGIN_Y, COUNTER, DEPTH, STACKED, NESTING, START, LEFT, PLACE, MODE,
    PATTERN, COLOUR, FIRST, SECOND, STATE
};

struct changed {
    enum change what;
    int which;      /* the variable's number, the stacked index's or the repeat's; -1 for all that are stacked or open */
    int32_t value;
};

struct test {
    const char *name;
    size_t words;
    uint16_t list[MOST_WORDS];
    uint32_t budget;
    struct ovenlute_pane pane;
    uint8_t number;
    uint32_t steps;
    struct changed changes[MOST_CHANGES];
    const char *screen;  /* row by row: . is 0, # is 15, 7 is 7 */
};

#define WHOLE { 0, 0, WIDTH - 1, HEIGHT - 1 }
#define BLANK "....." "....." "....."

static const struct test tests[] = {
    { "1", 0, { 0 }, 100, WHOLE, 20, 0, { { STATE, 0, 20 } }, BLANK },
    { "1, budget 0", 0, { 0 }, 0, WHOLE, 1, 0, { { NOTHING, 0, 0 } }, BLANK },
    { "2", 1, { 0x0001 }, 100, WHOLE, 0, 1, { { COUNTER, 0, 1 }, { STATE, 0, 1 } }, BLANK },
    { "2, budget 1", 1, { 0x0001 }, 1, WHOLE, 0, 1, { { COUNTER, 0, 1 }, { STATE, 0, 1 } }, BLANK },
    { "2, budget 0", 1, { 0x0001 }, 0, WHOLE, 1, 0, { { NOTHING, 0, 0 } }, BLANK },
    { "3", 7, { 0x0066, 0xFFFF, 0x7FFF, 0x0000, 0x005D, 0x0000, 0x0001 }, 100, WHOLE, 0, 3,
      { { VARIABLE, 0, INT32_MIN }, { COUNTER, 0, 7 }, { STATE, 0, 1 } }, BLANK },
    { "4", 7, { 0x0066, 0x0000, 0x0001, 0x0005, 0x0083, 0x0004, 0x0001 }, 100, WHOLE, 25, 1,
      { { VARIABLE, 5, 65536 }, { COUNTER, 0, 4 }, { PLACE, 0, 4 }, { STATE, 0, 25 } }, BLANK },
    { "4, budget 1", 7, { 0x0066, 0x0000, 0x0001, 0x0005, 0x0083, 0x0004, 0x0001 }, 1, WHOLE, 1, 1,
      { { VARIABLE, 5, 65536 }, { COUNTER, 0, 4 } }, BLANK },
    { "5", 10, { 0x0065, 0xFFF9, 0x0000, 0x0065, 0x0002, 0x0001, 0x0045, 0x0001, 0x0000, 0x0001 }, 100, WHOLE, 0, 4,
      { { VARIABLE, 0, -3 }, { VARIABLE, 1, 2 }, { COUNTER, 0, 10 }, { STATE, 0, 1 } }, BLANK },
    { "5 with 0081", 10, { 0x0065, 0xFFF9, 0x0000, 0x0065, 0x0002, 0x0001, 0x0081, 0x0001, 0x0000, 0x0001 }, 100, WHOLE,
      0, 4, { { VARIABLE, 0, -1 }, { VARIABLE, 1, 2 }, { COUNTER, 0, 10 }, { STATE, 0, 1 } }, BLANK },
    { "5, budget 2", 10, { 0x0065, 0xFFF9, 0x0000, 0x0065, 0x0002, 0x0001, 0x0045, 0x0001, 0x0000, 0x0001 }, 2, WHOLE,
      1, 2, { { VARIABLE, 0, -7 }, { VARIABLE, 1, 2 }, { COUNTER, 0, 6 } }, BLANK },
    { "6", 3, { 0x0045, 0x0001, 0x0000 }, 100, WHOLE, 26, 0, { { STATE, 0, 26 } }, BLANK },
    { "6 with 0081", 3, { 0x0081, 0x0001, 0x0000 }, 100, WHOLE, 26, 0, { { STATE, 0, 26 } }, BLANK },
    { "7", 3, { 0x0003, 0x0040, 0x0000 }, 100, WHOLE, 23, 0, { { PLACE, 0, 1 }, { STATE, 0, 23 } }, BLANK },
    { "7 with 003F", 3, { 0x0003, 0x003F, 0x0000 }, 100, WHOLE, 20, 1,
      { { COUNTER, 0, 3 }, { PLACE, 0, 3 }, { STATE, 0, 20 } }, BLANK },
    { "7 with its destination above 63", 4, { 0x0000, 0x0003, 0x0000, 0x0040 }, 100, WHOLE, 23, 1,
      { { COUNTER, 0, 1 }, { PLACE, 0, 3 }, { STATE, 0, 23 } }, BLANK },
    { "followers above 63", 3, { 0x0000, 0x0075, 0x003C }, 100, WHOLE, 23, 1,
      { { COUNTER, 0, 1 }, { PLACE, 0, 2 }, { STATE, 0, 23 } }, BLANK },
    { "8", 2, { 0x0066, 0x0000 }, 100, WHOLE, 22, 0, { { STATE, 0, 22 } }, BLANK },
    { "9", 7, { 0x0074, 0x0000, 0x0000, 0x0000, 0x0004, 0x0002, 0x0001 }, 100, WHOLE, 0, 2,
      { { COUNTER, 0, 7 }, { STATE, 0, 1 } }, "#...." ".##.." "...##" },
    { "9 from the other end", 7, { 0x0074, 0x0000, 0x0004, 0x0002, 0x0000, 0x0000, 0x0001 }, 100, WHOLE, 0, 2,
      { { COUNTER, 0, 7 }, { STATE, 0, 1 } }, "#...." ".##.." "...##" },
    { "9 rubbed out from the other end", 16,
      { 0x0074, 0x0000, 0x0000, 0x0000, 0x0004, 0x0002, 0x001F, 0x0000, 0x0000, 0x0074, 0x0000, 0x0004, 0x0002, 0x0000,
        0x0000, 0x0001 },
      100, WHOLE, 0, 4, { { COLOUR, 0, 0 }, { COUNTER, 0, 16 }, { STATE, 0, 1 } }, BLANK },
    { "T-01, a filled circle in a pane", 6, { 0x0014, 0x0000, 0x0002, 0x0001, 0x0002, 0x0001 }, 100, { 2, 0, 4, 2 }, 0, 2,
      { { COUNTER, 0, 6 }, { STATE, 0, 1 } }, "..##." "..###" "..##." },
    { "T-01, an outline", 6, { 0x0012, 0x0000, 0x0002, 0x0001, 0x0002, 0x0001 }, 100, WHOLE, 0, 2,
      { { COUNTER, 0, 6 }, { STATE, 0, 1 } }, ".#.#." "#...#" ".#.#." },
    { "T-01, type 1 and radius 32,768", 9,
      { 0x0065, 0x0001, 0x0000, 0x0066, 0x8000, 0x0000, 0x0003, 0x0015, 0x0000 }, 100, WHOLE, 24, 2,
      { { VARIABLE, 0, 1 }, { VARIABLE, 3, 32768 }, { COUNTER, 0, 7 }, { PLACE, 0, 7 }, { STATE, 0, 24 } }, BLANK },
    { "T-01, radius -1", 5, { 0x0014, 0x0000, 0x0000, 0x0000, 0xFFFF }, 100, WHOLE, 25, 0, { { STATE, 0, 25 } }, BLANK },
    { "T-02, a line that falls", 7, { 0x0074, 0x0000, 0x0000, 0x0002, 0x0004, 0x0000, 0x0001 }, 100, WHOLE, 0, 2,
      { { COUNTER, 0, 7 }, { STATE, 0, 1 } }, "....#" "..##." "##..." },
    { "T-03, a fresh pattern", 7, { 0x0074, 0x0001, 0x0000, 0x0000, 0x0004, 0x0002, 0x0001 }, 100, WHOLE, 0, 2,
      { { COUNTER, 0, 7 }, { STATE, 0, 1 } }, "#...." ".##.." "...##" },
    { "T-03, a dashed line from either end", 16,
      { 0x0078, 0x000B, 0x0000, 0x0074, 0x0001, 0x0000, 0x0000, 0x0004, 0x0000, 0x0074, 0x0001, 0x0004, 0x0002, 0x0000,
        0x0002, 0x0001 },
      100, WHOLE, 0, 4, { { PATTERN, 0, 11 }, { COUNTER, 0, 16 }, { STATE, 0, 1 } }, "##.#." "....." ".#.##" },
    { "T-03, a dashed line in a pane", 10,
      { 0x0078, 0x000B, 0x0000, 0x0074, 0x0001, 0x0000, 0x0000, 0x0004, 0x0002, 0x0001 }, 100, { 2, 0, 4, 2 }, 0, 3,
      { { PATTERN, 0, 11 }, { COUNTER, 0, 10 }, { STATE, 0, 1 } }, "....." "....." "...#." },
    { "T-03, type 2", 6, { 0x0074, 0x0002, 0x0000, 0x0000, 0x0004, 0x0002 }, 100, WHOLE, 24, 0, { { STATE, 0, 24 } }, BLANK },
    { "T-03, LINEPATNV of V64", 3, { 0x0000, 0x0079, 0x0040 }, 100, WHOLE, 23, 1,
      { { COUNTER, 0, 1 }, { PLACE, 0, 2 }, { STATE, 0, 23 } }, BLANK },
    { "T-06, a line from an origin", 10,
      { 0x0100, 0x0001, 0xFFFF, 0x0074, 0x0000, 0x0000, 0x0000, 0x0004, 0x0002, 0x0001 }, 100, WHOLE, 0, 3,
      { { ORIGIN_X, 0, 1 }, { ORIGIN_Y, 0, -1 }, { COUNTER, 0, 10 }, { STATE, 0, 1 } }, "..##." "....#" "....." },
    { "T-06, the position stays logical", 8, { 0x0100, 0x0002, 0x0001, 0x007C, 0x0000, 0x0002, 0x0000, 0x0001 }, 100, WHOLE, 0, 3,
      { { POSITION_X, 0, 2 }, { ORIGIN_X, 0, 2 }, { ORIGIN_Y, 0, 1 }, { COUNTER, 0, 8 }, { STATE, 0, 1 } },
      "....." "..###" "....." },
    { "T-06, a window of mode 1 is moved", 10,
      { 0x0016, 0x0001, 0x0100, 0x0003, 0xFFFF, 0x0188, 0x0007, 0x0000, 0x0000, 0x0001 }, 100, WHOLE, 0, 4,
      { { MODE, 0, 1 }, { ORIGIN_X, 0, 3 }, { ORIGIN_Y, 0, -1 }, { COUNTER, 0, 10 }, { STATE, 0, 1 } }, "...77" "...77" "....." },
    { "T-06, a window of mode 2 is not", 10,
      { 0x0016, 0x0002, 0x0100, 0x0003, 0xFFFF, 0x0188, 0x0007, 0x0000, 0x0000, 0x0001 }, 100, WHOLE, 0, 4,
      { { MODE, 0, 2 }, { ORIGIN_X, 0, 3 }, { ORIGIN_Y, 0, -1 }, { COUNTER, 0, 10 }, { STATE, 0, 1 } }, "77777" "77777" "77777" },
    { "T-06, the pane stays", 10,
      { 0x0100, 0x0001, 0x0000, 0x0074, 0x0000, 0x0000, 0x0000, 0x0004, 0x0002, 0x0001 }, 100, { 2, 0, 4, 2 }, 0, 3,
      { { ORIGIN_X, 0, 1 }, { COUNTER, 0, 10 }, { STATE, 0, 1 } }, "....." "..##." "....#" },
    { "T-06, sums of -65,536", 7, { 0x0100, 0x8000, 0x8000, 0x009E, 0x8000, 0x8000, 0x0001 }, 100, WHOLE, 0, 3,
      { { ORIGIN_X, 0, -32768 }, { ORIGIN_Y, 0, -32768 }, { COUNTER, 0, 7 }, { STATE, 0, 1 } }, BLANK },
    { "T-06, XYORGV of x = 65,536", 6, { 0x0066, 0x0000, 0x0001, 0x0000, 0x0101, 0x0000 }, 100, WHOLE, 25, 1,
      { { VARIABLE, 0, 65536 }, { COUNTER, 0, 4 }, { PLACE, 0, 4 }, { STATE, 0, 25 } }, BLANK },
    { "T-06, XYORGV of V63", 3, { 0x0000, 0x0101, 0x003F }, 100, WHOLE, 23, 1,
      { { COUNTER, 0, 1 }, { PLACE, 0, 2 }, { STATE, 0, 23 } }, BLANK },
    { "T-09, three passes", 6, { 0x00B7, 0x0003, 0x005D, 0x0001, 0x004F, 0x0001 }, 100, WHOLE, 0, 8,
      { { VARIABLE, 1, 3 }, { COUNTER, 0, 6 }, { STATE, 0, 1 } }, BLANK },
    { "T-09, in the second of three passes", 6, { 0x00B7, 0x0003, 0x005D, 0x0001, 0x004F, 0x0001 }, 4, WHOLE, 1, 4,
      { { VARIABLE, 1, 2 }, { COUNTER, 0, 4 }, { NESTING, 0, 1 }, { START, 0, 2 }, { LEFT, 0, 2 } }, BLANK },
    { "T-09, one pass of nothing", 4, { 0x00B7, 0x0001, 0x004F, 0x0001 }, 100, WHOLE, 0, 3,
      { { COUNTER, 0, 4 }, { STATE, 0, 1 } }, BLANK },
    { "T-09, 1,000 passes", 6, { 0x00B7, 0x03E8, 0x005D, 0x0000, 0x004F, 0x0001 }, 2002, WHOLE, 0, 2002,
      { { VARIABLE, 0, 1000 }, { COUNTER, 0, 6 }, { STATE, 0, 1 } }, BLANK },
    { "T-09, a block in a block", 11,
      { 0x00B7, 0x0002, 0x00B7, 0x0003, 0x005D, 0x0000, 0x004F, 0x005D, 0x0001, 0x004F, 0x0001 }, 100, WHOLE, 0, 20,
      { { VARIABLE, 0, 6 }, { VARIABLE, 1, 2 }, { COUNTER, 0, 11 }, { STATE, 0, 1 } }, BLANK },
    { "T-09, three dots of a repeat", 10,
      { 0x00B7, 0x0003, 0x009F, 0x0000, 0x005D, 0x0000, 0x005D, 0x0001, 0x004F, 0x0001 }, 100, WHOLE, 0, 14,
      { { VARIABLE, 0, 3 }, { VARIABLE, 1, 3 }, { COUNTER, 0, 10 }, { STATE, 0, 1 } }, "#...." ".#..." "..#.." },
    { "T-09, a jump out leaves the block open", 7, { 0x00B7, 0x0002, 0x010C, 0x0000, 0x0001, 0x004F, 0x0001 }, 100, WHOLE, 0, 3,
      { { COUNTER, 0, 7 }, { NESTING, 0, 1 }, { START, 0, 2 }, { LEFT, 0, 2 }, { STATE, 0, 1 } }, BLANK },
    { "T-09, RTRN leaves the block open", 6, { 0x010E, 0x0001, 0x0001, 0x00B7, 0x0002, 0x00B9 }, 100, WHOLE, 0, 4,
      { { COUNTER, 0, 3 }, { NESTING, 0, 1 }, { START, 0, 5 }, { LEFT, 0, 2 }, { STATE, 0, 1 } }, BLANK },
    { "T-09, count 0", 3, { 0x0000, 0x00B7, 0x0000 }, 100, WHOLE, 24, 1,
      { { COUNTER, 0, 1 }, { PLACE, 0, 1 }, { STATE, 0, 24 } }, BLANK },
    { "T-09, count 1,001", 3, { 0x0000, 0x00B7, 0x03E9 }, 100, WHOLE, 24, 1,
      { { COUNTER, 0, 1 }, { PLACE, 0, 1 }, { STATE, 0, 24 } }, BLANK },
    { "T-09, count -1", 3, { 0x0000, 0x00B7, 0xFFFF }, 100, WHOLE, 24, 1,
      { { COUNTER, 0, 1 }, { PLACE, 0, 1 }, { STATE, 0, 24 } }, BLANK },
    { "T-09, no count", 2, { 0x0000, 0x00B7 }, 100, WHOLE, 22, 1,
      { { COUNTER, 0, 1 }, { PLACE, 0, 1 }, { STATE, 0, 22 } }, BLANK },
    { "T-09, a ninth repeat", 6, { 0x0000, 0x00B7, 0x0007, 0x010C, 0x0000, 0xFFFB }, 100, WHOLE, 28, 17,
      { { COUNTER, 0, 1 }, { NESTING, 0, 8 }, { START, -1, 3 }, { LEFT, -1, 7 }, { PLACE, 0, 1 }, { STATE, 0, 28 } }, BLANK },
    { "T-09, ERPT with none open", 2, { 0x0000, 0x004F }, 100, WHOLE, 29, 1,
      { { COUNTER, 0, 1 }, { PLACE, 0, 1 }, { STATE, 0, 29 } }, BLANK },
    { "all coordinates through two columns", 7, { 0x0074, 0x0000, 0x7FFF, 0x8003, 0x8003, 0x7FFF, 0x0001 }, 100,
      { 1, 0, 2, 2 }, 0, 2, { { COUNTER, 0, 7 }, { STATE, 0, 1 } }, "..#.." ".#..." "....." },
    { "9 as LINETO", 5, { 0x007C, 0x0000, 0x0004, 0x0002, 0x0001 }, 100, WHOLE, 0, 2,
      { { POSITION_X, 0, 4 }, { POSITION_Y, 0, 2 }, { COUNTER, 0, 5 }, { STATE, 0, 1 } }, "#...." ".##.." "...##" },
    { "10", 7, { 0x0074, 0x0000, 0x0000, 0x0000, 0x0004, 0x0002, 0x0001 }, 100, { 2, 0, 4, 2 }, 0, 2,
      { { COUNTER, 0, 7 }, { STATE, 0, 1 } }, "....." "..#.." "...##" },
    { "10 after CLIPMODE 0", 9, { 0x0016, 0x0000, 0x0074, 0x0000, 0x0000, 0x0000, 0x0004, 0x0002, 0x0001 }, 100,
      { 2, 0, 4, 2 }, 0, 3, { { COUNTER, 0, 9 }, { STATE, 0, 1 } }, "....." "..#.." "...##" },
    { "11, budget 16", 2, { 0x010E, 0xFFFE }, 16, WHOLE, 1, 16, { { DEPTH, 0, 16 }, { STACKED, -1, 2 } }, BLANK },
    { "11", 2, { 0x010E, 0xFFFE }, 100, WHOLE, 28, 16,
      { { DEPTH, 0, 16 }, { STACKED, -1, 2 }, { STATE, 0, 28 } }, BLANK },
    { "12", 3, { 0x000E, 0x0008, 0x0000 }, 100, WHOLE, 27, 0, { { STATE, 0, 27 } }, BLANK },
    { "12 with 0010", 3, { 0x000E, 0x0010, 0x0000 }, 100, WHOLE, 21, 1,
      { { COUNTER, 0, 1 }, { DEPTH, 0, 1 }, { STACKED, 0, 3 }, { PLACE, 0, 1 }, { STATE, 0, 21 } }, BLANK },
    { "13", 2, { 0x0016, 0x0003 }, 100, WHOLE, 24, 0, { { STATE, 0, 24 } }, BLANK },
    { "13 with 0002", 2, { 0x0016, 0x0002 }, 100, WHOLE, 20, 1,
      { { MODE, 0, 2 }, { COUNTER, 0, 2 }, { PLACE, 0, 2 }, { STATE, 0, 20 } }, BLANK },
    { "14", 6, { 0x0150, 0xFFFF, 0x0000, 0x0007, 0x0000, 0x0001 }, 100, WHOLE, 0, 2,
      { { COUNTER, 0, 6 }, { STATE, 0, 1 } }, BLANK },
    { "14 with 0000 and colour 010F", 6, { 0x0150, 0x0000, 0x0000, 0x010F, 0x0000, 0x0001 }, 100, WHOLE, 0, 2,
      { { COUNTER, 0, 6 }, { STATE, 0, 1 } }, "#...." "....." "....." },
    { "compared values", 11,
      { 0x0065, 0x0005, 0x0003, 0x0033, 0x0007, 0x0000, 0x0003, 0x010C, 0x0004, 0x0000, 0x0001 }, 100, WHOLE, 0, 4,
      { { VARIABLE, 3, 5 }, { FIRST, 0, 5 }, { SECOND, 0, 7 }, { COUNTER, 0, 11 }, { STATE, 0, 1 } }, BLANK },
    { "a colour and a dot", 7, { 0x001F, 0x1107, 0x2222, 0x009E, 0x0004, 0x0002, 0x0001 }, 100, WHOLE, 0, 3,
      { { COLOUR, 0, 7 }, { COUNTER, 0, 7 }, { STATE, 0, 1 } }, "....." "....." "....7" },
    { "return with none stacked", 1, { 0x00B9 }, 100, WHOLE, 29, 0, { { STATE, 0, 29 } }, BLANK },
};

/* ---- environments ---- */

/* Document 01's fresh environment, with T-03's pattern; T-06's origin and T-09's nesting are zeros, as most of it is. */
static void fresh_env(struct ovenlute_env *env, struct ovenlute_pane pane)
{
    memset(env, 0, sizeof *env);
    env->bounds.width = WIDTH;
    env->bounds.height = HEIGHT;
    env->bounds.pane = pane;
    env->registers.window.x1 = WIDTH - 1;
    env->registers.window.y1 = HEIGHT - 1;
    env->registers.colour = 15;
    env->registers.pattern = UINT32_MAX;
}

static void set_stacked(struct ovenlute_env *env, int which, uint32_t value)
{
    for (uint32_t i = 0; i < env->registers.depth; i++)
        if (which < 0 || i == (uint32_t)which)
            env->stack[i] = value;
}

static void set_repeat(struct ovenlute_env *env, enum change what, int which, uint32_t value)
{
    for (uint32_t i = 0; i < env->nesting; i++)
        if (which < 0 || i == (uint32_t)which)
            *(what == START ? &env->repeats[i].start : &env->repeats[i].left) = value;
}

static void change_register(struct ovenlute_registers *registers, enum change what, int32_t value)
{
    switch (what) {
    case POSITION_X:
        registers->position.x = value;
        break;
    case POSITION_Y:
        registers->position.y = value;
        break;
    case ORIGIN_X:
        registers->origin.x = value;
        break;
    case ORIGIN_Y:
        registers->origin.y = value;
        break;
    case COUNTER:
        registers->counter = (uint32_t)value;
        break;
    case DEPTH:
        registers->depth = (uint32_t)value;
        break;
    case PLACE:
        registers->place = (uint32_t)value;
        break;
    case MODE:
        registers->mode = (uint32_t)value;
        break;
    case PATTERN:
        registers->pattern = (uint32_t)value;
        break;
    case COLOUR:
        registers->colour = (uint8_t)value;
        break;
    case FIRST:
        registers->first = value;
        break;
    case SECOND:
        registers->second = value;
        break;
    case STATE:
        registers->state = (uint8_t)value;
        break;
    default:
        break;
    }
}

static void apply(struct ovenlute_env *env, const struct changed *changed)
{
    if (changed->what == VARIABLE)
        env->variables[changed->which] = changed->value;
    else if (changed->what == STACKED)
        set_stacked(env, changed->which, (uint32_t)changed->value);
    else if (changed->what == NESTING)
        env->nesting = (uint32_t)changed->value;
    else if (changed->what == START || changed->what == LEFT)
        set_repeat(env, changed->what, changed->which, (uint32_t)changed->value);
    else
        change_register(&env->registers, changed->what, changed->value);
}

static int same_bounds(const struct ovenlute_bounds *a, const struct ovenlute_bounds *b)
{
    return a->width == b->width && a->height == b->height
        && a->pane.left == b->pane.left && a->pane.top == b->pane.top
        && a->pane.right == b->pane.right && a->pane.bottom == b->pane.bottom;
}

static int same_registers(const struct ovenlute_registers *a, const struct ovenlute_registers *b)
{
    return a->position.x == b->position.x && a->position.y == b->position.y
        && a->origin.x == b->origin.x && a->origin.y == b->origin.y
        && a->window.x0 == b->window.x0 && a->window.y0 == b->window.y0
        && a->window.x1 == b->window.x1 && a->window.y1 == b->window.y1
        && a->mode == b->mode && a->pattern == b->pattern && a->first == b->first && a->second == b->second
        && a->counter == b->counter && a->depth == b->depth && a->place == b->place
        && a->colour == b->colour && a->state == b->state;
}

/* Past the nesting none counts. */
static int same_repeats(const struct ovenlute_env *a, const struct ovenlute_env *b)
{
    if (a->nesting != b->nesting)
        return 0;
    for (uint32_t i = 0; i < a->nesting && i < OVENLUTE_REPEATS; i++)
        if (a->repeats[i].start != b->repeats[i].start || a->repeats[i].left != b->repeats[i].left)
            return 0;
    return 1;
}

/* Past the depth nothing of the stack counts. */
static int same_env(const struct ovenlute_env *a, const struct ovenlute_env *b)
{
    if (!same_bounds(&a->bounds, &b->bounds) || !same_registers(&a->registers, &b->registers) || !same_repeats(a, b))
        return 0;
    for (int i = 0; i < 64; i++)
        if (a->variables[i] != b->variables[i])
            return 0;
    for (uint32_t i = 0; i < a->registers.depth && i < 16; i++)
        if (a->stack[i] != b->stack[i])
            return 0;
    return 1;
}

/* ---- the cases ---- */

static int byte_of(char letter)
{
    if (letter == '7')
        return 7;
    return letter == '#' ? 15 : 0;
}

static int same_screen(const uint8_t *screen, const char *wanted)
{
    for (int i = 0; i < BYTES; i++)
        if (screen[i] != byte_of(wanted[i]))
            return 0;
    return 1;
}

static void wanted_env(const struct test *test, struct ovenlute_env *env)
{
    fresh_env(env, test->pane);
    for (int i = 0; i < MOST_CHANGES; i++)
        apply(env, &test->changes[i]);
}

static const char *wrong_answer(const struct test *test, struct ovenlute_done done, const struct ovenlute_env *env,
                                const uint8_t *screen, uint32_t steps)
{
    struct ovenlute_env wanted;

    wanted_env(test, &wanted);
    if (done.number != test->number)
        return "another number";
    if (done.place != wanted.registers.place)
        return "another place";
    if (done.steps != steps)
        return "other steps";
    if (!same_env(env, &wanted))
        return "another environment";
    return same_screen(screen, test->screen) ? NULL : "another screen";
}

/* A case; and what has stopped or ended answers the same once more, with no step. */
static void run_test(const struct test *test)
{
    struct ovenlute_made made = ovenlute_fresh(WIDTH, HEIGHT, test->pane);
    uint8_t screen[BYTES] = { 0 };
    struct ovenlute_done done;

    done = ovenlute_run(test->list, test->words, screen, BYTES, &made.env, test->budget);
    check(test->name, wrong_answer(test, done, &made.env, screen, test->steps));
    if (test->number == OVENLUTE_BUDGET)
        return;
    done = ovenlute_run(test->list, test->words, screen, BYTES, &made.env, 0);
    check(test->name, wrong_answer(test, done, &made.env, screen, 0));
}

/* ---- the door ---- */

static const struct ovenlute_pane whole_pane = WHOLE;

static void check_fresh(const char *name, uint32_t width, uint32_t height, struct ovenlute_pane pane, uint8_t number)
{
    struct ovenlute_made made = ovenlute_fresh(width, height, pane);
    struct ovenlute_env wanted;

    memset(&wanted, 0, sizeof wanted);
    if (number == OVENLUTE_ENDED)
        fresh_env(&wanted, pane);
    check(name, made.number != number ? "another number" : same_env(&made.env, &wanted) ? NULL : "another environment");
}

static void check_fresh_calls(void)
{
    struct ovenlute_pane part = { 1, 1, 3, 1 };
    struct ovenlute_pane empty = { 3, 0, 2, 2 };
    struct ovenlute_pane outside = { 0, 0, 5, 2 };

    check_fresh("fresh, whole pane", WIDTH, HEIGHT, whole_pane, OVENLUTE_ENDED);
    check_fresh("fresh, part of the screen", WIDTH, HEIGHT, part, OVENLUTE_ENDED);
    check_fresh("fresh, no width", 0, HEIGHT, whole_pane, OVENLUTE_BAD_SIZE);
    check_fresh("fresh, height above 2,048", WIDTH, 2049, whole_pane, OVENLUTE_BAD_SIZE);
    check_fresh("fresh, empty pane", WIDTH, HEIGHT, empty, OVENLUTE_BAD_FIELD);
    check_fresh("fresh, pane past the screen", WIDTH, HEIGHT, outside, OVENLUTE_BAD_FIELD);
    check_fresh("fresh, size before pane", WIDTH, 0, empty, OVENLUTE_BAD_SIZE);
}

/* Refused at the door, or stopped before: number, no steps, and nothing changed; a place only where it was stopped. */
static void check_door(const char *name, const struct ovenlute_env *env, size_t words, size_t bytes, uint32_t budget,
                       uint8_t number)
{
    static const uint16_t list[65537];
    struct ovenlute_env after = *env;
    uint8_t screen[BYTES + 1] = { 0 };
    struct ovenlute_done done = ovenlute_run(list, words, screen, bytes, &after, budget);

    if (done.number != number)
        check(name, "another number");
    else if (done.place != (number >= OVENLUTE_PAST_END ? env->registers.place : 0))
        check(name, "another place");
    else if (done.steps != 0)
        check(name, "other steps");
    else if (!same_env(&after, env))
        check(name, "another environment");
    else
        check(name, same_screen(screen, BLANK) ? NULL : "another screen");
}

static void check_door_calls(void)
{
    struct ovenlute_env good, bad_size, bad_mode, stopped, bad_place;
    struct ovenlute_env zeros = ovenlute_fresh(0, 0, whole_pane).env;

    fresh_env(&good, whole_pane);
    bad_size = bad_mode = stopped = bad_place = good;
    bad_size.bounds.width = 2049;
    bad_mode.registers.mode = 3;
    stopped.registers.state = 25;
    stopped.registers.place = OVENLUTE_MOST_WORDS;
    bad_place.registers.place = 1;
    check_door("10, zeros", &zeros, 1, 0, 1, OVENLUTE_BAD_SIZE);
    check_door("10 before 11", &bad_size, 1, BYTES, 1, OVENLUTE_BAD_SIZE);
    check_door("11, one short", &good, 1, BYTES - 1, 1, OVENLUTE_BAD_SCREEN);
    check_door("11, one more", &good, 1, BYTES + 1, 1, OVENLUTE_BAD_SCREEN);
    check_door("11 before 12", &bad_mode, 1, BYTES - 1, 1, OVENLUTE_BAD_SCREEN);
    check_door("12", &bad_mode, 1, BYTES, 1, OVENLUTE_BAD_FIELD);
    check_door("12, a place, but running", &bad_place, 1, BYTES, 1, OVENLUTE_BAD_FIELD);
    check_door("12 before 13", &bad_mode, 65537, BYTES, 1, OVENLUTE_BAD_FIELD);
    check_door("13", &good, 65537, BYTES, 1, OVENLUTE_LONG_LIST);
    check_door("13 before 14", &good, 65537, BYTES, 1000001, OVENLUTE_LONG_LIST);
    check_door("14", &good, 1, BYTES, 1000001, OVENLUTE_LARGE_BUDGET);
    check_door("14 before the state", &stopped, 1, BYTES, 1000001, OVENLUTE_LARGE_BUDGET);
    check_door("the state before the budget", &stopped, 1, BYTES, 0, OVENLUTE_OUT_OF_RANGE);
    stopped.registers.place++;
    check_door("12, a place past the longest list", &stopped, 1, BYTES, 1, OVENLUTE_BAD_FIELD);
}

/* Any 32 bits are a pattern. */
static void check_patterns(void)
{
    static const uint32_t patterns[] = { 0, 1, 0x80000000, UINT32_MAX };
    struct ovenlute_env env;

    fresh_env(&env, whole_pane);
    for (size_t i = 0; i < sizeof patterns / sizeof patterns[0]; i++) {
        env.registers.pattern = patterns[i];
        check_door("any pattern", &env, 1, BYTES, 0, OVENLUTE_BUDGET);
    }
}

/* An origin is two signed words. */
static void check_origins(void)
{
    struct ovenlute_env env;

    fresh_env(&env, whole_pane);
    env.registers.origin = (struct ovenlute_dot){ 32767, -32768 };
    check_door("an origin at the ends of the word", &env, 1, BYTES, 0, OVENLUTE_BUDGET);
    env.registers.origin = (struct ovenlute_dot){ 32768, 0 };
    check_door("12, an origin's x above the word", &env, 1, BYTES, 1, OVENLUTE_BAD_FIELD);
    env.registers.origin = (struct ovenlute_dot){ 0, -32769 };
    check_door("12, an origin's y below the word", &env, 1, BYTES, 1, OVENLUTE_BAD_FIELD);
}

/* Up to eight open repeats, each a word index and 1 to 1,000 passes left; past the nesting nothing counts. */
static void check_repeats(void)
{
    struct ovenlute_env good, bad;

    fresh_env(&good, whole_pane);
    for (int i = 0; i < OVENLUTE_REPEATS; i++)
        good.repeats[i] = (struct ovenlute_repeat){ OVENLUTE_MOST_WORDS, i % 2 == 0 ? 1 : OVENLUTE_MOST_PASSES };
    good.nesting = OVENLUTE_REPEATS;
    check_door("eight repeats at the ends of their ranges", &good, 1, BYTES, 0, OVENLUTE_BUDGET);
    bad = good;
    bad.nesting = OVENLUTE_REPEATS + 1;
    check_door("12, nine repeats", &bad, 1, BYTES, 1, OVENLUTE_BAD_FIELD);
    bad = good;
    bad.repeats[7].left = 0;
    check_door("12, a repeat of no passes", &bad, 1, BYTES, 1, OVENLUTE_BAD_FIELD);
    bad.nesting = 7;
    check_door("a repeat of no passes, past the nesting", &bad, 1, BYTES, 0, OVENLUTE_BUDGET);
    bad = good;
    bad.repeats[0].left = OVENLUTE_MOST_PASSES + 1;
    check_door("12, a repeat of 1,001 passes", &bad, 1, BYTES, 1, OVENLUTE_BAD_FIELD);
    bad = good;
    bad.repeats[3].start = OVENLUTE_MOST_WORDS + 1;
    check_door("12, a repeat past the longest list", &bad, 1, BYTES, 1, OVENLUTE_BAD_FIELD);
}

/* A block in a block, an opcode a call: each call goes on in the pass where the one before was. */
static void check_sliced_repeats(void)
{
    static const uint16_t list[] = { 0x00B7, 2, 0x00B7, 3, 0x005D, 0, 0x004F, 0x004F, 0x0001 };
    struct ovenlute_env env;
    uint8_t screen[BYTES] = { 0 };
    struct ovenlute_done done;
    uint32_t calls = 0;

    fresh_env(&env, whole_pane);
    do
        done = ovenlute_run(list, sizeof list / sizeof list[0], screen, BYTES, &env, 1);
    while (++calls < 100 && done.number == OVENLUTE_BUDGET);
    check("T-09, an opcode a call", calls != 18 ? "other steps" : done.number != OVENLUTE_ENDED ? "another number" : NULL);
    check("T-09, an opcode a call, and its passes", env.variables[0] == 6 && env.nesting == 0 ? NULL : "another environment");
}

/* ---- lists that are checked ---- */

struct checked_list {
    const char *name;
    size_t words;
    uint16_t list[MOST_WORDS];
    struct ovenlute_checked wanted;
};

#define EIGHT_BLOCKS 0x00B7, 1, 0x00B7, 1, 0x00B7, 1, 0x00B7, 1, 0x00B7, 1, 0x00B7, 1, 0x00B7, 1, 0x00B7, 1

/* Twice inside one another, 999,001 steps, then 997 or 998 passes of nothing, and the EODL. */
#define MANY_STEPS(count) 0x00B7, 1000, 0x00B7, 997, 0x004F, 0x004F, 0x00B7, count, 0x004F

static const struct checked_list checked_lists[] = {
    { "EODL", 1, { 0x0001 }, { 0, 0, 1 } },
    { "no EODL", 2, { 0x005D, 0x0000 }, { 20, 2, 0 } },
    { "no EODL, in a block", 3, { 0x00B7, 2, 0x0000 }, { 20, 3, 0 } },
    { "an opcode that needs a variable above 63", 3, { 0x005D, 0x0040, 0x0001 }, { 0, 0, 2 } },
    { "a block in a block", 11, { 0x00B7, 2, 0x00B7, 3, 0x005D, 0, 0x004F, 0x005D, 1, 0x004F, 0x0001 }, { 0, 0, 20 } },
    { "words behind the EODL", 4, { 0x0000, 0x0001, 0x00B9, 0x00B7 }, { 0, 0, 2 } },
    { "no opcode", 2, { 0x0000, 0x2023 }, { 21, 1, 0 } },
    { "a jump", 5, { 0x0000, 0x010C, 0x0000, 0x0000, 0x0001 }, { 21, 1, 0 } },
    { "a call, cut", 2, { 0x0000, 0x000E }, { 21, 1, 0 } },
    { "RTRN in a block", 5, { 0x00B7, 2, 0x00B9, 0x004F, 0x0001 }, { 21, 2, 0 } },
    { "no count", 2, { 0x0000, 0x00B7 }, { 22, 1, 0 } },
    { "an operand is missing", 3, { 0x0000, 0x0066, 0x0000 }, { 22, 1, 0 } },
    { "count 0", 5, { 0x0000, 0x00B7, 0, 0x004F, 0x0001 }, { 24, 1, 0 } },
    { "count 1,001", 5, { 0x0000, 0x00B7, 1001, 0x004F, 0x0001 }, { 24, 1, 0 } },
    { "count -1", 5, { 0x0000, 0x00B7, 0xFFFF, 0x004F, 0x0001 }, { 24, 1, 0 } },
    { "mode 3 is a run's to refuse", 3, { 0x0016, 0x0003, 0x0001 }, { 0, 0, 2 } },
    { "eight blocks in one another, and no EODL", 16, { EIGHT_BLOCKS }, { 20, 16, 0 } },
    { "a ninth block", 18, { EIGHT_BLOCKS, 0x00B7, 1 }, { 28, 16, 0 } },
    { "a ninth block of a count that is not allowed", 18, { EIGHT_BLOCKS, 0x00B7, 0 }, { 24, 16, 0 } },
    { "a ninth block without its count", 17, { EIGHT_BLOCKS, 0x00B7 }, { 22, 16, 0 } },
    { "ERPT outside all blocks", 5, { 0x00B7, 1, 0x004F, 0x004F, 0x0001 }, { 29, 3, 0 } },
    { "EODL in a block", 4, { 0x00B7, 1, 0x0001, 0x004F }, { 30, 2, 0 } },
    { "a million steps", 10, { MANY_STEPS(997), 0x0001 }, { 0, 0, 1000000 } },
    { "a step too many", 10, { MANY_STEPS(998), 0x0001 }, { 31, 0, 0 } },
    { "a step too many, and a fault behind it", 10, { MANY_STEPS(998), 0x004F }, { 29, 9, 0 } },
    { "a fault before another", 5, { 0x004F, 0x00B7, 0, 0x00B9, 0x0001 }, { 29, 0, 0 } },
};

static void check_checked(const char *name, const uint16_t *list, size_t words, struct ovenlute_checked wanted)
{
    struct ovenlute_checked checked = ovenlute_check(list, words);

    if (checked.number != wanted.number)
        check(name, "another number");
    else if (checked.place != wanted.place)
        check(name, "another place");
    else
        check(name, checked.steps == wanted.steps ? NULL : "other steps");
}

/* NOOPs as many as a list may have, one more, and an EODL as the last. */
static void check_long_lists(void)
{
    static uint16_t list[OVENLUTE_MOST_WORDS + 1];

    check_checked("checked, no words at NULL", NULL, 0, (struct ovenlute_checked){ OVENLUTE_PAST_END, 0, 0 });
    check_checked("checked, the longest list", list, OVENLUTE_MOST_WORDS,
                  (struct ovenlute_checked){ OVENLUTE_PAST_END, OVENLUTE_MOST_WORDS, 0 });
    check_checked("checked, a word too many", list, OVENLUTE_MOST_WORDS + 1, (struct ovenlute_checked){ OVENLUTE_LONG_LIST, 0, 0 });
    list[OVENLUTE_MOST_WORDS - 1] = 0x0001;
    check_checked("checked, EODL the last word of the longest list", list, OVENLUTE_MOST_WORDS,
                  (struct ovenlute_checked){ OVENLUTE_ENDED, 0, OVENLUTE_MOST_WORDS });
}

/* What is accepted ends in exactly so many steps, and with one step less it does not. */
static void check_run_of(const struct checked_list *checked)
{
    struct ovenlute_env env;
    uint8_t screen[BYTES] = { 0 };
    struct ovenlute_done done;

    fresh_env(&env, whole_pane);
    done = ovenlute_run(checked->list, checked->words, screen, BYTES, &env, checked->wanted.steps - 1);
    check(checked->name, done.number >= OVENLUTE_NO_VARIABLE || done.number == OVENLUTE_BUDGET ? NULL : "ends too soon");
    done = ovenlute_run(checked->list, checked->words, screen, BYTES, &env, 1);
    check(checked->name, done.number >= OVENLUTE_NO_VARIABLE || done.number == OVENLUTE_ENDED ? NULL : "does not end");
}

static void check_checked_lists(void)
{
    for (size_t i = 0; i < sizeof checked_lists / sizeof checked_lists[0]; i++) {
        const struct checked_list *checked = &checked_lists[i];
        check_checked(checked->name, checked->list, checked->words, checked->wanted);
        if (checked->wanted.number == OVENLUTE_ENDED)
            check_run_of(checked);
    }
}

/* ---- lit dots, NULL, limits ---- */

static void check_lit(const char *name, uint32_t length, uint32_t pattern, uint8_t number, uint32_t count)
{
    struct ovenlute_lit_dots lit = ovenlute_lit(length, pattern);

    check(name, lit.number != number ? "another number" : lit.count == count ? NULL : "another count");
}

static void check_lit_calls(void)
{
    check_lit("lit, no dots", 0, UINT32_MAX, 0, 0);
    check_lit("lit, one dot", 1, 1, 0, 1);
    check_lit("lit, one dot, and its bit is zero", 1, 0xFFFFFFFE, 0, 0);
    check_lit("lit, the last dot of a run is left out", 31, 0x80000000, 0, 0);
    check_lit("lit, the last dot of a run", 32, 0x80000000, 0, 1);
    check_lit("lit, the first dot of the next run", 33, 1, 0, 2);
    check_lit("lit, three runs and four dots", 100, 0x0F0F0F0F, 0, 52);
    check_lit("lit, the longest line but one", 65535, 0x80000000, 0, 2047);
    check_lit("lit, the longest line", OVENLUTE_MOST_DOTS, 0x80000000, 0, 2048);
    check_lit("lit, the longest line, all of it", OVENLUTE_MOST_DOTS, UINT32_MAX, 0, 65536);
    check_lit("lit, a dot too many", OVENLUTE_MOST_DOTS + 1, UINT32_MAX, OVENLUTE_OUT_OF_RANGE, 0);
    check_lit("lit, 2^32 - 1 dots", UINT32_MAX, 0x0F0F0F0F, OVENLUTE_OUT_OF_RANGE, 0);
}

/* Nothing is read or written through a pointer with length 0. */
static void check_null(void)
{
    struct ovenlute_env env;
    uint8_t screen[BYTES] = { 0 };

    fresh_env(&env, whole_pane);
    check("no screen at NULL", ovenlute_run(NULL, 0, NULL, 0, &env, 1).number == OVENLUTE_BAD_SCREEN ? NULL : "another number");
    check("a list of no words at NULL",
          ovenlute_run(NULL, 0, screen, BYTES, &env, 1).number == OVENLUTE_PAST_END ? NULL : "another number");
}

/* The limits of the header are the box's: one more is refused. */
static void check_limits(void)
{
    struct ovenlute_pane pane = { 0, 0, OVENLUTE_MOST_SIDE - 1, OVENLUTE_MOST_SIDE - 1 };
    struct ovenlute_env env;

    fresh_env(&env, whole_pane);
    check("the largest side", ovenlute_fresh(OVENLUTE_MOST_SIDE, OVENLUTE_MOST_SIDE, pane).number ? "refused" : NULL);
    check_door("a word too many", &env, OVENLUTE_MOST_WORDS + 1, BYTES, 1, OVENLUTE_LONG_LIST);
    check_door("a step too many", &env, 1, BYTES, OVENLUTE_MOST_STEPS + 1, OVENLUTE_LARGE_BUDGET);
    check("the state of a fresh environment", env.registers.state == OVENLUTE_STATE_RUNNING ? NULL : "another state");
}

int main(void)
{
    for (size_t i = 0; i < sizeof tests / sizeof tests[0]; i++)
        run_test(&tests[i]);
    check_fresh_calls();
    check_door_calls();
    check_patterns();
    check_origins();
    check_repeats();
    check_sliced_repeats();
    check_long_lists();
    check_checked_lists();
    check_lit_calls();
    check_null();
    check_limits();
    printf("%d cases, %d failed\n", checked, failed);
    return failed != 0;
}
