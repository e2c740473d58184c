#include "lit.h"
#include "check.h"
#include "count.h"
#include "dashes.h"
#include "libc.h"
#include "random.h"

enum { RANDOM_PATTERNS = 300, LENGTHS_BETWEEN = 20, LINES_DRAWN = 4000, ACROSS = 240, DOWN = 200, LIGHT = 9 };

/* ---- lengths and patterns ---- */

static int length_kind(uint32_t length)
{
    switch (length) {
    case 0: return LENGTH_NONE;
    case 65535: return LENGTH_LONGEST_BUT_ONE;
    case 65536: return LENGTH_LONGEST;
    case 65537: return LENGTH_TOO_LONG;
    case UINT32_MAX: return LENGTH_LARGEST;
    default: return length <= 200 ? LENGTH_TO_200 : LENGTH_BETWEEN;
    }
}

static int runs_kind(uint32_t length)
{
    if (length < 32)
        return RUNS_NONE;
    return length % 32 == 0 ? RUNS_WHOLE : RUNS_AND_LEFTOVER;
}

static void check_count(uint32_t length, uint32_t pattern)
{
    struct ovenlute_lit_dots box = ovenlute_lit(length, pattern);
    struct afgis_lit_dots reference = afgis_lit(length, pattern);

    count_kind(LIT_LENGTHS, length_kind(length));
    count_kind(LIT_PATTERNS, pattern_kind(pattern));
    if (box.number == 0)
        count_kind(LIT_RUNS, runs_kind(length));
    if ((box.number != reference.number || box.count != reference.count) && is_shown())
        printf("difference: lit of %u and %08X: box %d, %u; reference %d, %u\n", (unsigned)length, (unsigned)pattern, box.number,
               (unsigned)box.count, reference.number, (unsigned)reference.count);
}

static void check_lengths(uint32_t pattern)
{
    static const uint32_t about_the_limit[] = { 65535, 65536, 65537, UINT32_MAX };

    for (uint32_t length = 0; length <= 200; length++)
        check_count(length, pattern);
    for (size_t i = 0; i < sizeof about_the_limit / sizeof about_the_limit[0]; i++)
        check_count(about_the_limit[i], pattern);
    for (int i = 0; i < LENGTHS_BETWEEN; i++)
        check_count((uint32_t)between(201, 65534), pattern);
}

/* None, all, each bit alone and each alone missing, and any. */
static void check_patterns(void)
{
    check_lengths(0);
    check_lengths(UINT32_MAX);
    for (int bit = 0; bit < 32; bit++) {
        check_lengths((uint32_t)1 << bit);
        check_lengths(~((uint32_t)1 << bit));
    }
    for (int i = 0; i < RANDOM_PATTERNS; i++)
        check_lengths(random_bits());
}

/* ---- lines ---- */

static struct ovenlute_dot dot_inside(void)
{
    return (struct ovenlute_dot){ between(0, ACROSS - 1), between(0, DOWN - 1) };
}

/* A line of type 1 from one dot of the screen to another, and how many dots it paints; -1 where the list did not end. */
static long dots_painted(struct ovenlute_dot from, struct ovenlute_dot to, uint32_t pattern)
{
    static uint8_t screen[ACROSS * DOWN];
    const uint16_t list[] = {
        0x001F, LIGHT, 0,
        0x0078, (uint16_t)pattern, (uint16_t)(pattern >> 16),
        0x0074, 1, (uint16_t)from.x, (uint16_t)from.y, (uint16_t)to.x, (uint16_t)to.y,
        0x0001
    };
    struct ovenlute_pane whole = { 0, 0, ACROSS - 1, DOWN - 1 };
    struct ovenlute_made made = ovenlute_fresh(ACROSS, DOWN, whole);
    long dots = 0;

    memset(screen, 0, sizeof screen);
    if (ovenlute_run(list, sizeof list / sizeof list[0], screen, sizeof screen, &made.env, 4).number != OVENLUTE_ENDED)
        return -1;
    for (size_t i = 0; i < sizeof screen; i++)
        dots += screen[i] == LIGHT;
    return dots;
}

static void check_line(void)
{
    struct ovenlute_dot from = dot_inside(), to = dot_inside();
    uint32_t pattern = random_bits();
    uint32_t across = (uint32_t)(from.x < to.x ? to.x - from.x : from.x - to.x);
    uint32_t down = (uint32_t)(from.y < to.y ? to.y - from.y : from.y - to.y);
    struct ovenlute_lit_dots lit = ovenlute_lit((across < down ? down : across) + 1, pattern);
    long painted = dots_painted(from, to, pattern);

    count_kind(LIT_LINES, across < down ? (to.y < from.y ? LIT_Y_BACK : LIT_Y_AHEAD) : to.x < from.x ? LIT_X_BACK : LIT_X_AHEAD);
    if ((lit.number != 0 || painted != (long)lit.count) && is_shown())
        printf("difference: a line from (%d, %d) to (%d, %d) with %08X has %ld dots, lit says %u\n", from.x, from.y, to.x, to.y,
               (unsigned)pattern, painted, (unsigned)lit.count);
}

void check_lit(void)
{
    check_patterns();
    for (int i = 0; i < LINES_DRAWN; i++)
        check_line();
}
