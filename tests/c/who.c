/*
 * Request T-08, who painted this dot, through the C face of the box: for each list the step that last wrote each dot of the screen,
 * worked out by hand from the papers, with the word index of its opcode and its colour; and a run on two screens must agree with it.
 * Then the numbers and their order, environments that go on, have ended or were stopped, and the longest lists and budgets.
 */

#include "libc.h"
#include "ovenlute.h"
#include "tally.h"

enum { WIDTH = 5, HEIGHT = 3, BYTES = WIDTH * HEIGHT, MOST_WORDS = 24, MOST_STEPS = 9 };

struct step {
    uint32_t opcode;
    uint8_t colour;
};

struct test {
    const char *name;
    size_t words;
    uint16_t list[MOST_WORDS];
    uint32_t budget;
    struct ovenlute_pane pane;
    const char *map;  /* row by row: the step that last wrote the dot, counted from 1; . is no step */
    struct step steps[MOST_STEPS + 1];
};

#define WHOLE { 0, 0, WIDTH - 1, HEIGHT - 1 }
#define NOBODY "....." "....." "....."

static const struct test tests[] = {
    /* PIXEL 2 1 */
    { "a dot", 4, { 0x009E, 2, 1, 0x0001 }, 100, WHOLE, "....." "..1.." ".....", { [1] = { 0, 15 } } },
    /* PIXEL 2 1, COLORF 7, PIXEL 2 1 */
    { "the last of two", 10, { 0x009E, 2, 1, 0x001F, 7, 0, 0x009E, 2, 1, 0x0001 }, 100, WHOLE, "....." "..3.." ".....",
      { [3] = { 6, 7 } } },
    { "the last of two, budget 3", 10, { 0x009E, 2, 1, 0x001F, 7, 0, 0x009E, 2, 1, 0x0001 }, 3, WHOLE, "....." "..3.." ".....",
      { [3] = { 6, 7 } } },
    { "the second is behind the budget", 10, { 0x009E, 2, 1, 0x001F, 7, 0, 0x009E, 2, 1, 0x0001 }, 2, WHOLE,
      "....." "..1.." ".....", { [1] = { 0, 15 } } },
    { "budget 0", 4, { 0x009E, 2, 1, 0x0001 }, 0, WHOLE, NOBODY, { { 0, 0 } } },
    { "the colour that is there already counts", 7, { 0x009E, 2, 1, 0x009E, 2, 1, 0x0001 }, 100, WHOLE, "....." "..2.." ".....",
      { [2] = { 3, 15 } } },
    /* PIXELC 2 1 of 0107, of which the low 8 bits count; PIXEL 3 1 in the foreground colour */
    { "PIXELC has its own colour", 9, { 0x0150, 2, 1, 0x0107, 0, 0x009E, 3, 1, 0x0001 }, 100, WHOLE, "....." "..12." ".....",
      { [1] = { 0, 7 }, [2] = { 5, 15 } } },
    { "PIXELC off the screen", 6, { 0x0150, 0xFFFF, 0, 7, 0, 0x0001 }, 100, WHOLE, NOBODY, { { 0, 0 } } },
    /* PIXEL 0 0, CLRWIN 0 */
    { "CLRWIN over all", 8, { 0x009E, 0, 0, 0x0188, 0, 0, 0, 0x0001 }, 100, WHOLE, "22222" "22222" "22222", { [2] = { 3, 0 } } },
    { "a dot over CLRWIN", 8, { 0x0188, 0, 0, 0, 0x009E, 0, 0, 0x0001 }, 100, WHOLE, "21111" "11111" "11111",
      { [1] = { 0, 0 }, [2] = { 4, 15 } } },
    /* LINE 0 0 4 2, document 01's case 9 */
    { "a line", 7, { 0x0074, 0, 0, 0, 4, 2, 0x0001 }, 100, WHOLE, "1...." ".11.." "...11", { [1] = { 0, 15 } } },
    /* T-02: from either end the same dots */
    { "a line over a line", 13, { 0x0074, 0, 0, 0, 4, 2, 0x0074, 0, 4, 2, 0, 0, 0x0001 }, 100, WHOLE, "2...." ".22.." "...22",
      { [2] = { 6, 15 } } },
    /* T-02's falling line crosses it at (2, 1) alone */
    { "two lines that cross", 13, { 0x0074, 0, 0, 0, 4, 2, 0x0074, 0, 0, 2, 4, 0, 0x0001 }, 100, WHOLE, "1...2" ".122." "22.11",
      { [1] = { 0, 15 }, [2] = { 6, 15 } } },
    /* LINETO 4 2 from (0, 0), LINETO 4 0 from there: the corner is the second's */
    { "two LINETO", 9, { 0x007C, 0, 4, 2, 0x007C, 0, 4, 0, 0x0001 }, 100, WHOLE, "1...2" ".11.2" "...12",
      { [1] = { 0, 15 }, [2] = { 4, 15 } } },
    /* dots 0, 1 and 3, counted from the first point given */
    { "a dashed line", 10, { 0x0078, 0x000B, 0, 0x0074, 1, 0, 0, 4, 0, 0x0001 }, 100, WHOLE, "22.2." "....." ".....",
      { [2] = { 3, 15 } } },
    { "a dashed line from the other end", 10, { 0x0078, 0x000B, 0, 0x0074, 1, 4, 0, 0, 0, 0x0001 }, 100, WHOLE,
      ".2.22" "....." ".....", { [2] = { 3, 15 } } },
    /* LINE 0 0 4 0, LINEPATN, COLORF 7, dashed LINE over it */
    { "what is in the gaps stays", 19,
      { 0x0074, 0, 0, 0, 4, 0, 0x0078, 0x000B, 0, 0x001F, 7, 0, 0x0074, 1, 0, 0, 4, 0, 0x0001 }, 100, WHOLE,
      "44141" "....." ".....", { [1] = { 0, 15 }, [4] = { 12, 7 } } },
    /* CIRS 2 1 of radius 1 and 2: 1 + 1 is above 1, 4 + 1 above 4 */
    { "a disc of radius 1", 6, { 0x0014, 0, 2, 1, 1, 0x0001 }, 100, WHOLE, "..1.." ".111." "..1..", { [1] = { 0, 15 } } },
    { "a disc of radius 2", 6, { 0x0014, 0, 2, 1, 2, 0x0001 }, 100, WHOLE, ".111." "11111" ".111.", { [1] = { 0, 15 } } },
    { "a disc of radius 0", 6, { 0x0014, 0, 2, 1, 0, 0x0001 }, 100, WHOLE, "....." "..1.." ".....", { [1] = { 0, 15 } } },
    /* (2, 0) has all four neighbours inside: (2, -1) is at distance 2 */
    { "an outline of radius 2 on a disc", 11, { 0x0014, 0, 2, 1, 2, 0x0012, 0, 2, 1, 2, 0x0001 }, 100, WHOLE,
      ".212." "21112" ".212.", { [1] = { 0, 15 }, [2] = { 5, 15 } } },
    /* CLIPWIN 1 0 3 1, CLIPMODE 1, CLRWIN 7: both corners inside */
    { "a window", 12, { 0x0018, 1, 0, 3, 1, 0x0016, 1, 0x0188, 7, 0, 0, 0x0001 }, 100, WHOLE, ".333." ".333." ".....",
      { [3] = { 7, 7 } } },
    { "a window, but mode 0", 10, { 0x0018, 1, 0, 3, 1, 0x0188, 7, 0, 0, 0x0001 }, 100, WHOLE, "22222" "22222" "22222",
      { [2] = { 5, 7 } } },
    { "an empty window", 12, { 0x0018, 3, 0, 1, 2, 0x0016, 1, 0x0188, 7, 0, 0, 0x0001 }, 100, WHOLE, NOBODY, { { 0, 0 } } },
    /* CLIPWIN 0 0 1 1, CLIPMODE, XYORG 1 1, CLRWIN 7: mode 1 is relative to the origin, mode 2 absolute */
    { "a window of mode 1 is moved", 15, { 0x0018, 0, 0, 1, 1, 0x0016, 1, 0x0100, 1, 1, 0x0188, 7, 0, 0, 0x0001 }, 100, WHOLE,
      "....." ".44.." ".44..", { [4] = { 10, 7 } } },
    { "a window of mode 2 is not", 15, { 0x0018, 0, 0, 1, 1, 0x0016, 2, 0x0100, 1, 1, 0x0188, 7, 0, 0, 0x0001 }, 100, WHOLE,
      "44..." "44..." ".....", { [4] = { 10, 7 } } },
    /* a window that is narrower while the second CLRWIN runs: the first one's dots stay its own */
    { "CLRWIN before and behind a window", 16,
      { 0x0188, 3, 0, 0, 0x0018, 1, 1, 3, 1, 0x0016, 2, 0x0188, 7, 0, 0, 0x0001 }, 100, WHOLE, "11111" "14441" "11111",
      { [1] = { 0, 3 }, [4] = { 11, 7 } } },
    /* document 01's case 10 */
    { "a line in a pane", 7, { 0x0074, 0, 0, 0, 4, 2, 0x0001 }, 100, { 2, 0, 4, 2 }, "....." "..1.." "...11", { [1] = { 0, 15 } } },
    { "CLRWIN in a pane", 5, { 0x0188, 7, 0, 0, 0x0001 }, 100, { 1, 1, 3, 1 }, "....." ".111." ".....", { [1] = { 0, 7 } } },
    /* XYORG 2 1, PIXEL 0 0; -32,768 twice is -65,536 and not 0 */
    { "a dot from an origin", 7, { 0x0100, 2, 1, 0x009E, 0, 0, 0x0001 }, 100, WHOLE, "....." "..2.." ".....", { [2] = { 3, 15 } } },
    { "a sum of -65,536", 7, { 0x0100, 0x8000, 0x8000, 0x009E, 0x8000, 0x8000, 0x0001 }, 100, WHOLE, NOBODY, { { 0, 0 } } },
    /* RPT 3, PIXEL 0 0, ERPT: the PIXEL is step 2, 4 and 6 */
    { "the last of three passes", 7, { 0x00B7, 3, 0x009E, 0, 0, 0x004F, 0x0001 }, 100, WHOLE, "6...." "....." ".....",
      { [6] = { 2, 15 } } },
    { "the second of three passes", 7, { 0x00B7, 3, 0x009E, 0, 0, 0x004F, 0x0001 }, 5, WHOLE, "4...." "....." ".....",
      { [4] = { 2, 15 } } },
    /* JUMPR over the first PIXEL to the second, back to the first, and from there to the end */
    { "the list's order is not the run's", 16,
      { 0x010C, 0, 6, 0x009E, 2, 1, 0x010C, 0, 6, 0x009E, 2, 1, 0x010C, 0, 0xFFF4, 0x0001 }, 100, WHOLE, "....." "..4.." ".....",
      { [4] = { 3, 15 } } },
    /* PIXEL 2 1, then CLIPMODE 3: 24 */
    { "refused later", 5, { 0x009E, 2, 1, 0x0016, 3 }, 100, WHOLE, "....." "..1.." ".....", { [1] = { 0, 15 } } },
    { "a line of type 2", 9, { 0x009E, 0, 0, 0x0074, 2, 0, 0, 4, 2 }, 100, WHOLE, "1...." "....." ".....", { [1] = { 0, 15 } } },
    { "a line that is cut", 8, { 0x009E, 0, 0, 0x0074, 0, 0, 0, 4 }, 100, WHOLE, "1...." "....." ".....", { [1] = { 0, 15 } } },
    /* V0 is 65,538, whose low word is 2, V1 is 1; PIXELV of them is 25 */
    { "PIXELV of x = 65,538", 9, { 0x0066, 2, 1, 0, 0x0065, 1, 1, 0x009F, 0 }, 100, WHOLE, NOBODY, { { 0, 0 } } },
    { "an empty list", 0, { 0 }, 100, WHOLE, NOBODY, { { 0, 0 } } },
};

static const char *wrong_writer(struct ovenlute_writer writer, struct ovenlute_writer wanted)
{
    if (writer.number != wanted.number)
        return "another number";
    if (writer.step != wanted.step)
        return "another step";
    if (writer.opcode != wanted.opcode)
        return "another opcode";
    return writer.colour != wanted.colour ? "another colour" : NULL;
}

static const struct ovenlute_pane whole_pane = WHOLE;
static const struct ovenlute_writer nobody = { 0, 0, 0, 0 };

/* ---- the lists ---- */

static struct ovenlute_writer writer_of(const struct test *test, int dot)
{
    uint32_t step = test->map[dot] == '.' ? 0 : (uint32_t)(test->map[dot] - '0');

    return step == 0 ? nobody : (struct ovenlute_writer){ 0, test->steps[step].colour, step, test->steps[step].opcode };
}

static void check_map(const struct test *test, const struct ovenlute_env *env)
{
    const char *wrong = NULL;

    for (int i = 0; i < BYTES && wrong == NULL; i++) {
        struct ovenlute_dot dot = { i % WIDTH, i / WIDTH };
        wrong = wrong_writer(ovenlute_who(test->list, test->words, *env, test->budget, dot), writer_of(test, i));
    }
    check(test->name, wrong);
}

/* The run leaves the step's colour, or what was there. */
static void check_run(const struct test *test, struct ovenlute_env env, uint8_t fill)
{
    uint8_t screen[BYTES];
    const char *wrong = NULL;

    memset(screen, fill, sizeof screen);
    ovenlute_run(test->list, test->words, screen, sizeof screen, &env, test->budget);
    for (int i = 0; i < BYTES; i++)
        if (screen[i] != (test->map[i] == '.' ? fill : writer_of(test, i).colour))
            wrong = "the run left another byte";
    check(test->name, wrong);
}

static void check_lists(void)
{
    for (size_t i = 0; i < sizeof tests / sizeof tests[0]; i++) {
        struct ovenlute_env env = ovenlute_fresh(WIDTH, HEIGHT, tests[i].pane).env;
        check_map(&tests[i], &env);
        check_run(&tests[i], env, 0);
        check_run(&tests[i], env, 200);
    }
}

/* ---- the numbers ---- */

static const uint16_t noops[OVENLUTE_MOST_WORDS + 1];

static void check_number(const char *name, struct ovenlute_env env, size_t words, uint32_t budget, struct ovenlute_dot dot,
                         uint8_t number)
{
    check(name, wrong_writer(ovenlute_who(noops, words, env, budget, dot), (struct ovenlute_writer){ number, 0, 0, 0 }));
}

/* 10, 12, 13 and 14, each before the next, and all of them before 25; no screen is lent, so nothing is 11. */
static void check_door(void)
{
    struct ovenlute_env good = ovenlute_fresh(WIDTH, HEIGHT, whole_pane).env, bad_mode = good, bad_both;
    struct ovenlute_dot inside = { 0, 0 }, outside = { -1, 0 };

    bad_mode.registers.mode = 3;
    bad_both = bad_mode;
    bad_both.bounds.height = 2049;
    check_number("0", good, 1, 1, inside, 0);
    check_number("10, zeros", ovenlute_fresh(0, 0, whole_pane).env, 1, 1, inside, OVENLUTE_BAD_SIZE);
    check_number("10 before 12", bad_both, 1, 1, inside, OVENLUTE_BAD_SIZE);
    check_number("10 before 25", bad_both, 1, 1, outside, OVENLUTE_BAD_SIZE);
    check_number("12", bad_mode, 1, 1, inside, OVENLUTE_BAD_FIELD);
    check_number("12 before 13", bad_mode, OVENLUTE_MOST_WORDS + 1, 1, inside, OVENLUTE_BAD_FIELD);
    check_number("12 before 14", bad_mode, 1, OVENLUTE_MOST_STEPS + 1, inside, OVENLUTE_BAD_FIELD);
    check_number("12 before 25", bad_mode, 1, 1, outside, OVENLUTE_BAD_FIELD);
    check_number("13", good, OVENLUTE_MOST_WORDS + 1, 1, inside, OVENLUTE_LONG_LIST);
    check_number("13 before 14", good, OVENLUTE_MOST_WORDS + 1, OVENLUTE_MOST_STEPS + 1, inside, OVENLUTE_LONG_LIST);
    check_number("13 before 25", good, OVENLUTE_MOST_WORDS + 1, 1, outside, OVENLUTE_LONG_LIST);
    check_number("14", good, 1, OVENLUTE_MOST_STEPS + 1, inside, OVENLUTE_LARGE_BUDGET);
    check_number("14 before 25", good, 1, OVENLUTE_MOST_STEPS + 1, outside, OVENLUTE_LARGE_BUDGET);
}

/* The screen's own dots are 0, the next ones are 25, and so are those whose low word alone would do. */
static void check_dots(void)
{
    struct ovenlute_env env = ovenlute_fresh(WIDTH, HEIGHT, (struct ovenlute_pane){ 2, 1, 2, 1 }).env;
    static const struct {
        const char *name;
        struct ovenlute_dot dot;
        uint8_t number;
    } dots[] = {
        { "the first dot, outside the pane", { 0, 0 }, 0 },
        { "the last dot, outside the pane", { 4, 2 }, 0 },
        { "25, (-1, 0)", { -1, 0 }, 25 },
        { "25, (5, 0)", { 5, 0 }, 25 },
        { "25, (0, -1)", { 0, -1 }, 25 },
        { "25, (0, 3)", { 0, 3 }, 25 },
        { "25, (2, 4), as if width and height were swapped", { 2, 4 }, 25 },
        { "25, x = 65,536", { 65536, 0 }, 25 },
        { "25, y = -65,536", { 0, -65536 }, 25 },
        { "25, the lowest x", { INT32_MIN, 0 }, 25 },
        { "25, the lowest y", { 0, INT32_MIN }, 25 },
        { "25, the highest x", { INT32_MAX, 0 }, 25 },
        { "25, the highest of both", { INT32_MAX, INT32_MAX }, 25 },
    };

    for (size_t i = 0; i < sizeof dots / sizeof dots[0]; i++)
        check_number(dots[i].name, env, 1, 1, dots[i].dot, dots[i].number);
}

/* ---- environments ---- */

/* PIXEL 2 1, COLORF 7, PIXEL 3 1, EODL */
static const uint16_t two_dots[] = { 0x009E, 2, 1, 0x001F, 7, 0, 0x009E, 3, 1, 0x0001 };

static struct ovenlute_env env_after(const uint16_t *list, size_t words, uint32_t budget)
{
    struct ovenlute_env env = ovenlute_fresh(WIDTH, HEIGHT, whole_pane).env;
    uint8_t screen[BYTES] = { 0 };

    ovenlute_run(list, words, screen, sizeof screen, &env, budget);
    return env;
}

static void check_env(const char *name, struct ovenlute_env env, struct ovenlute_dot dot, struct ovenlute_writer wanted)
{
    check(name, wrong_writer(ovenlute_who(two_dots, sizeof two_dots / sizeof two_dots[0], env, 100, dot), wanted));
}

/* A run counts its own steps, and what an earlier one wrote is none of them. */
static void check_environments(void)
{
    static const uint16_t bad_mode[] = { 0x0016, 3 };
    size_t words = sizeof two_dots / sizeof two_dots[0];
    struct ovenlute_env halfway = env_after(two_dots, words, 1), ended = env_after(two_dots, words, 100);
    struct ovenlute_env stopped = env_after(bad_mode, 2, 100);
    struct ovenlute_dot first = { 2, 1 }, second = { 3, 1 }, outside = { 5, 1 };

    check_env("halfway, written before", halfway, first, nobody);
    check_env("halfway, written now", halfway, second, (struct ovenlute_writer){ 0, 7, 2, 6 });
    check_env("ended", ended, first, nobody);
    check_env("ended, 25", ended, outside, (struct ovenlute_writer){ 25, 0, 0, 0 });
    check_env("stopped", stopped, first, nobody);
    check_env("stopped, 25", stopped, outside, (struct ovenlute_writer){ 25, 0, 0, 0 });
}

/* ---- the longest ---- */

/* PIXEL 0 0 and back to it, half a million times: the last step is a jump. */
static void check_longest_run(void)
{
    static const uint16_t list[] = { 0x009E, 0, 0, 0x010C, 0, 0xFFFA };
    struct ovenlute_env env = ovenlute_fresh(WIDTH, HEIGHT, whole_pane).env;
    struct ovenlute_writer writer = ovenlute_who(list, 6, env, OVENLUTE_MOST_STEPS, (struct ovenlute_dot){ 0, 0 });

    check("a million steps", wrong_writer(writer, (struct ovenlute_writer){ 0, 15, 999999, 0 }));
}

/* 65,533 NOOPs, and a PIXEL 4 2 in the last three words. */
static void check_longest_list(void)
{
    static uint16_t list[OVENLUTE_MOST_WORDS];
    struct ovenlute_env env = ovenlute_fresh(WIDTH, HEIGHT, whole_pane).env;
    struct ovenlute_dot dot = { 4, 2 };

    list[65533] = 0x009E;
    list[65534] = 4;
    list[65535] = 2;
    check("the longest list", wrong_writer(ovenlute_who(list, OVENLUTE_MOST_WORDS, env, OVENLUTE_MOST_STEPS, dot),
                                           (struct ovenlute_writer){ 0, 15, 65534, 65533 }));
    check("no words at NULL", wrong_writer(ovenlute_who(NULL, 0, env, 100, dot), nobody));
    check("no words at NULL, 25", wrong_writer(ovenlute_who(NULL, 0, env, 100, (struct ovenlute_dot){ 4, 3 }),
                                               (struct ovenlute_writer){ 25, 0, 0, 0 }));
}

/* Two corners of the largest screen, by discs that touch them from far outside: of radius 32,767 about (-32,767, 0), and of 30,720
   about (32,767, 2,047). */
static void check_largest_screen(void)
{
    static const uint16_t list[] = { 0x0014, 0, 0x8001, 0, 0x7FFF, 0x0014, 0, 0x7FFF, 2047, 0x7800, 0x0001 };
    struct ovenlute_pane pane = { 0, 0, OVENLUTE_MOST_SIDE - 1, OVENLUTE_MOST_SIDE - 1 };
    struct ovenlute_env env = ovenlute_fresh(OVENLUTE_MOST_SIDE, OVENLUTE_MOST_SIDE, pane).env;

    check("a disc from far left", wrong_writer(ovenlute_who(list, 11, env, 100, (struct ovenlute_dot){ 0, 0 }),
                                               (struct ovenlute_writer){ 0, 15, 1, 0 }));
    check("just outside it", wrong_writer(ovenlute_who(list, 11, env, 100, (struct ovenlute_dot){ 0, 1 }), nobody));
    check("a disc from far right", wrong_writer(ovenlute_who(list, 11, env, 100, (struct ovenlute_dot){ 2047, 2047 }),
                                                (struct ovenlute_writer){ 0, 15, 2, 5 }));
    check("just outside that", wrong_writer(ovenlute_who(list, 11, env, 100, (struct ovenlute_dot){ 2046, 2047 }), nobody));
}

int main(void)
{
    check_lists();
    check_door();
    check_dots();
    check_environments();
    check_longest_run();
    check_longest_list();
    check_largest_screen();
    printf("%d cases of who, %d failed\n", checked, failed);
    return failed != 0;
}
