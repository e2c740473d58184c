/*
 * How long the box takes against plain C for the same work: ratios of the best of some trials. "Plain C" is
 * plain.c (Bresenham, a test per dot, two of a dashed line; memset row by row; circles by the half width of each row), "reference" is
 * reference/afgis.c (a division and a test per dot; a test per pixel), "memset" is one memset over the whole screen.
 * Then how long it takes to be told who painted a dot, against a run of the same steps in an empty window, which paints nothing, and
 * against plain C (plain_who.c: a question for each opcode that paints, without a division).
 */

#include "afgis.h"
#include "libc.h"
#include "ovenlute.h"
#include "plain.h"

enum { WIDTH = 1024, HEIGHT = 768, MOST_SIDE = 2048, MOST_BYTES = MOST_SIDE * MOST_SIDE };
enum { MOST_WORDS = 65536, STEPS = 1000000, TRIALS = 15, CLEARINGS = 20 };
enum { FEW_STEPS = 12, PANE_TOP = 400, PANE_BOTTOM = 409 };

/* One kind of work: a list, run some times from a fresh environment. */
struct work {
    const char *name;
    void (*make_list)(void);
    uint32_t width, height;
    struct ovenlute_pane pane;
    int runs;
    int is_memset;  /* one memset would do the same */
    int is_slow;    /* the reference would take far too long: it tests every pixel for each circle */
};

static uint16_t list[MOST_WORDS];
static size_t words;

/* All sides paint this one, and it starts a page: how fast memset is depends on where the bytes lie. */
static uint8_t screen[MOST_BYTES] __attribute__((aligned(4096)));
static uint8_t box_screen[MOST_BYTES];

/* Called through a pointer, so that the compiler can't leave out a screen that nobody reads. */
static void *(*volatile library_memset)(void *, int, size_t) = memset;

/* ---- the lists ---- */

static uint64_t random_state = 88172645463325252u;

/* low to high, both ends possible. */
static int32_t between(int32_t low, int32_t high)
{
    random_state ^= random_state << 13;
    random_state ^= random_state >> 7;
    random_state ^= random_state << 17;
    return low + (int32_t)((random_state >> 32) % (uint32_t)(high - low + 1));
}

static void put(int32_t word)
{
    list[words++] = (uint16_t)word;
}

/* Solid, type 0, or dashed, type 1. */
static void put_line(int32_t type, int32_t x0, int32_t y0, int32_t x1, int32_t y1)
{
    put(0x0074);
    put(type);
    put(x0);
    put(y0);
    put(x1);
    put(y1);
}

/* INCV, CPIV, JUMPR, round and round. */
static void make_loop(void)
{
    static const uint16_t loop[] = { 0x005D, 0x0000, 0x0033, 0xFFFF, 0x7FFF, 0x0000, 0x010C, 0x000B, 0xFFF7 };

    for (size_t i = 0; i < sizeof loop / sizeof loop[0]; i++)
        put(loop[i]);
}

/* 499,000 times INCV in a block of 499 passes, which another one repeats: a million steps and one. */
static void make_repeats(void)
{
    static const uint16_t blocks[] = { 0x00B7, 1000, 0x00B7, 499, 0x005D, 0x0000, 0x004F, 0x004F, 0x0001 };

    for (size_t i = 0; i < sizeof blocks / sizeof blocks[0]; i++)
        put(blocks[i]);
}

static void put_pattern(uint32_t pattern)
{
    put(0x0078);
    put((int32_t)(pattern % 65536));
    put((int32_t)(pattern / 65536));
}

static void put_lines(int32_t type)
{
    for (int i = 0; i < 1000; i++) {
        int32_t x0 = between(0, WIDTH - 1), y0 = between(0, HEIGHT - 1);
        int32_t x1 = between(0, WIDTH - 1), y1 = between(0, HEIGHT - 1);
        put_line(type, x0, y0, x1, y1);
    }
    put(0x0001);
}

static void make_lines(void)
{
    put_lines(0);
}

static void make_dashed_lines(void)
{
    put_pattern(0x00FF00FF);
    put_lines(1);
}

static void put_short_lines(int32_t type, int count)
{
    for (int i = 0; i < count; i++) {
        int32_t x = between(8, WIDTH - 9), y = between(8, HEIGHT - 9);
        int32_t dx = between(-7, 7), dy = between(-7, 7);
        put_line(type, x, y, x + dx, y + dy);
    }
    put(0x0001);
}

static void make_short_lines(void)
{
    put_short_lines(0, 10000);
}

static void make_short_dashed_lines(void)
{
    put_pattern(0x55555555);
    put_short_lines(1, 10000);
}

static void put_far_lines(int32_t type)
{
    for (int i = 0; i < 200; i++) {
        int32_t x0 = between(-32768, 32767), y0 = between(-32768, 32767);
        int32_t x1 = between(-32768, 32767), y1 = between(-32768, 32767);
        put_line(type, x0, y0, x1, y1);
    }
    put(0x0001);
}

static void make_far_lines(void)
{
    put_far_lines(0);
}

static void make_far_dashed_lines(void)
{
    put_pattern(0x0F0F0F0F);
    put_far_lines(1);
}

/* All x, and nearly all y, in either direction. */
static void put_long_lines(int32_t type)
{
    for (int i = 0; i < 200; i++) {
        int32_t y0 = -32768 + between(0, 300), y1 = 32767 - between(0, 300);
        if (between(0, 1))
            put_line(type, -32768, y0, 32767, y1);
        else
            put_line(type, 32767, y1, -32768, y0);
    }
    put(0x0001);
}

static void make_long_lines(void)
{
    put_long_lines(0);
}

static void make_long_dashed_lines(void)
{
    put_pattern(0x0F0F0F0F);
    put_long_lines(1);
}

static void put_origin(int32_t x, int32_t y)
{
    put(0x0100);
    put(x);
    put(y);
}

/* On the screen or close by, seen from this origin. */
static void put_dots(int32_t origin_x, int32_t origin_y)
{
    for (int i = 0; i < 20000; i++) {
        int32_t x = between(-10, WIDTH + 9), y = between(-10, HEIGHT + 9);
        put(0x009E);
        put(x - origin_x);
        put(y - origin_y);
    }
    put(0x0001);
}

static void make_dots(void)
{
    put_dots(0, 0);
}

static void make_moved_dots(void)
{
    put_origin(300, -200);
    put_dots(300, -200);
}

static void put_circle(uint16_t opcode, int32_t x, int32_t y, int32_t radius)
{
    put(opcode);
    put(0);
    put(x);
    put(y);
    put(radius);
}

static void put_circles(uint16_t opcode, int32_t radius, int count)
{
    for (int i = 0; i < count; i++) {
        int32_t x = between(0, WIDTH - 1), y = between(0, HEIGHT - 1);
        put_circle(opcode, x, y, radius);
    }
    put(0x0001);
}

static void make_discs_of_3(void)
{
    put_circles(0x0014, 3, 10000);
}

static void make_discs_of_40(void)
{
    put_circles(0x0014, 40, 1000);
}

static void make_discs_of_400(void)
{
    put_circles(0x0014, 400, 100);
}

static void make_outlines_of_3(void)
{
    put_circles(0x0012, 3, 10000);
}

static void make_outlines_of_40(void)
{
    put_circles(0x0012, 40, 1000);
}

static void make_outlines_of_400(void)
{
    put_circles(0x0012, 400, 100);
}

/* The edge crosses the pane upright or level, or all of the pane is inside. */
static void make_largest_discs(void)
{
    for (int i = 0; i < 100; i++) {
        int32_t x = between(0, WIDTH - 1), y = between(PANE_TOP, PANE_BOTTOM);
        put_circle(0x0014, x - 32767, y, 32767);
        put_circle(0x0014, x, y - 32767, 32767);
        put_circle(0x0014, 20 * (x - WIDTH / 2), 20 * (x - WIDTH / 2), 32767);
    }
    put(0x0001);
}

static void make_clear(void)
{
    for (int i = 0; i < CLEARINGS; i++) {
        put(0x0188);
        put(i);
        put(0);
        put(0);
    }
    put(0x0001);
}

/* The window has the columns 400 to 599 and the rows 300 to 449 of the screen. */
static void make_moved_clear(void)
{
    static const uint16_t window[] = { 0x0018, 0, 0, 199, 149, 0x0016, 1 };

    for (size_t i = 0; i < sizeof window / sizeof window[0]; i++)
        put(window[i]);
    put_origin(400, 300);
    make_clear();
}

#define WHOLE(width, height) width, height, { 0, 0, width - 1, height - 1 }
#define PANE(width, height) width, height, { 400, 300, 599, 449 }
#define COLUMNS(width, height) width, height, { 400, 0, 409, height - 1 }
#define ROWS(width, height) width, height, { 0, PANE_TOP, width - 1, PANE_BOTTOM }

static const struct work works[] = {
    { "arithmetic loop", make_loop, WHOLE(WIDTH, HEIGHT), 4, 0, 0 },
    { "repeats: a loop of INCV by RPT and ERPT", make_repeats, WHOLE(WIDTH, HEIGHT), 4, 0, 0 },
    { "lines on the screen", make_lines, WHOLE(WIDTH, HEIGHT), 4, 0, 0 },
    { "short lines, up to 8 dots", make_short_lines, WHOLE(WIDTH, HEIGHT), 10, 0, 0 },
    { "lines mostly outside the pane", make_far_lines, PANE(WIDTH, HEIGHT), 1, 0, 0 },
    { "lines of 65,536 dots through ten columns", make_long_lines, COLUMNS(WIDTH, HEIGHT), 1, 0, 0 },
    { "dashed lines on the screen", make_dashed_lines, WHOLE(WIDTH, HEIGHT), 4, 0, 0 },
    { "short dashed lines, up to 8 dots", make_short_dashed_lines, WHOLE(WIDTH, HEIGHT), 10, 0, 0 },
    { "dashed lines mostly outside the pane", make_far_dashed_lines, PANE(WIDTH, HEIGHT), 1, 0, 0 },
    { "dashed lines of 65,536 dots through ten columns", make_long_dashed_lines, COLUMNS(WIDTH, HEIGHT), 1, 0, 0 },
    { "single dots", make_dots, WHOLE(WIDTH, HEIGHT), 20, 0, 0 },
    { "discs of radius 3", make_discs_of_3, WHOLE(WIDTH, HEIGHT), 10, 0, 1 },
    { "discs of radius 40", make_discs_of_40, WHOLE(WIDTH, HEIGHT), 10, 0, 1 },
    { "discs of radius 400", make_discs_of_400, WHOLE(WIDTH, HEIGHT), 4, 0, 1 },
    { "outlines of radius 3", make_outlines_of_3, WHOLE(WIDTH, HEIGHT), 10, 0, 1 },
    { "outlines of radius 40", make_outlines_of_40, WHOLE(WIDTH, HEIGHT), 4, 0, 1 },
    { "outlines of radius 400", make_outlines_of_400, WHOLE(WIDTH, HEIGHT), 10, 0, 1 },
    { "discs of radius 32,767 through ten rows", make_largest_discs, ROWS(WIDTH, HEIGHT), 4, 0, 1 },
    { "single dots, moved by an origin", make_moved_dots, WHOLE(WIDTH, HEIGHT), 20, 0, 0 },
    { "CLRWIN, a whole screen of 2,048 x 2,048", make_clear, WHOLE(2048, 2048), 2, 1, 0 },
    { "CLRWIN, a whole screen of 640 x 480", make_clear, WHOLE(640, 480), 20, 1, 0 },
    { "CLRWIN, a window of 200 x 150 of mode 1, moved by an origin", make_moved_clear, WHOLE(640, 480), 40, 0, 0 },
    { "CLRWIN, a pane of 200 x 150 in 640 x 480", make_clear, PANE(640, 480), 40, 0, 0 },
    { "CLRWIN, a pane of 200 x 150 in 2,048 x 2,048", make_clear, PANE(2048, 2048), 10, 0, 0 },
};

enum { WORKS = sizeof works / sizeof works[0] };

/* ---- the sides ---- */

typedef struct afgis_answer c_run(const uint16_t *, size_t, uint8_t *, size_t, struct afgis_env *, uint32_t);
typedef struct afgis_answer side(const struct work *, uint32_t budget);

static size_t bytes_of(const struct work *work)
{
    return (size_t)work->width * work->height;
}

static struct afgis_answer run_c(const struct work *work, uint32_t budget, c_run *run)
{
    const struct ovenlute_pane *pane = &work->pane;
    struct afgis_env env;

    afgis_fresh(work->width, work->height, pane->left, pane->top, pane->right, pane->bottom, &env);
    return run(list, words, screen, bytes_of(work), &env, budget);
}

static struct afgis_answer run_box(const struct work *work, uint32_t budget)
{
    struct ovenlute_made made = ovenlute_fresh(work->width, work->height, work->pane);
    struct ovenlute_done done = ovenlute_run(list, words, screen, bytes_of(work), &made.env, budget);
    struct afgis_answer answer = { done.number, done.place, done.steps };

    return answer;
}

static struct afgis_answer run_plain(const struct work *work, uint32_t budget)
{
    return run_c(work, budget, plain_run);
}

static struct afgis_answer run_reference(const struct work *work, uint32_t budget)
{
    return run_c(work, budget, afgis_run);
}

/* The C library's memset over the whole screen, as often as the list clears it. */
static struct afgis_answer run_memset(const struct work *work, uint32_t budget)
{
    struct afgis_answer answer = { 0, 0, CLEARINGS };

    for (uint32_t i = 0; i < CLEARINGS && i < budget; i++)
        library_memset(screen, (int)i, bytes_of(work));
    return answer;
}

enum { BOX, PLAIN, REFERENCE, MEMSET, SIDES };

static side *const sides[SIDES] = { run_box, run_plain, run_reference, run_memset };

static struct afgis_answer run_on_zeros(side *run, const struct work *work, uint32_t budget)
{
    memset(screen, 0, sizeof screen);
    return run(work, budget);
}

/* The side must do what the box does, whose screen is kept. */
static int does_the_same(side *run, const struct work *work, uint32_t budget)
{
    struct afgis_answer box = run_on_zeros(run_box, work, budget), answer;

    memcpy(box_screen, screen, sizeof screen);
    answer = run_on_zeros(run, work, budget);
    return answer.number == box.number && answer.steps == box.steps && memcmp(screen, box_screen, sizeof screen) == 0;
}

/* The reference does the first few steps where it is slow. */
static int all_do_the_same(const struct work *work)
{
    return does_the_same(run_plain, work, STEPS)
        && does_the_same(run_reference, work, work->is_slow ? FEW_STEPS : STEPS);
}

/* ---- times ---- */

/* The processor time that this program has used, so that others on the machine count little. */
static double now(void)
{
    struct timespec time;

    clock_gettime(CLOCK_PROCESS_CPUTIME_ID, &time);
    return (double)time.tv_sec + (double)time.tv_nsec / 1e9;
}

/* The time of one run. */
static double time_of(side *run, const struct work *work)
{
    double start = now();

    for (int i = 0; i < work->runs; i++)
        run(work, STEPS);
    return (now() - start) / work->runs;
}

static int is_timed(const struct work *work, int turn)
{
    return turn != REFERENCE || !work->is_slow;
}

/* The best of some trials, in turn and each time another one first, so that all sides meet the same machine. */
static void measure(const struct work *work, double *best)
{
    for (int trial = 0; trial < TRIALS; trial++)
        for (int i = 0; i < SIDES; i++) {
            int turn = (trial + i) % SIDES;
            double time = is_timed(work, turn) ? time_of(sides[turn], work) : 0;
            if (trial == 0 || time < best[turn])
                best[turn] = time;
        }
}

static void print_ratio(double a, double b)
{
    printf(a < 0.1 * b ? " %.4f |" : " %.2f |", a / b);
}

static void print_ratio_or_none(int is_there, double a, double b)
{
    if (is_there)
        print_ratio(a, b);
    else
        printf(" - |");
}

static void print_row(const struct work *work, const double *best)
{
    printf("| %s |", work->name);
    print_ratio(best[BOX], best[PLAIN]);
    print_ratio_or_none(!work->is_slow, best[BOX], best[REFERENCE]);
    print_ratio_or_none(work->is_memset, best[BOX], best[MEMSET]);
    printf("\n");
}

/* The last two works clear the same pane in a small and in a large screen: the pane is to be paid, not the screen. */
static void print_small_pane(const double *in_small, const double *in_large)
{
    printf("\nThat pane in the large screen against the small one: box %.2f, plain C %.2f, reference %.2f.\n",
           in_large[BOX] / in_small[BOX], in_large[PLAIN] / in_small[PLAIN],
           in_large[REFERENCE] / in_small[REFERENCE]);
}

/* ---- who painted a dot ---- */

/* The list goes round and round for a million steps, and it is asked once for a dot in the screen's middle. */
struct question {
    const char *name;
    void (*make_list)(void);
};

/* As many as a relative jump leads back over. */
static void make_fewer_short_lines(void)
{
    put_short_lines(0, 5000);
}

static const struct question questions[] = {
    { "lines on the screen", make_lines },
    { "short lines, up to 8 dots", make_fewer_short_lines },
    { "dashed lines on the screen", make_dashed_lines },
    { "discs of radius 40", make_discs_of_40 },
    { "outlines of radius 40", make_outlines_of_40 },
    { "CLRWIN", make_clear },
};

/* JUMPR to the list's first word in place of the EODL. */
static void go_round(void)
{
    words--;
    put(0x010C);
    put(0);
    put(-(int32_t)words - 1);
}

static const struct ovenlute_pane whole = { 0, 0, WIDTH - 1, HEIGHT - 1 };

typedef struct afgis_writer asker(void);

static struct afgis_writer ask_box(void)
{
    struct ovenlute_made made = ovenlute_fresh(WIDTH, HEIGHT, whole);
    struct ovenlute_writer writer = ovenlute_who(list, words, made.env, STEPS, (struct ovenlute_dot){ WIDTH / 2, HEIGHT / 2 });

    return (struct afgis_writer){ writer.number, writer.colour, writer.step, writer.opcode };
}

static struct afgis_writer ask_plain(void)
{
    struct afgis_env env;

    afgis_fresh(WIDTH, HEIGHT, 0, 0, WIDTH - 1, HEIGHT - 1, &env);
    return plain_who(list, words, env, STEPS, (struct afgis_dot){ WIDTH / 2, HEIGHT / 2 });
}

/* The box's run in a window that is empty; what it answers is told as a step. */
static struct afgis_writer run_unseen(void)
{
    struct ovenlute_made made = ovenlute_fresh(WIDTH, HEIGHT, whole);
    struct ovenlute_done done;

    made.env.registers.mode = 1;
    made.env.registers.window = (struct ovenlute_window){ 1, 0, 0, HEIGHT - 1 };
    done = ovenlute_run(list, words, screen, (size_t)WIDTH * HEIGHT, &made.env, STEPS);
    return (struct afgis_writer){ done.number, 0, done.steps, 0 };
}

enum { ASK_BOX, ASK_PLAIN, RUN_UNSEEN, ASKERS };

static asker *const askers[ASKERS] = { ask_box, ask_plain, run_unseen };

static int tell_the_same(void)
{
    struct afgis_writer box = ask_box(), plain = ask_plain(), unseen = run_unseen();

    return box.number == plain.number && box.colour == plain.colour && box.step == plain.step && box.opcode == plain.opcode
        && unseen.number == OVENLUTE_BUDGET && unseen.step == STEPS;
}

static void measure_askers(double *best)
{
    for (int trial = 0; trial < TRIALS; trial++)
        for (int i = 0; i < ASKERS; i++) {
            int turn = (trial + i) % ASKERS;
            double start = now(), time;
            askers[turn]();
            time = now() - start;
            if (trial == 0 || time < best[turn])
                best[turn] = time;
        }
}

static int ask(const struct question *question)
{
    double best[ASKERS];

    words = 0;
    question->make_list();
    go_round();
    if (!tell_the_same()) {
        printf("%s: the answers differ\n", question->name);
        return 0;
    }
    measure_askers(best);
    printf("| %s |", question->name);
    print_ratio(best[ASK_BOX], best[RUN_UNSEEN]);
    print_ratio(best[ASK_BOX], best[ASK_PLAIN]);
    printf("\n");
    return 1;
}

static int ask_all(void)
{
    printf("\n| Who painted a dot, in a million steps of | box / its run that paints nothing | box / plain C |\n|---|---|---|\n");
    for (size_t i = 0; i < sizeof questions / sizeof questions[0]; i++)
        if (!ask(&questions[i]))
            return 0;
    return 1;
}

int main(void)
{
    double best[WORKS][SIDES];

    printf("| Work | box / plain C | box / reference | box / memset |\n|---|---|---|---|\n");
    for (size_t i = 0; i < WORKS; i++) {
        words = 0;
        works[i].make_list();
        if (!all_do_the_same(&works[i])) {
            printf("%s: the answers differ\n", works[i].name);
            return 1;
        }
        measure(&works[i], best[i]);
        print_row(&works[i], best[i]);
    }
    print_small_pane(best[WORKS - 2], best[WORKS - 1]);
    return !ask_all();
}
