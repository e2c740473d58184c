/*
 * Runs the box (include/ovenlute.h) and the reference (reference/afgis.h) on the same calls and has both mend the same lists, made
 * at random from a seed, and compares every answer whole. Exit status 1 on a difference or a kind never met.
 */

#include "check.h"
#include "count.h"
#include "libc.h"
#include "lit.h"
#include "make.h"
#include "mended.h"
#include "random.h"
#include "shrink.h"
#include "slices.h"
#include "walked.h"

enum { DEFAULT_SEED = 1, DEFAULT_CALLS = 500000, LONG_RUNS = 12, CALLS_A_LIST = 10 };

/* ---- one call ---- */

static void check_whole_call(void)
{
    static struct call call;
    struct verdict verdict;

    make_call(&call);
    check_call(&call, &verdict);
}

/* "Everything else is 21": each of the 65,536 words as an opcode. */
static void check_opcode_words(void)
{
    static struct call call;
    struct verdict verdict;

    for (uint32_t word = 0; word < 65536; word++) {
        make_opcode_word_call(&call, (uint16_t)word);
        check_call(&call, &verdict);
    }
}

static void check_long_runs(void)
{
    static struct call call;
    struct verdict verdict;

    for (int i = 0; i < LONG_RUNS; i++) {
        make_long_run(&call);
        check_call(&call, &verdict);
    }
}

/* "The list ends": a sound list cut at every word. */
static void check_cuts(void)
{
    static struct call call;
    struct verdict verdict;

    for (make_call_to_cut(&call); call.words > 0;) {
        call.words--;
        check_call(&call, &verdict);
    }
}

static void check_fresh(void)
{
    struct request request;
    const struct ovenlute_pane *pane = &request.pane;
    const char *difference;
    int number;

    make_request(&request);
    difference = judge_fresh(&request, &number);
    count_kind(FRESH_CALLS, request.kind);
    if (difference != NULL && is_shown())
        printf("difference: %s; fresh of %u x %u, pane %u %u %u %u, the box's number is %d\n", difference,
               (unsigned)request.width, (unsigned)request.height, (unsigned)pane->left, (unsigned)pane->top,
               (unsigned)pane->right, (unsigned)pane->bottom, number);
}

/* ---- two panes on one screen ---- */

/* A list and its environment, once on the screen that both sides share, once on a screen of its own. */
struct side {
    struct call mixed, alone;
};

static int is_inside(const struct ovenlute_pane *pane, uint32_t x, uint32_t y)
{
    return pane->left <= x && x <= pane->right && pane->top <= y && y <= pane->bottom;
}

/* The same number, place and steps. */
static int same_told(const struct outcome *a, const struct outcome *b)
{
    return a->number == b->number && a->place == b->place && a->steps == b->steps;
}

/* One call by one side, on both screens: what is told and the environment must be the same. */
static int step_side(struct side *side, struct side *other, uint32_t budget)
{
    struct verdict verdict;
    struct outcome mixed;

    set_budget(&side->mixed, budget);
    set_budget(&side->alone, budget);
    check_call(&side->mixed, &verdict);
    mixed = verdict.box;
    go_on(&side->mixed, &verdict);
    memcpy(other->mixed.screen, side->mixed.screen, side->mixed.bytes);
    check_call(&side->alone, &verdict);
    go_on(&side->alone, &verdict);
    return same_told(&mixed, &verdict.box) && same_env(&side->mixed.env, &side->alone.env);
}

/* In one pane only: as that side alone left it. In none: as before. In both: either may have painted last. */
static int screens_agree(const struct side *a, const struct side *b, const uint8_t *before)
{
    const struct ovenlute_bounds *bounds = &a->mixed.env.bounds;
    size_t i = 0;

    for (uint32_t y = 0; y < bounds->height; y++)
        for (uint32_t x = 0; x < bounds->width; x++, i++) {
            int in_a = is_inside(&bounds->pane, x, y);
            int in_b = is_inside(&b->mixed.env.bounds.pane, x, y);
            uint8_t wanted = in_a ? a->alone.screen[i] : in_b ? b->alone.screen[i] : before[i];
            if (!(in_a && in_b) && a->mixed.screen[i] != wanted)
                return 0;
        }
    return 1;
}

static void start_side(struct side *side)
{
    side->mixed.kinds[CALLS] = CALL_MIXED;
    copy_call(&side->alone, &side->mixed);
    side->alone.kinds[CALLS] = CALL_ALONE;
}

/* Calls of two lists mixed at random must come to the same as each list by itself. */
static void check_two_panes(void)
{
    static struct side a, b;
    static uint8_t before[SCREEN_ROOM];
    int agree = 1;

    make_good_call(&a.mixed);
    make_good_call(&b.mixed);
    make_two_panes(&a.mixed, &b.mixed);
    memcpy(before, a.mixed.screen, a.mixed.bytes);
    start_side(&a);
    start_side(&b);
    for (int i = 0; i < 12; i++)
        agree &= one_in(2) ? step_side(&a, &b, below(9)) : step_side(&b, &a, below(9));
    if (!(agree && screens_agree(&a, &b, before)) && is_shown()) {
        printf("difference: two panes mixed and each alone\n");
        print_call(&a.mixed);
        print_call(&b.mixed);
    }
}

/* ---- lengths past 32 bits ---- */

static const size_t PAST_32_BITS = (size_t)1 << 32;

/* The number that is told with who painted the screen's first dot. */
static int huge_who(const struct call *call, const uint16_t *list, size_t words)
{
    return ovenlute_who(list, words, call->env, call->budget, (struct ovenlute_dot){ 0, 0 }).number;
}

static int huge_reference_who(const struct afgis_env *env, const struct call *call, const uint16_t *list, size_t words)
{
    struct afgis_dot dot = { 0, 0 };
    struct afgis_writer writer;

    afgis_who(list, words, env, call->budget, &dot, 1, &writer);
    return writer.number;
}

/* A list of zeros is mended, or one that is too long: nothing is written. */
static int is_huge_mended(uint16_t *list, size_t words)
{
    struct ovenlute_mended box = ovenlute_mend(list, words, NULL, 0);
    struct afgis_mended reference = afgis_mend(list, words, NULL, 0);
    int wanted = words > MOST_WORDS ? 13 : 0;

    return box.number == wanted && box.changes == 0 && reference.number == wanted && reference.changes == 0;
}

/* A call that must be refused at the door with this number; its list and screen can only be read. */
static void check_huge_call(const struct call *call, uint8_t *room, size_t words, size_t bytes, int number)
{
    uint16_t *list = (uint16_t *)room;
    uint8_t *screen = room + 3 * PAST_32_BITS;
    struct ovenlute_env env = call->env;
    struct ovenlute_done done = ovenlute_run(list, words, screen, bytes, &env, call->budget);
    struct ovenlute_checked checked = ovenlute_check(list, words);
    int who = huge_who(call, list, words);
    struct afgis_env reference_env;
    struct afgis_answer answer;
    int is_right;

    to_reference(&call->env, &reference_env);
    answer = afgis_run(list, words, screen, bytes, &reference_env, call->budget);
    count_call(call, done.number, done.place);
    is_right = done.number == number && done.place == 0 && done.steps == 0 && same_env(&env, &call->env)
        && answer.number == number && answer.place == 0
        && checked.number == afgis_check(list, words).number && is_huge_mended(list, words)
        && who == (number == 11 ? 0 : number) && who == huge_reference_who(&reference_env, call, list, words);
    if (!is_right && is_shown())
        printf("difference: %llu words and %llu bytes: box %d, reference %d, wanted %d\n", (unsigned long long)words,
               (unsigned long long)bytes, done.number, answer.number, number);
}

/* Lengths whose low 32 bits alone would be right. */
static void check_huge_lengths(void)
{
    static struct call call;
    size_t room_bytes = 5 * PAST_32_BITS;
    void *room = mmap(NULL, room_bytes, PROT_READ, MAP_PRIVATE | MAP_ANONYMOUS | MAP_NORESERVE, -1, 0);

    if (room == MAP_FAILED)
        return;
    make_good_call(&call);
    call.kinds[LISTS] = LIST_PAST_32_BITS;
    check_huge_call(&call, room, call.words + PAST_32_BITS, call.bytes, 13);
    make_good_call(&call);
    call.kinds[SCREENS] = SCREEN_PAST_32_BITS;
    check_huge_call(&call, room, call.words, call.bytes + PAST_32_BITS, 11);
    munmap(room, room_bytes);
}

/* ---- the whole run ---- */

static void check_something(void)
{
    if (one_in(20))
        check_fresh();
    else if (one_in(30))
        check_slices();
    else if (one_in(120))
        check_two_panes();
    else if (one_in(400))
        check_cuts();
    else
        check_whole_call();
}

int main(int count, char **arguments)
{
    unsigned long long seed = count > 1 ? strtoull(arguments[1], NULL, 10) : DEFAULT_SEED;
    unsigned long long calls = count > 2 ? strtoull(arguments[2], NULL, 10) : DEFAULT_CALLS;
    int never;

    random_seed(seed);
    check_opcode_words();
    check_huge_lengths();
    while (calls_counted() < calls)
        check_something();
    check_long_runs();
    check_lit();
    check_mending(calls / CALLS_A_LIST);
    never = print_counts() + print_walks();
    printf("seed %llu, %llu calls, %llu differences, %d kinds never met\n", seed,
           (unsigned long long)calls_counted(), differences_counted(), never);
    return differences_counted() != 0 || never != 0;
}
