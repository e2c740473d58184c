/*
 * The pump page (lists/pump.hex, its list on standard input) through the C face: of each pipe the dots in the picture are
 * counted, and that number is the one the page shows and the one that ovenlute_lit tells from length and pattern alone.
 */

#include "libc.h"
#include "ovenlute.h"

enum { WIDTH = 320, HEIGHT = 200 };

/* A pipe by the colour that it alone has, its length in dots, its pattern, and the variable with the count that is shown. */
static const struct pipe {
    uint8_t colour;
    uint32_t length, pattern;
    int variable;
} pipes[] = {
    { 10, 100, 0x0F0F0F0F, 40 },
    { 11, 76, 0x00FF00FF, 41 },
    { 14, 126, 0x01010101, 42 },
};

static uint16_t list[OVENLUTE_MOST_WORDS];
static uint8_t screen[WIDTH * HEIGHT];

static size_t read_list(void)
{
    size_t bytes = 0;
    long got;

    while ((got = read(0, (char *)list + bytes, sizeof list - bytes)) > 0)
        bytes += (size_t)got;
    return bytes / sizeof list[0];
}

static uint32_t dots_of(uint8_t colour)
{
    uint32_t dots = 0;

    for (size_t i = 0; i < sizeof screen; i++)
        dots += screen[i] == colour;
    return dots;
}

/* Counted, shown and told: three numbers that have to be one. */
static int check_pipe(const struct pipe *pipe, const struct ovenlute_env *env)
{
    struct ovenlute_lit_dots lit = ovenlute_lit(pipe->length, pipe->pattern);
    uint32_t counted = dots_of(pipe->colour);
    int32_t shown = env->variables[pipe->variable];
    int is_one = lit.number == 0 && lit.count == counted && shown == (int32_t)counted;

    printf("a pipe of %u dots with %08X: %u in the picture, %d shown, %u told%s\n", (unsigned)pipe->length,
           (unsigned)pipe->pattern, (unsigned)counted, (int)shown, (unsigned)lit.count, is_one ? "" : ": they differ");
    return is_one;
}

int main(void)
{
    struct ovenlute_pane whole = { 0, 0, WIDTH - 1, HEIGHT - 1 };
    struct ovenlute_made made = ovenlute_fresh(WIDTH, HEIGHT, whole);
    size_t words = read_list();
    int good = ovenlute_run(list, words, screen, sizeof screen, &made.env, OVENLUTE_MOST_STEPS).number == OVENLUTE_ENDED;

    if (!good)
        printf("the pump page has not ended\n");
    for (size_t i = 0; i < sizeof pipes / sizeof pipes[0]; i++)
        good &= check_pipe(&pipes[i], &made.env);
    return !good;
}
