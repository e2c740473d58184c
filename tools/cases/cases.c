/*
 * The file of cases (crates/cases/FORMAT.md) by the reference: it reads the file from standard input and prints what the
 * program `cases` prints. It takes the file to be well formed; the first line that is not ends it with status 1.
 */
#include "afgis.h"
#include "libc.h"

enum { MOST_TEXT = 1 << 20, MOST_WORDS = 65537, MOST_BYTES = 2048 * 2048, SMALL_WIDTH = 64, SMALL_SCREEN = 4096 };

/* What a run is given, as the lines before it left it. */
static struct afgis_env env;
static uint16_t list[MOST_WORDS];
static size_t words;
static uint8_t screen[MOST_BYTES];
static size_t bytes;
static uint32_t budget = 100;

/* ---- the words of a line ---- */

/* Moves past one word and the space behind it; the word is ended where that space was. */
static char *next_word(char **line)
{
    char *word = *line;
    char *space = strchr(word, ' ');

    if (space == 0) {
        *line = word + strlen(word);
    } else {
        *space = 0;
        *line = space + 1;
    }
    return word;
}

static int is(const char *a, const char *b)
{
    return strlen(a) == strlen(b) && memcmp(a, b, strlen(a)) == 0;
}

static int64_t number(const char *word)
{
    int negative = *word == '-';
    int64_t value = (int64_t)strtoull(word + negative, 0, 10);

    return negative ? -value : value;
}

static uint32_t natural(char **line)
{
    return (uint32_t)number(next_word(line));
}

/* ---- the commands ---- */

static void make_fresh(char *line)
{
    uint32_t width = natural(&line), height = natural(&line);
    uint32_t left = natural(&line), top = natural(&line), right = natural(&line), bottom = natural(&line);
    int made = afgis_fresh(width, height, left, top, right, bottom, &env);

    bytes = width >= 1 && width <= 2048 && height >= 1 && height <= 2048 ? (size_t)width * height : 0;
    memset(screen, 0, bytes);
    words = 0;
    budget = 100;
    printf("made %d\n", made);
}

struct field {
    const char *name;
    void *place;
};

static int set_field(char *line)
{
    const struct field fields[] = {
        { "width", &env.width }, { "height", &env.height }, { "left", &env.left }, { "top", &env.top },
        { "right", &env.right }, { "bottom", &env.bottom }, { "x", &env.x }, { "y", &env.y },
        { "ox", &env.origin_x }, { "oy", &env.origin_y },
        { "x0", &env.x0 }, { "y0", &env.y0 }, { "x1", &env.x1 }, { "y1", &env.y1 }, { "mode", &env.mode },
        { "pattern", &env.pattern }, { "first", &env.first }, { "second", &env.second }, { "counter", &env.counter },
        { "depth", &env.depth }, { "place", &env.place }, { "nesting", &env.nesting },
    };
    char *name = next_word(&line);
    uint32_t value = (uint32_t)number(line);

    if (is(name, "colour"))
        env.colour = (uint8_t)value;
    else if (is(name, "state"))
        env.state = (uint8_t)value;
    else if (*name == 'V')
        env.variables[number(name + 1)] = (int32_t)value;
    else if (*name == 'S')
        env.stack[number(name + 1)] = value;
    else if (*name == 'B')
        env.repeats[number(name + 1)].start = value;
    else if (*name == 'P')
        env.repeats[number(name + 1)].left = value;
    else {
        for (size_t i = 0; i < sizeof fields / sizeof *fields; i++)
            if (is(name, fields[i].name)) {
                memcpy(fields[i].place, &value, sizeof value);
                return 1;
            }
        return 0;
    }
    return 1;
}

static void take_list(char *line)
{
    words = 0;
    while (*line != 0) {
        char *behind;
        uint16_t word = (uint16_t)strtoull(next_word(&line), &behind, 16);
        int64_t times = *behind == '*' ? number(behind + 1) : 1;

        for (int64_t i = 0; i < times && words < MOST_WORDS; i++)
            list[words++] = word;
    }
}

/* ---- what a run prints ---- */

static void print_row(size_t at, size_t width)
{
    for (size_t i = 0; i < width; i++)
        printf(i == 0 ? "%d" : " %d", screen[at + i]);
    printf("\n");
}

/* A row of a large screen by its runs of equal bytes, where it is not all zeros. */
static void print_runs(size_t row, size_t at, size_t width)
{
    size_t zeros = 0;

    while (zeros < width && screen[at + zeros] == 0)
        zeros++;
    if (zeros == width)
        return;
    printf("row %zu:", row);
    for (size_t i = 0, j; i < width; i = j) {
        for (j = i; j < width && screen[at + j] == screen[at + i]; j++)
            ;
        printf(j - i > 1 ? " %d*%zu" : " %d", screen[at + i], j - i);
    }
    printf("\n");
}

static void print_screen(void)
{
    size_t width = env.width > 0 ? env.width : bytes > 0 ? bytes : 1;
    int small = env.width <= SMALL_WIDTH && bytes <= SMALL_SCREEN;

    printf("screen %zu\n", bytes);
    for (size_t row = 0, at = 0; at < bytes; row++, at += width) {
        size_t here = bytes - at < width ? bytes - at : width;

        if (small)
            print_row(at, here);
        else
            print_runs(row, at, here);
    }
}

static void run(void)
{
    struct afgis_answer answer = afgis_run(list, words, screen, bytes, &env, budget);

    printf("answer %d place %u steps %u\n", answer.number, answer.place, answer.steps);
    printf("size %u %u pane %u %u %u %u\n", env.width, env.height, env.left, env.top, env.right, env.bottom);
    printf("position %d %d origin %d %d colour %d pattern %u mode %u window %d %d %d %d\n", env.x, env.y, env.origin_x,
           env.origin_y, env.colour, env.pattern, env.mode, env.x0, env.y0, env.x1, env.y1);
    printf("compared %d %d\n", env.first, env.second);
    printf("state %d place %u counter %u depth %u returns", env.state, env.place, env.counter, env.depth);
    for (uint32_t i = 0; i < env.depth && i < 16; i++)
        printf(" %u", env.stack[i]);
    printf("\nnesting %u repeats", env.nesting);
    for (uint32_t i = 0; i < env.nesting && i < 8; i++)
        printf(" %u %u", env.repeats[i].start, env.repeats[i].left);
    printf("\n");
    for (int i = 0; i < 64; i++)
        if (env.variables[i] != 0)
            printf("V%d %d\n", i, env.variables[i]);
    print_screen();
}

/* ---- what the checker and lit dots print ---- */

static void check(void)
{
    struct afgis_checked checked = afgis_check(list, words);

    printf("checked %d place %u steps %u\n", checked.number, checked.place, checked.steps);
}

static void count_lit(char *line)
{
    uint32_t length = natural(&line), pattern = natural(&line);
    struct afgis_lit_dots lit = afgis_lit(length, pattern);

    printf("lit %d count %u\n", lit.number, lit.count);
}

/* ---- the file ---- */

static int carry_out(char *line)
{
    char *command;

    if (*line == 0 || *line == '#')
        return 1;
    if (*line == '=') {
        printf("%s\n", line);
        return 1;
    }
    command = next_word(&line);
    if (is(command, "fresh"))
        make_fresh(line);
    else if (is(command, "set"))
        return set_field(line);
    else if (is(command, "bytes")) {
        bytes = natural(&line);
        memset(screen, 0, bytes);
    } else if (is(command, "budget"))
        budget = natural(&line);
    else if (is(command, "list"))
        take_list(line);
    else if (is(command, "run"))
        run();
    else if (is(command, "check"))
        check();
    else if (is(command, "lit"))
        count_lit(line);
    else
        return 0;
    return 1;
}

int main(void)
{
    static char text[MOST_TEXT + 1];
    size_t length = 0;
    long got;
    char *line = text;

    while ((got = read(0, text + length, MOST_TEXT - length)) > 0)
        length += (size_t)got;
    for (int count = 1; *line != 0; count++) {
        char *end = strchr(line, '\n');

        if (end != 0)
            *end = 0;
        if (end == 0 || !carry_out(line)) {
            printf("line %d is malformed\n", count);
            return 1;
        }
        line = end + 1;
    }
    return 0;
}
