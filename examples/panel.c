/* A panel: two lists on one screen, each in its pane, played in slices; what went wrong is said in words. examples/run builds and
   runs it; README.md has what stands between the two lines of dots. */
#include <stdio.h>

#include "ovenlute.h"

enum { WIDTH = 40, HEIGHT = 12, SLICE = 100 };

#define WORDS(list) (sizeof(list) / sizeof *(list))

static uint8_t screen[WIDTH * HEIGHT];

/* A line across the left pane, and the list ends. */
static const uint16_t level[] = {
    0x001F, 0x000A, 0x0000,                         /* COLORF 10 */
    0x0074, 0x0000, 0x0000, 0x000B, 0x0013, 0x0003, /* LINE solid from (0, 11) to (19, 3) */
    0x0001                                          /* EODL */
};

/* A line that reaches out of the right pane, and a loop that counts to 1,000, which takes some slices; then V0 is divided by V1,
   which is 0: the list is stopped. */
static const uint16_t pump[] = {
    0x001F, 0x000C, 0x0000,                         /* COLORF 12 */
    0x0074, 0x0000, 0x0000, 0x0000, 0x0027, 0x000B, /* LINE solid from (0, 0) to (39, 11) */
    0x005D, 0x0000,                                 /* 0009: INCV V0 */
    0x0033, 0x03E8, 0x0000, 0x0000,                 /* CPIV V0 with 1,000 */
    0x010C, 0x0004, 0xFFF7,                         /* JUMPR if less to 0009 */
    0x0045, 0x0001, 0x0000,                         /* 0012: DIVV V0 by V1 */
    0x0001                                          /* EODL */
};

/* With 20 to 29 also where: the index of the word at fault. */
static void say(const char *name, struct ovenlute_done done) {
    struct ovenlute_words words = ovenlute_text(done.number);
    printf("%s: %d, %s", name, done.number, words.text);
    if (done.number >= OVENLUTE_PAST_END) printf(": word %04X", (unsigned)done.place);
    putchar('\n');
}

static void show(void) {
    int x, y;
    for (y = 0; y < HEIGHT; y++) {
        for (x = 0; x < WIDTH; x++) putchar(screen[y * WIDTH + x] ? '#' : '.');
        putchar('\n');
    }
}

/* .......... */
int main(void) {
    struct ovenlute_pane left = { 0, 0, 19, 11 }, right = { 20, 0, 39, 11 };
    struct ovenlute_made one = ovenlute_fresh(WIDTH, HEIGHT, left), two = ovenlute_fresh(WIDTH, HEIGHT, right);
    struct ovenlute_done first, second;
    do { /* a slice of each: at most 100 opcodes; a list that has ended or stopped answers its number again */
        first = ovenlute_run(level, WORDS(level), screen, sizeof screen, &one.env, SLICE);
        second = ovenlute_run(pump, WORDS(pump), screen, sizeof screen, &two.env, SLICE);
    } while (first.number == OVENLUTE_BUDGET || second.number == OVENLUTE_BUDGET);
    say("level", first);  /* level: 0, the list has ended */
    say("pump", second);  /* pump: 26, the divisor is zero: word 0012 */
    /* .......... */
    show();
    return 0;
}
