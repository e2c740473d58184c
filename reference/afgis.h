/* AFGIS display lists by documents 01 and 02, in plain C: the second program, written from the papers alone. */
#ifndef AFGIS_H
#define AFGIS_H

#include <stddef.h>
#include <stdint.h>

/* 02's T-09, an open repeat: "a word index and 1 to 1,000 passes left". */
struct afgis_repeat {
    uint32_t start;                     /* where its block begins: behind the RPT, 0 to 65,536 */
    uint32_t left;
};

/* "The environment holds". */
struct afgis_env {
    uint32_t width, height;             /* the screen's size, each 1 to 2,048 */
    uint32_t left, top, right, bottom;  /* the pane, both ends inside */
    int32_t variables[64];
    int32_t x, y;                       /* the position, each -32,768 to 32,767; 02's T-06: "positions stay logical" */
    int32_t origin_x, origin_y;         /* 02's T-06: "an origin of two signed words, (0, 0) when fresh" */
    uint8_t colour;                     /* the foreground colour */
    uint32_t mode;                      /* the clip mode, 0 to 2 */
    uint32_t pattern;                   /* 02's T-03: the line pattern, bit 0 lowest */
    int32_t x0, y0, x1, y1;             /* the clip window, four signed words */
    int32_t first, second;              /* the two values last compared */
    uint32_t counter;                   /* the program counter, 0 to 65,536 */
    uint32_t depth;                     /* how many return indices are stacked, 0 to 16 */
    uint32_t stack[16];                 /* those below depth: each 0 to 65,536 */
    uint32_t nesting;                   /* how many repeats are open, 0 to 8 */
    struct afgis_repeat repeats[8];     /* those below nesting count, the innermost last */
    uint8_t state;                      /* 0 running, 1 ended, 20 to 29 stopped with that number */
    uint32_t place;                     /* stopped: "the word index at fault", 0 to 65,536; else 0 */
};

struct afgis_answer {
    int number;
    uint32_t place;                     /* 20 to 29: "the word index at fault"; "all other numbers carry 0" */
    uint32_t steps;
};

struct afgis_checked {
    int number;
    uint32_t place;                     /* 20 to 30: "the word index at fault"; "all other numbers carry 0" */
    uint32_t steps;                     /* 0: "the steps needed to the EODL"; else 0 */
};

struct afgis_mended {
    int number;
    uint32_t changes;                   /* 0: how many words were changed; 32: how many would be; 13: 0 */
};

struct afgis_lit_dots {
    int number;
    uint32_t count;                     /* how many dots light up */
};

struct afgis_dot {
    int32_t x, y;
};

struct afgis_writer {
    int number;
    uint8_t colour;                     /* that the step painted */
    uint32_t step;                      /* the one that "last wrote that dot", "counted from 1"; where "no step did" all is 0 */
    uint32_t opcode;                    /* "its word index in the list" */
};

/* Makes a fresh environment: 0, or 10 or 12 and an environment of zeros. */
int afgis_fresh(uint32_t width, uint32_t height, uint32_t left, uint32_t top, uint32_t right, uint32_t bottom,
                struct afgis_env *env);

/* Runs a list: at most `budget` opcodes, painting on the screen and changing the environment. */
struct afgis_answer afgis_run(const uint16_t *list, size_t words, uint8_t *screen, size_t bytes,
                              struct afgis_env *env, uint32_t budget);

/* 02's T-09: whether a list surely finishes, and in how many steps: 0, or 13, 20 to 22, 24 or 28 to 31. */
struct afgis_checked afgis_check(const uint16_t *list, size_t words);

/* 02's T-14: mends a list "off bad EPROMs" and reports each change in three numbers, index, old word and new word: 0, 13 or 32. */
struct afgis_mended afgis_mend(uint16_t *list, size_t words, uint32_t *report, size_t numbers);

/* 02's T-04: how many dots of a dashed line light up, "from length in dots and pattern alone": 0 and the count, or 25 and 0. */
struct afgis_lit_dots afgis_lit(uint32_t length, uint32_t pattern);

/* 02's T-08: who painted each of some dots, in one run: 0 and the step, or 10, 12, 13, 14 or 25 and zeros. */
void afgis_who(const uint16_t *list, size_t words, const struct afgis_env *env, uint32_t budget, const struct afgis_dot *dots,
               size_t count, struct afgis_writer *writers);

#endif
