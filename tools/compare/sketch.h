/* A list in the making: words, opcodes with their operands, and targets that are filled in once the whole list is known. */
#ifndef SKETCH_H
#define SKETCH_H

#include "forms.h"
#include "make.h"

enum { MOST_STARTS = 400, MOST_TARGETS = 200 };

/* A place that holds a jump's or call's target, filled in once the whole list is known. */
struct target {
    size_t place;
    enum { ADDRESS, OFFSET_WORD, OFFSET_LONG } kind;
    size_t next;  /* the next opcode's index, from which an offset counts */
};

struct sketch {
    struct call *call;
    int is_far;
    size_t starts[MOST_STARTS];
    size_t opcodes;
    struct target targets[MOST_TARGETS];
    size_t jumps;
    struct ovenlute_dot origin;  /* that is set when the opcode comes, where none before it jumps */
    struct ovenlute_dot aim;     /* that the opcode's points are made for: this one, or (0, 0) */
    struct circle circle;        /* that the opcode draws, if it draws one */
    struct ends line;            /* the same of a line */
    struct ovenlute_dot moved;   /* the origin that the opcode sets, if it sets one */
};

/* The call's list is empty again; `is_far` allows points far off the screen. */
void start_sketch(struct sketch *sketch, struct call *call, int is_far);

void put_word(struct sketch *sketch, int32_t word);
void put_long(struct sketch *sketch, int32_t value);
void put_opcode(struct sketch *sketch, uint16_t opcode);

/* One opcode of this form or number, at times with its variables loaded before. */
void put_form(struct sketch *sketch, const struct form *form);
void put_named(struct sketch *sketch, uint16_t opcode);

/* LDIV or LDIVL of a value into a variable. */
void put_load(struct sketch *sketch, int32_t value, uint16_t variable);

void put_end(struct sketch *sketch);

/* A condition of a jump, now and then one that isn't allowed. */
int32_t make_condition(void);

/* Blocks between RPT and ERPT, in one another and in each other's way, without their targets. */
void put_repeats(struct sketch *sketch);

/* Fills in the targets. */
void settle_targets(struct sketch *sketch);

#endif
