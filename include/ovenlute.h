/* Ovenlute: a proved player of AFGIS display lists. C99 and C++; link with libovenlute.a (tools/archive/run makes it, x86-64).
   docs/OPCODES.md has what a list may say, examples/ a panel to begin with. */
#ifndef OVENLUTE_H
#define OVENLUTE_H

#include <stddef.h>
#include <stdint.h>

#ifdef __cplusplus
extern "C" {
#endif

/* Raised with every change of a struct below. An environment that was kept from another version is to be made anew. */
#define OVENLUTE_VERSION 6

/* The limits. */
#define OVENLUTE_MOST_WORDS 65536     /* of a list */
#define OVENLUTE_MOST_STEPS 1000000   /* of a call: the largest budget */
#define OVENLUTE_MOST_SIDE 2048       /* of a screen, across and down */
#define OVENLUTE_VARIABLES 64
#define OVENLUTE_RETURNS 16           /* the most that are stacked */
#define OVENLUTE_REPEATS 8            /* the most that are open */
#define OVENLUTE_MOST_PASSES 1000     /* of a repeat */
#define OVENLUTE_MOST_DOTS 65536      /* of a line: the largest length that ovenlute_lit takes */
#define OVENLUTE_CHANGE_NUMBERS 3     /* of a report: what a change takes in it */
#define OVENLUTE_BLOCK_BYTES 53       /* of a record: the most that a block takes in it */

/* The numbers that come back; each comment is what ovenlute_text says of it. 10 to 14 are of a call: nothing is done, and
   environment and screen are as they were. 20 to 29 are of an opcode: it was not carried out and changed nothing, those before
   it stand, and the environment is stopped for good: it answers this number again, with its place. Only the 25 of ovenlute_lit and
   of ovenlute_who is of its call and of no opcode, and ovenlute_check, which carries nothing out, tells 20 to 29 of what it reads.
   30 and 31 are ovenlute_check's alone. 32 is ovenlute_mend's and ovenlute_record's: list, report and record are as they were.
   ovenlute_replay has two more, OVENLUTE_DIFFERS and OVENLUTE_MALFORMED below, of which ovenlute_text says nothing of their own. */
enum ovenlute_number {
    OVENLUTE_ENDED = 0,          /* the list has ended */
    OVENLUTE_BUDGET = 1,         /* the budget is used up, the list still runs */
    OVENLUTE_BAD_SIZE = 10,      /* the width or the height is not 1 to 2,048 */
    OVENLUTE_BAD_SCREEN = 11,    /* the screen's bytes are not width x height */
    OVENLUTE_BAD_FIELD = 12,     /* the pane is empty or not within the screen, or another field is out of its range */
    OVENLUTE_LONG_LIST = 13,     /* the list is above 65,536 words */
    OVENLUTE_LARGE_BUDGET = 14,  /* the budget is above 1,000,000 */
    OVENLUTE_PAST_END = 20,      /* the counter is at or past the list's end */
    OVENLUTE_NO_OPCODE = 21,     /* no opcode */
    OVENLUTE_CUT = 22,           /* the list ends inside the opcode */
    OVENLUTE_NO_VARIABLE = 23,   /* a variable above 63 */
    OVENLUTE_NOT_ALLOWED = 24,   /* a mode, type, condition or count that is not allowed */
    OVENLUTE_OUT_OF_RANGE = 25,  /* a coordinate or offset not -32,768 to 32,767, a radius not 0 to 32,767, a length above 65,536, a dot outside the screen */
    OVENLUTE_ZERO_DIVISOR = 26,  /* the divisor is zero */
    OVENLUTE_BAD_TARGET = 27,    /* a target that is not allowed */
    OVENLUTE_STACK_FULL = 28,    /* a call with 16 returns stacked, or a repeat with eight open */
    OVENLUTE_STACK_EMPTY = 29,   /* a return with none stacked, or the end of a repeat with none open */
    OVENLUTE_END_INSIDE = 30,    /* an EODL inside a repeat */
    OVENLUTE_MANY_STEPS = 31,    /* more than 1,000,000 steps are needed */
    OVENLUTE_NO_ROOM = 32        /* the report has no room for every change */
};

/* The state of an environment: one of these, or the number that it was stopped with, 20 to 29. */
enum ovenlute_state { OVENLUTE_STATE_RUNNING = 0, OVENLUTE_STATE_ENDED = 1 };

/* Columns left to right and rows top to bottom, both ends inside. */
struct ovenlute_pane {
    uint32_t left, top, right, bottom;
};

/* Screen size, each 1 to 2,048, and pane: no opcode changes them. */
struct ovenlute_bounds {
    uint32_t width, height;
    struct ovenlute_pane pane;
};

/* Each -32,768 to 32,767; ovenlute_who takes any. */
struct ovenlute_dot {
    int32_t x, y;
};

/* The clip window as a list gives it, both corners inside; each -32,768 to 32,767. */
struct ovenlute_window {
    int32_t x0, y0, x1, y1;
};

struct ovenlute_registers {
    struct ovenlute_dot position;  /* relative to the origin */
    struct ovenlute_dot origin;    /* where a list's (0, 0) is, counted from the screen's: added to each point that is drawn */
    struct ovenlute_window window;
    uint32_t mode;          /* clip mode: 0 the pane alone, 1 the window relative to the origin, 2 the window absolute */
    uint32_t pattern;       /* which dots a line of type 1 paints, bit 0 for its first point; any 32 bits */
    int32_t first, second;  /* the two values last compared */
    uint32_t counter;       /* program counter: a word index, 0 to 65,536 */
    uint32_t depth;         /* returns stacked, 0 to 16 */
    uint32_t place;         /* stopped: the place of the refusal, 0 to 65,536; else 0 */
    uint8_t colour;         /* foreground colour */
    uint8_t state;          /* enum ovenlute_state, or 20 to 29 */
};

/* An open repeat. */
struct ovenlute_repeat {
    uint32_t start;         /* where its block begins, behind the RPT: a word index, 0 to 65,536 */
    uint32_t left;          /* passes left, the one that runs among them: 1 to 1,000 */
};

struct ovenlute_env {
    struct ovenlute_bounds bounds;
    struct ovenlute_registers registers;
    int32_t variables[OVENLUTE_VARIABLES];
    uint32_t stack[OVENLUTE_RETURNS];     /* word indices; past depth nothing counts */
    uint32_t nesting;                     /* repeats open, 0 to 8 */
    struct ovenlute_repeat repeats[OVENLUTE_REPEATS];  /* the outermost first; past nesting nothing counts */
};

struct ovenlute_made {
    uint8_t number;
    struct ovenlute_env env;
};

struct ovenlute_done {
    uint8_t number;
    uint32_t place;         /* 20 to 29: the index of the word at fault; else 0 */
    uint32_t steps;         /* opcodes carried out in this call */
};

struct ovenlute_checked {
    uint8_t number;
    uint32_t place;         /* 20 to 30: the index of the word at fault; else 0 */
    uint32_t steps;         /* 0: the opcodes that a run carries out, its EODL among them, 1 to 1,000,000; else 0 */
};

struct ovenlute_mended {
    uint8_t number;
    uint32_t changes;       /* 0: how many words were changed; 32: how many would be; 13: 0 */
};

struct ovenlute_writer {
    uint8_t number;
    uint8_t colour;         /* that the step painted; 0 where no step did */
    uint32_t step;          /* the step that last wrote the dot, counted from 1; 0: no step did */
    uint32_t opcode;        /* the word index of its opcode; 0 where no step did */
};

struct ovenlute_recorded {
    uint8_t number;
    size_t used;            /* 0: the bytes of the record that are in use now, the block among them; 32: as many as were given */
};

/* What a call answered: its number and its steps. */
struct ovenlute_pair {
    uint32_t answer, steps;
};

/* The numbers of a replay alone. */
#define OVENLUTE_DIFFERS 33           /* a block of the record differs */
#define OVENLUTE_MALFORMED 34         /* a block of the record is malformed */

struct ovenlute_replayed {
    uint8_t number;
    size_t block;                   /* 33 and 34: which block, counted from 1; 0: how many there are, and all agree */
    struct ovenlute_pair recorded;  /* 33: what the block says; else 0 and 0 */
    struct ovenlute_pair came;      /* 33: what its run answered now; else 0 and 0 */
    struct ovenlute_env env;        /* as the last run left it; where none was made, as it was given */
};

struct ovenlute_lit_dots {
    uint8_t number;
    uint32_t count;         /* how many dots light up */
};

struct ovenlute_words {
    uint8_t length;
    char text[127];         /* the words and zeros behind them, at least one: a C string */
};

/* Any of the nine may be called from several threads at once on different environments, screens, reports and records: nothing is
   kept between calls but what is lent. Lists that share a screen take turns, and nobody else reads a list while it is mended. None
   allocates, and none needs more than 2 KiB of stack, ovenlute_replay 4 KiB. */

/* A fresh environment for a screen of that size and a pane in it: variables 0, position (0, 0), origin (0, 0), colour 15, clip
   mode 0, window the whole screen, pattern all ones, counter 0, no repeat open, running. Numbers: 0; 10 for a bad size; 12 for a
   bad pane, size first. With 10 and 12 env is all zeros, the pattern too, and a run over it answers 10. */
struct ovenlute_made ovenlute_fresh(uint32_t width, uint32_t height, struct ovenlute_pane pane);

/* Runs a list of 16-bit words on a screen of one byte a pixel, row by row from the top left, with the environment changed in
   place: at most `budget` opcodes, 0 to 1,000,000. Numbers: 0, 1, 10 to 14, 20 to 29.
   - 1: call again with the same list to go on. However a budget is cut into calls, the last number, environment and screen
     are those of one call, and the steps add up. A budget counts opcodes and not time: an opcode that clears a screen of
     2,048 x 2,048 sets four million bytes, so a host that has other things to do gives small budgets.
   - 10 to 14: nothing is done, steps is 0.
   - 20 to 29: the list is stopped; ovenlute_text has the words, place the index of the word at fault: with 23 the first operand
     that names a variable above 63 or one with followers above 63, else the opcode word; with 20 the opcode was due there.
     env->registers.counter is the index of the opcode in any case. All other numbers have place 0.
   List, screen and environment may not overlap. Only bytes inside the pane are written; the environment is written in any case,
   also where the call is refused, then with what it was. With length 0 a list or a screen may be NULL; env may not. */
struct ovenlute_done ovenlute_run(const uint16_t *list, size_t words, uint8_t *screen, size_t bytes,
                                  struct ovenlute_env *env, uint32_t budget);

/* Whether a list surely finishes, and in how many steps: one without jumps, calls and RTRN, whose only loops are the blocks between
   RPT and ERPT, at most eight in one another, each repeated 1 to 1,000 times, and whose EODL stands outside all blocks. Nothing is
   played and no environment is asked for. Words behind the EODL are not read.
   - 0: a run of the list from a fresh environment with a budget of `steps`, if it is not refused with 10 to 12, ends with 0 in
     exactly that many steps, or is stopped in fewer with one of 23 to 26, which a check does not look at.
   - Else the first fault in the list's order, with its place, and steps 0: 13; 20 the list ends without an EODL; 21 no opcode, or
     one that is foreign to such lists: a jump, a call, RTRN; 22 the list ends inside the opcode; 24 a count that is not 1 to 1,000;
     28 a ninth block inside eight; 29 an ERPT outside all blocks; 30 an EODL inside a block. 31, with place 0, where all is sound
     but more than 1,000,000 steps are needed.
   - 20, 22, 24, 28 and 29 are what a run from a fresh environment answers there, unless one of 23 to 26 stops it sooner.
   With length 0 the list may be NULL. */
struct ovenlute_checked ovenlute_check(const uint16_t *list, size_t words);

/* Mends a list that was read off a bad EPROM, in place, so that it can be walked: from word 0, opcode after opcode, through its
   end, an EODL passed like any other. A word that is no opcode where one is due becomes 0000, a NOOP, and the walk goes on at the
   next word. An opcode that the list's end cuts has its first word made 0001, an EODL, and the rest 0000. Numbers: 0; 13; then 32
   where the report has no room for every change. With 13 and 32 list and report are as they were.
   - The report has each word that differs afterwards, and no other, in rising order: its index, the old word and the new one, three
     numbers a change (OVENLUTE_CHANGE_NUMBERS), one change behind the other from the start. What lies behind the last is as it was.
   - `numbers` is the report's room: 3 x changes are needed, and there may be more. With 32 `changes` tells how many there are, so a
     host may ask with NULL and 0, and then lend what is needed. No list needs more than 196,608.
   - Afterwards such a walk meets nothing that a run would refuse with 21 or 22. A second mending changes nothing, and a list whose
     walk met nothing of the kind is unchanged. Words keep their indices, so targets fit as they did.
   - Not promised: that the list is the one that was burnt, or that a run of it ends well. No operand is judged, so a value may be
     wrong, and a jump may still lead into the middle of an opcode or out of the list.
   List and report may not overlap. With length 0 either may be NULL. */
struct ovenlute_mended ovenlute_mend(uint16_t *list, size_t words, uint32_t *report, size_t numbers);

/* Who painted this dot: which step of a run last wrote it, counted from 1, with the word index of its opcode and the colour that it
   painted. It is the very run that ovenlute_run makes with the same list, environment and budget, and no screen is asked for: the
   environment is given by value, and nothing is changed. Numbers: 0; 10, 12, 13 and 14 as of a run; then 25 for a dot that is
   outside the screen; never 11. With any of these but 0 all else is 0.
   - A step counts where the dot is one of those that it painted, also where the dot had that colour already. What is outside the
     pane or the clip window is not painted. A refused opcode wrote nothing; those before it did.
   - Step 0: no step wrote it, and colour and opcode are 0. It is so with an environment that has ended or was stopped, and with
     budget 0: nothing is carried out.
   - Where a step is named, the dot's byte after that run is its colour, whatever the screen was before; where none is, the byte is
     as it was.
   A question takes a run's steps, and a constant more for each opcode that paints, however many dots that are: none is walked. With
   length 0 the list may be NULL. */
struct ovenlute_writer ovenlute_who(const uint16_t *list, size_t words, struct ovenlute_env env, uint32_t budget,
                                    struct ovenlute_dot dot);

/* Records a call: appends a block to a record, behind the `used` bytes that are in use, 0 at first. Numbers: 0 and the bytes in use
   now, which are given to the next call; 32 where there is no room for the block or one of the numbers is above 4,294,967,295, and
   nothing is written. No block needs more than 53 bytes (OVENLUTE_BLOCK_BYTES).
   - A record is text: blocks of three lines, in this order, each number decimal without leading zeros, each line ended by a line
     feed:

         budget=1000
         answer=1
         steps=1000

   - With `used` above `bytes` there is no room. What lies behind the block is as it was.
   - For a replay, every call of a session is recorded: its budget, and the number and the steps that it answered.
   With length 0 the record may be NULL. */
struct ovenlute_recorded ovenlute_record(uint8_t *record, size_t bytes, size_t used, uint64_t budget, uint64_t answer,
                                         uint64_t steps);

/* Replays a record: from the environment that is given, a fresh one, the list is run on the screen with the budget of each block in
   turn, each run over the environment that the one before left, and its number and steps are compared with those recorded.
   Numbers: 0 all blocks agree; 33 a block differs: it is named, with both pairs, and nothing behind it is run; 34 a block is
   malformed: it is named, those before it were run and agree, and nothing behind it is run.
   - A session of one list and one screen from a fresh environment, each call given the environment last got back, every call
     recorded, agrees always when it is replayed from that environment on a screen of the same length, whatever its bytes.
   - Lend the bytes that are in use and no more: whatever stands behind the last block, a line feed or a 0 too, is a malformed block.
     A record of no bytes has no blocks, and agrees.
   - A budget above 1,000,000 is well formed: its run answers 14. A number above 4,294,967,295 is not.
   - Screen and environment are as the last run left them; where a block differs, that is the block's own run.
   List, screen and record may not overlap. With length 0 any of the three may be NULL. */
struct ovenlute_replayed ovenlute_replay(const uint16_t *list, size_t words, uint8_t *screen, size_t bytes, struct ovenlute_env env,
                                         const uint8_t *record, size_t length);

/* How many dots of a dashed line light up, clipping aside, from its length in dots and its pattern alone: whole runs of 32 dots
   times the ones in the pattern, plus the ones among the leftover low bits. Numbers: 0; 25 for a length above 65,536, with count 0.
   - ovenlute_lit(100, 0x0F0F0F0F) answers 0 and 52: three runs of 16, and 4 of the leftover 4 dots.
   - The line from (x0, y0) to (x1, y1) is n + 1 dots long, n the larger of the two absolute differences. So no line of a list is
     refused. The count is that of the dots which a line of type 1 paints with this pattern where nothing of it is cut.
   - Any pattern and any length may be given; with length 0 the count is 0. Nothing is walked: 65,536 dots take as long as one. */
struct ovenlute_lit_dots ovenlute_lit(uint32_t length, uint32_t pattern);

/* The words for a number that comes back. */
struct ovenlute_words ovenlute_text(uint8_t number);

#ifdef __cplusplus
}
#endif

#endif
