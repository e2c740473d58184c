/* One call of ovenlute_run with all that it is given, and the kinds of things that it was made of. */
#ifndef CALL_H
#define CALL_H

#include "course.h"
#include "env.h"

enum { MOST_WORDS = 65536, MOST_STEPS = 1000000, MOST_SIDE = 2048 };

/* Room for lists and screens somewhat longer than any that is allowed. */
enum { LIST_ROOM = MOST_WORDS + 64, SCREEN_ROOM = MOST_SIDE * MOST_SIDE + 4 * MOST_SIDE };

/* Of how many dots of each call it is asked who painted them. */
enum { DOTS_ASKED = 3 };

/* Whatever is counted belongs to one of these groups. A call has at most one member of each, but for those from CLEARINGS on:
   those are counted for each CLRWIN, each line, each circle, each origin and each repeat on its way, for its list, and for each
   dot that is asked for. Those from MENDED on are no call's: they are counted for each mending, or once for each list mended. */
enum group {
    CALLS, LISTS, ENVIRONMENTS, BROKEN_FIELDS, SIZES, PANES, WINDOWS, MODES, BUDGETS, SCREENS,
    DOOR_PAIRS, OPCODE_PAIRS, PROFILES, SLICED, SLICES, FRESH_CALLS, NUMBERS, PLACES, MISNAMED, CLEARINGS, LINES, HALVES, CUTS,
    DASH_OPCODES, DASH_PATTERNS, DASH_LENGTHS, DASHES_X_AHEAD, DASHES_X_BACK, DASHES_Y_AHEAD, DASHES_Y_BACK,
    REFUSED_LINES, LIT_LENGTHS, LIT_PATTERNS, LIT_RUNS, LIT_LINES, FILLED_CIRCLES, OUTLINES, REFUSED_CIRCLES,
    ORIGINS_SET, REFUSED_ORIGINS, ORIGINS, MOVED_SHAPES, SUMS, MOVED_WINDOWS, MODES_CHANGED,
    OPEN_REPEATS, REPEAT_FIELDS, REPEATS_OPENED, COUNTS, REFUSED_REPEATS, WENT_BACK, CLOSED, PASSES, WITH_REPEATS, SLICED_REPEATS,
    CHECKED, CHECKED_STEPS, CHECKED_DEPTHS, CHECKED_ENDS, CHECKED_21, CHECKED_CUTS, CHECKED_COUNTS, CHECKED_RUNS,
    WHO_NUMBERS, WHO_OUTSIDE, WHO_SOONER, WHO_DOTS, WHO_WRITERS, WHO_STEPS, WHO_BEFORE, WHO_RUNS, WHO_OF_NOBODY,
    MENDED, MENDED_REPORTS, MENDED_LISTS, MENDED_CHANGES, MENDED_UNKNOWN, MENDED_CUTS,
    GROUPS
};

enum { CALL_WHOLE, CALL_SLICE, CALL_LARGER, CALL_MIXED, CALL_ALONE, CALL_KINDS };

enum {
    LIST_EMPTY, LIST_OPCODE_WORD, LIST_RANDOM, LIST_VALID, LIST_DAMAGED, LIST_LOOP, LIST_ENDLESS, LIST_CALLS,
    LIST_LINES, LIST_ORIGINS, LIST_REPEATS, LIST_LONGEST, LIST_TOO_LONG, LIST_PAST_32_BITS, LIST_TWO_REFUSALS, LIST_MISNAMED,
    LIST_PROFILE, LIST_KINDS
};

enum { ENV_FRESH, ENV_MID_RUN, ENV_CONTINUED, ENV_STOPPED, ENV_ENDED, ENV_BROKEN, ENV_KINDS };

/* The last of the broken fields: of the repeats. */
enum { BROKEN_NESTING = 21, BROKEN_START, BROKEN_NO_PASSES, BROKEN_PASSES_ABOVE };

enum { SIZE_DOT, SIZE_SMALL, SIZE_MIDDLE, SIZE_LONG, SIZE_FULL, SIZE_KINDS };

enum { PANE_WHOLE, PANE_PART, PANE_STRIP, PANE_DOT, PANE_KINDS };

enum {
    WINDOW_WHOLE, WINDOW_PART, WINDOW_DOT, WINDOW_EMPTY, WINDOW_OUTSIDE, WINDOW_WIDEST, WINDOW_ANY, WINDOW_KINDS
};

enum {
    BUDGET_NONE, BUDGET_ONE, BUDGET_FEW, BUDGET_ENOUGH, BUDGET_MANY, BUDGET_BEFORE_REFUSAL, BUDGET_LIMIT, BUDGET_ABOVE,
    BUDGET_KINDS
};

enum { SCREEN_RIGHT, SCREEN_SHORT, SCREEN_ONE_MORE, SCREEN_NONE, SCREEN_OTHER, SCREEN_PAST_32_BITS, SCREEN_KINDS };

/* What was run in slices: a list that ends, runs on or is stopped, an environment that had ended or was stopped before,
   a call that the door refuses. */
enum {
    SLICED_ENDS, SLICED_RUNS_ON, SLICED_STOPS, SLICED_HAD_ENDED, SLICED_WAS_STOPPED, SLICED_REFUSED_10,
    SLICED_KINDS = SLICED_REFUSED_10 + 4
};

enum { SLICES_OF_1, SLICES_OF_7, SLICES_OF_ANY_SIZE, SLICES_KINDS };

enum { FRESH_GOOD, FRESH_BAD_SIZE, FRESH_BAD_PANE, FRESH_BOTH_BAD, FRESH_KINDS };

/* The place of an answer 20 to 29: the list's first word, one further on, the last of the longest list, or behind it. */
enum { PLACE_FIRST, PLACE_INSIDE, PLACE_LAST_OF_LONGEST, PLACE_BEHIND_LONGEST };

/* What a 23 was met at: INCV's variable; Vs, Vd or both; Vd behind a word or a long; Vi alone, the first of two to five,
   or only a follower of such a one: each of the last two is followed by three more. */
enum {
    MISNAMED_V, MISNAMED_VS, MISNAMED_VD, MISNAMED_VS_AND_VD, MISNAMED_VD_BEHIND_WORD, MISNAMED_VD_BEHIND_LONG,
    MISNAMED_VI, MISNAMED_FIRST_OF_2, MISNAMED_FOLLOWER_OF_2 = MISNAMED_FIRST_OF_2 + 4
};

enum { CLEARING_SCREEN, CLEARING_ROWS, CLEARING_PARTS, CLEARING_NO_COLUMN, CLEARING_NO_ROW, CLEARING_KINDS };

/* Whether a line's other coordinate rises from the smaller one on the long axis on: three kinds for each of its ways
   (course.h), and behind them the line that is one dot. */
enum { LINE_RISING, LINE_LEVEL, LINE_FALLING, LINE_SLOPES };
enum { LINE_DOT = LINE_SLOPES * WAYS };
enum { HALF_RISING, HALF_FALLING };

/* Which dots of a line are not drawable: none, all, or those before its first drawable dot and those behind its last, where
   its place on the long axis is outside or on the other one. */
enum { CUT_NOWHERE, CUT_TO_NOTHING, CUT_START_LONG, CUT_START_OTHER, CUT_END_LONG, CUT_END_OTHER };

/* A line of type 1 that was drawn: by LINE or LINEV, or by one of the other four; and its pattern's bits. */
enum { DASH_LINE, DASH_LINETO = 2 };
enum { PATTERN_NONE, PATTERN_ALL, PATTERN_LOWEST, PATTERN_HIGHEST, PATTERN_OTHER };

/* Which of its dots are drawable, for each of its ways: all, none, or not those at the first point given, or at the second;
   whether the window takes more away than the pane does; and the number of the first that is, where it is not 0. */
enum {
    DASH_WHOLE, DASH_UNSEEN, DASH_CUT_AT_FIRST, DASH_CUT_AT_SECOND, DASH_CUT_BY_WINDOW, DASH_FROM_1, DASH_FROM_32,
    DASH_FROM_ABOVE_32
};

/* What lit dots were counted for: a length, the runs of 32 in it and what is left, and a line by its way. */
enum {
    LENGTH_NONE, LENGTH_TO_200, LENGTH_BETWEEN, LENGTH_LONGEST_BUT_ONE, LENGTH_LONGEST, LENGTH_TOO_LONG, LENGTH_LARGEST
};
enum { RUNS_WHOLE, RUNS_NONE, RUNS_AND_LEFTOVER };
enum { LIT_X_AHEAD, LIT_X_BACK, LIT_Y_AHEAD, LIT_Y_BACK };

/* What was wrong about a line: its type, or only its points. */
enum { REFUSED_LINE_TYPE_2, REFUSED_LINE_TYPE_MINUS_1, REFUSED_LINE_LOW_WORD_1, REFUSED_DASH_POINT };

/* A circle that was drawn: its radius; what of the filled one is drawable: all, a part, none, or every drawable dot; where some
   is, whether the window takes more away than the pane does, and whether the centre is more than 2,048 off the screen. */
enum {
    CIRCLE_RADIUS_0, CIRCLE_RADIUS_1, CIRCLE_RADIUS_32767, CIRCLE_WHOLE, CIRCLE_CUT, CIRCLE_OUTSIDE, CIRCLE_COVERS,
    CIRCLE_CUT_BY_WINDOW, CIRCLE_FROM_FAR
};

/* What was wrong about a circle: the type, alone or with what would be 25; the centre, the radius, or both. */
enum {
    REFUSED_TYPE_1, REFUSED_TYPE_AND_CENTRE, REFUSED_TYPE_AND_RADIUS, REFUSED_CENTRE, REFUSED_CENTRE_AND_RADIUS,
    REFUSED_RADIUS_32768, REFUSED_RADIUS_ABOVE, REFUSED_RADIUS_BELOW_0
};

/* How an origin came to be: by either opcode in place of (0, 0), by either in place of another one, back to (0, 0) by either, or
   with the environment. */
enum {
    SET_BY_XYORG, SET_BY_XYORGV, SET_OVER_ANOTHER, SET_BACK = 2 * SET_OVER_ANOTHER, SET_BY_ENVIRONMENT
};

/* What was wrong about one: x, y or both beyond a word; a value whose low word would do; the variable, or only its follower. */
enum {
    REFUSED_ORIGIN_X, REFUSED_ORIGIN_Y, REFUSED_ORIGIN_BOTH, REFUSED_ORIGIN_LOW_WORD, REFUSED_ORIGIN_VARIABLE,
    REFUSED_ORIGIN_FOLLOWER
};

/* The origin that a shape was drawn under: none, one about the screen, either end of the word, or another. */
enum {
    ORIGIN_NONE, ORIGIN_SMALL, ORIGIN_X_LOWEST, ORIGIN_X_HIGHEST, ORIGIN_Y_LOWEST, ORIGIN_Y_HIGHEST, ORIGIN_OTHER
};

/* The sum of an origin and a point of a shape: the least and the greatest, or one beyond a signed word, and whether some of the
   shape is seen all the same. */
enum {
    SUM_X_LOWEST, SUM_X_HIGHEST, SUM_Y_LOWEST, SUM_Y_HIGHEST, SUM_DOT_BEYOND, SUM_LINE_BEYOND, SUM_LINE_BEYOND_SEEN,
    SUM_CIRCLE_BEYOND, SUM_CIRCLE_BEYOND_SEEN
};

/* The window under an origin: one of mode 1 as it is moved, by where it is on the screen, or, beyond a signed word, reaches it
   all the same; or one of mode 2. */
enum { WINDOW_1_EMPTY, WINDOW_1_OFF, WINDOW_1_CUT, WINDOW_1_INSIDE, WINDOW_1_BEYOND_SEEN, WINDOW_2 };

/* The repeats that an environment comes with, beside how many: either end of what is allowed, and what would be 12 were it not
   past the nesting. */
enum { FIELD_START_0, FIELD_START_65536, FIELD_LEFT_1, FIELD_LEFT_1000, FIELD_PAST_NESTING };

/* An RPT that was carried out, by its count, beside how many are open then; and one that was refused, by its count or not. */
enum { COUNT_1, COUNT_INSIDE, COUNT_1000 };
enum {
    REFUSED_REPEAT_CUT, REFUSED_COUNT_0, REFUSED_COUNT_1001, REFUSED_COUNT_7FFF, REFUSED_COUNT_8000, REFUSED_COUNT_FFFF,
    REFUSED_COUNT_OTHER, REFUSED_REPEAT_NINTH
};

/* What an ERPT met, beside how many are open: it goes back with 1,000 left or with two, to itself, or behind the list; it closes
   the block behind it; a return is stacked; none is open. */
enum { PASS_OF_1000, PASS_OF_2, PASS_TO_ITSELF, PASS_BEHIND_LIST, PASS_INSIDE_CALL, PASS_NONE_OPEN };

/* Other opcodes that were carried out with a repeat open: a jump to before the block, any other, calls, RTRN and EODL; and an RPT
   whose own repeat was open already. */
enum { INSIDE_JUMP_BEFORE, INSIDE_JUMP, INSIDE_CALL, INSIDE_RETURN, INSIDE_END, INSIDE_SAME_REPEAT };

/* Where a slice of a budget ended with a repeat open: anywhere, where the block begins, before its ERPT. */
enum { SLICE_INSIDE, SLICE_AT_START, SLICE_BEFORE_ERPT };

/* What a list of T-09's profile was made to be: sound, eight blocks deep, or cut at a word; with a fault, or with another one
   behind it; of a million steps, of one more, of so many that 32 or 64 bits would not hold them, or of too many and a fault;
   with words behind its EODL; or of 65,536 words. */
enum {
    PROFILE_SOUND, PROFILE_DEEPEST, PROFILE_CUT, PROFILE_FAULT, PROFILE_TWO_FAULTS, PROFILE_MILLION, PROFILE_ONE_MORE,
    PROFILE_PAST_32_BITS, PROFILE_PAST_64_BITS, PROFILE_MANY_AND_FAULT, PROFILE_WORDS_BEHIND, PROFILE_LONGEST, PROFILE_TOO_LONG
};

/* What was said of a list: the number; of a sound one its steps, beside how deep its blocks are, and whether its EODL is the last
   word. */
enum { STEPS_1, STEPS_TO_1000, STEPS_ABOVE_1000, STEPS_MILLION };
enum { EODL_LAST, EODL_LAST_OF_LONGEST, EODL_AND_WORDS };

/* What a 21 was met at: no opcode, or one that is foreign, whole or cut; and one of these inside a block. */
enum { FOREIGN_NONE, FOREIGN_JUMP, FOREIGN_CALL, FOREIGN_RETURN, FOREIGN_JUMP_CUT, FOREIGN_CALL_CUT, FOREIGN_INSIDE };

/* Where a list ended too soon: 20 with no word, outside all blocks, right behind an RPT or elsewhere in a block; 22 inside an RPT,
   or the ninth, or inside another opcode, in a block or not; and either at the end of the longest list. */
enum {
    CUT_NO_WORDS, CUT_OUTSIDE, CUT_BEHIND_RPT, CUT_INSIDE, CUT_RPT, CUT_NINTH_RPT, CUT_OPCODE, CUT_OPCODE_INSIDE, CUT_AT_65535,
    CUT_AT_65536
};

/* The counts that 24 was told of are those of a run, and behind them one of a ninth RPT. */
enum { CHECKED_COUNT_OF_NINTH = REFUSED_COUNT_OTHER - REFUSED_COUNT_0 + 1 };

/* How a run from a fresh environment went: in exactly the steps told, fewer than a million or all of them, short of them, stopped
   sooner by 23 to 26; refused with the number told, at the same place, sooner by 23 to 26, or not within the budget; or on and
   on where the steps are too many. */
enum {
    RUN_ENDS, RUN_ENDS_IN_MILLION, RUN_SHORT, RUN_STOPS_23, RUN_REFUSED_20 = RUN_STOPS_23 + 4, RUN_REFUSED_22, RUN_REFUSED_24,
    RUN_REFUSED_28, RUN_REFUSED_29, RUN_REFUSED_SOONER, RUN_NOT_YET, RUN_ON_AND_ON
};

/* A dot outside the screen that was refused with 25: next to one of its sides, at a corner, beyond a word, or at either end of
   32 bits; and the number that came sooner for such a dot. */
enum {
    OUTSIDE_LEFT, OUTSIDE_TOP, OUTSIDE_RIGHT, OUTSIDE_BOTTOM, OUTSIDE_CORNER, OUTSIDE_BEYOND_WORD, OUTSIDE_LOWEST, OUTSIDE_HIGHEST
};
enum { SOONER_10, SOONER_12 };

/* A dot of the screen: in the pane, not at its edge or at it, or not in the pane, next to it or not; and one in the pane that the
   window leaves out with which the environment comes, next to the window or not. */
enum { DOT_IN_PANE, DOT_AT_PANE_EDGE, DOT_NEXT_TO_PANE, DOT_OFF_PANE, DOT_NEXT_TO_WINDOW, DOT_OFF_WINDOW };

/* The opcode that last wrote a dot: a line whose type stands in the list, or in a variable. */
enum {
    WRITER_PIXEL, WRITER_PIXELC, WRITER_LINE, WRITER_DASHED_LINE, WRITER_LINE_V, WRITER_FILLED_CIRCLE, WRITER_OUTLINE, WRITER_CLEARING
};

/* Its step: the first, the last that was carried out, both, or one between; and one above 200, above 16 bits, or at word 0. */
enum { STEP_FIRST, STEP_LAST, STEP_ONLY, STEP_BETWEEN, STEP_ABOVE_200, STEP_ABOVE_65535, STEP_AT_WORD_0 };

/* What the dot was before: as the call has it, or written by an earlier step of the run; in another colour, or in that one. */
enum { BEFORE_UNWRITTEN, BEFORE_UNWRITTEN_SAME, BEFORE_WRITTEN, BEFORE_WRITTEN_SAME };

/* How the run went in which a step wrote the dot, or none did: the list ends, runs on, is refused later, or isn't run with 11 but
   asked all the same; where none did, also an environment that had ended or was stopped, and a budget of 0. */
enum { WHO_RUN_ENDS, WHO_RUN_GOES_ON, WHO_RUN_REFUSED, WHO_RUN_11, WHO_HAD_ENDED, WHO_WAS_STOPPED, WHO_NO_BUDGET };

/* What a mending answered; and 13 where the report would have no room either. */
enum { MENDED_0, MENDED_13, MENDED_32, MENDED_13_AND_32 };

/* The report that it was lent: none at NULL or of no numbers, where there is something to mend or nothing; one around what the
   changes need, from a whole change less to four numbers more; a larger one, or one whose numbers are 2^32 more. */
enum {
    REPORT_NULL, REPORT_NULL_NOT_NEEDED, REPORT_NONE, REPORT_NONE_NOT_NEEDED, REPORT_CHANGE_SHORT,
    REPORT_EXACT = REPORT_CHANGE_SHORT + 3, REPORT_LARGER = REPORT_EXACT + 5, REPORT_PAST_32_BITS
};

/* What was done to a list of whole opcodes that is mended: nothing; words overwritten, bits flipped, a stretch erased to FFFF, its
   tail lost inside an opcode, every word overwritten, or all of this but the last; it has no words; it is one word and erased ones
   behind it; and, of 65,536 words, nothing, words overwritten, its tail lost or every word erased; or it has one word more. */
enum {
    DAMAGE_NONE, DAMAGE_WORDS, DAMAGE_BITS, DAMAGE_ERASED, DAMAGE_TAIL, DAMAGE_ANY_WORDS, DAMAGE_MUCH, DAMAGE_NO_WORDS,
    DAMAGE_OPCODE_WORD, DAMAGE_LONGEST_NONE, DAMAGE_LONGEST_WORDS, DAMAGE_LONGEST_TAIL, DAMAGE_LONGEST_ERASED, DAMAGE_TOO_LONG
};

/* How many words had to be changed. */
enum { CHANGES_NONE, CHANGES_1, CHANGES_TO_9, CHANGES_TO_99, CHANGES_ABOVE, CHANGES_MOST };

/* A word that is no opcode where one is due: any, the first of the list, the last, right behind another one, behind an EODL, or at
   index 65,535. */
enum { UNKNOWN_ANY, UNKNOWN_FIRST, UNKNOWN_LAST, UNKNOWN_AGAIN, UNKNOWN_BEHIND_EODL, UNKNOWN_AT_65535 };

/* An opcode cut by the end: what the rest of it is; and one that is all there is, or behind such a word, or behind an EODL, or in
   the longest list. */
enum {
    REST_NONE, REST_ZEROS, REST_SOME_ZEROS, REST_NO_ZEROS, CUT_IS_ALL, CUT_BEHIND_UNKNOWN, CUT_BEHIND_EODL, CUT_OF_LONGEST
};

enum { NOT_OF_A_KIND = -1, NO_EXPECTATION = -1 };

struct call {
    uint16_t list[LIST_ROOM];
    size_t words;
    uint8_t screen[SCREEN_ROOM];
    size_t bytes;
    struct ovenlute_env env;
    uint32_t budget;
    int expected;        /* the number that must come back where the maker knows it */
    int expected_check;  /* the number that the checker must tell of the list, the same way */
    struct ovenlute_dot dots[DOTS_ASKED];  /* that it is asked for, made when it has run */
    int kinds[GROUPS];
};

/* Copies all that counts, no more of list and screen than there is. */
void copy_call(struct call *to, const struct call *from);

#endif
