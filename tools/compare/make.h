/* Makes calls, and lists to be mended, at random: of every kind, with values near every edge. */
#ifndef MAKE_H
#define MAKE_H

#include "call.h"

/* A circle to be drawn; its radius is mostly allowed. */
struct circle {
    int32_t x, y, radius;
};

/* What ovenlute_fresh is given, and what it was made to be. */
struct request {
    uint32_t width, height;
    struct ovenlute_pane pane;
    int kind;
};

/* A list to be mended, and what was done to it: one of the damages (call.h). */
struct damaged {
    uint16_t list[LIST_ROOM];
    size_t words;
    int kind;
};

/* A call of any kind, also one to be refused at the door. */
void make_call(struct call *call);

/* A call that no door refuses, its environment running. */
void make_good_call(struct call *call);

/* A call with a budget of 0 to 60, which the door may refuse with 10 to 13. */
void make_call_to_slice(struct call *call);

/* A good call whose list paints a dot on and on, in more steps than 16 bits count. */
void make_long_run(struct call *call);

/* A good call whose list begins with this word. */
void make_opcode_word_call(struct call *call, uint16_t word);

/* A call whose list is sound by T-09's checker, to be cut at every word. */
void make_call_to_cut(struct call *call);

void make_request(struct request *request);

/* Makes the dots of a call by what its run has left: dots that it painted and those beside them, points of the opcode at which it
   stands, any dot of the screen, the corners of screen, pane and window, and dots outside. */
void make_dots(struct call *call, const struct ovenlute_env *after, const uint8_t *screen);

/* A list of whole opcodes to which a damage was done, or none; or one without a word. */
void make_damaged(struct damaged *damaged);

/* This word, and behind it erased ones, as many as an opcode may have. */
void make_damaged_word(struct damaged *damaged, uint16_t word);

/* A list of 65,536 words, or of one more, with this damage. */
void make_longest_damaged(struct damaged *damaged, int kind);

/* Sets a call's budget, and its kind. */
void set_budget(struct call *call, uint32_t budget);

/* Gives two calls the same screen and a pane each, mostly apart, at times overlapping. */
void make_two_panes(struct call *a, struct call *b);

/* ---- between the files that make calls ---- */

/* A value near an edge of a word, a long or a variable number. */
int32_t edge_value(void);

/* A coordinate for a screen side of this length: mostly on the screen or close by. */
int32_t make_coordinate(uint32_t side, int is_far);

/* An origin: often one about the screen, at times at either end of the word, or any. */
struct ovenlute_dot make_origin(const struct ovenlute_bounds *bounds);

/* A coordinate that an origin brings to this place, or at times, from an end of the word, the farthest from it; the place itself
   where no word leads there. */
int32_t before_origin(int32_t place, int32_t origin);

/* A circle for a screen, a pane and an origin: often one whose edge is in the pane or close by. */
struct circle make_circle(const struct ovenlute_bounds *bounds, struct ovenlute_dot origin);

/* A line for a screen, a pane and an origin: often one of a length that the pattern's 32 bits make special, whose dots cross the
   pane. */
struct ends make_line(const struct ovenlute_bounds *bounds, struct ovenlute_dot origin, int is_far);

/* A line pattern: any, or one with a bit or none, all bits or every other one. */
uint32_t make_pattern(void);

/* A radius that isn't allowed; its low word may be. */
int32_t bad_radius(void);

/* An RPT's count: mostly small, at times near an edge, or one that isn't allowed. */
int32_t make_count(void);
int32_t bad_count(void);

/* An open repeat in range whose block begins there; its passes are mostly few. */
struct ovenlute_repeat make_repeat(uint32_t start);

/* Screen size, pane, window and all other fields in range; `is_far` allows points far off the screen. */
void make_env(struct call *call, int is_far);

/* Sets a field out of range that 12 tells of, or the size that 10 tells of. */
void break_size(struct call *call);
void break_field(struct call *call);

/* A list; also sets counter and stack where the environment isn't fresh. True when the run can't go in circles. */
int make_list(struct call *call, int is_far);

/* A list of this word, zeros and EODL. */
void make_list_of_word(struct call *call, uint16_t word);

/* A list that meets two refusals at once, and the environment for it; sets budget and expectation. */
void make_two_refusals(struct call *call);

/* A list of T-09's profile, or one with faults in it, to be run from a fresh environment on a small screen; sets budget and, where
   it is known, what the checker must tell. The second makes sound and short ones alone. */
void make_profile(struct call *call);
void make_whole_profile(struct call *call);

/* A list whose last opcode names or implies a variable above 63, at one of its operands or at both; as above. */
void make_misnamed(struct call *call);

#endif
