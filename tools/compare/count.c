#include "area.h"
#include "circles.h"
#include "count.h"
#include "dashes.h"
#include "forms.h"
#include "libc.h"
#include "lines.h"
#include "origins.h"
#include "places.h"
#include "repeats.h"

enum { MOST_MEMBERS = 26, STEPS_FOLLOWED = 200 };

#define NESTINGS "1", "2", "3", "4", "5", "6", "7", "8"

#define PATTERNS "00000000", "FFFFFFFF", "00000001", "80000000", "other"

#define DASH_PARTS { "whole", "outside", "cut at the first point", "cut at the second point", "cut by the window", \
                     "seen from 1 to 31 on", "seen from 32 on", "seen from above 32 on" }

static const struct {
    const char *title;
    const char *members[MOST_MEMBERS];
} groups[GROUPS] = {
    [CALLS] = { "calls", { "whole", "slice", "larger budget", "two panes mixed", "one pane alone" } },
    [LISTS] = { "lists", { "empty", "each opcode word", "random words", "valid opcodes", "one word damaged", "loops",
                           "endless loops", "calls near the limits", "patterns and lines", "origins and shapes",
                           "repeats", "longest", "too long", "2^32 words too long", "two refusals at once", "a variable above 63",
                           "of the profile" } },
    [ENVIRONMENTS] = { "environments", { "fresh", "mid-run", "continued", "stopped", "ended", "broken" } },
    [BROKEN_FIELDS] = { "broken fields", { "width", "height", "left", "top", "right", "bottom", "x", "y", "ox", "oy",
                                           "x0", "y0", "x1", "y1", "mode", "counter", "depth", "stack", "state",
                                           "place where stopped", "place where not", "nesting",
                                           "a repeat's start", "a repeat of no passes", "a repeat's passes" } },
    [SIZES] = { "screen sizes", { "one dot", "small", "middle", "a side of 2048", "2048 x 2048" } },
    [PANES] = { "panes", { "whole screen", "part", "one row or column", "one dot" } },
    [WINDOWS] = { "windows", { "whole screen", "part", "one dot", "empty", "outside", "widest", "any words" } },
    [MODES] = { "clip modes", { "0", "1", "2" } },
    [BUDGETS] = { "budgets", { "0", "1", "2 to 8", "9 to 200", "201 to 999999", "up to a refusal", "1000000", "above" } },
    [SCREENS] = { "screen lengths", { "right", "one short", "one more", "none", "other", "2^32 more" } },
    [DOOR_PAIRS] = { "door pairs", { "10+11", "10+12", "10+13", "10+14", "11+12", "11+13", "11+14", "12+13", "12+14",
                                     "13+14" } },
    [OPCODE_PAIRS] = { "opcode pairs", { "22+23", "22+24", "22+25", "22+26", "22+28", "23+24", "23+25", "23+26",
                                         "23+28", "24+25", "24+27", "24+28", "27+28" } },
    [PROFILES] = { "lists of the profile", { "sound", "eight deep", "cut at a word", "a fault", "two faults", "1000000 steps",
                                             "1000001 steps", "2^32 steps", "2^64 steps", "many steps and a fault",
                                             "words behind EODL", "65536 words", "too long" } },
    [SLICED] = { "run in slices", { "ends", "runs on", "is stopped", "had ended", "was stopped", "10", "11", "12",
                                    "13" } },
    [SLICES] = { "slices", { "of 1", "of 7", "of 0 to 12" } },
    [FRESH_CALLS] = { "fresh", { "good", "bad size", "bad pane", "both bad" } },
    [NUMBERS] = { "numbers", { "0", "1", "10", "11", "12", "13", "14", "20", "21", "22", "23", "24", "25", "26", "27",
                               "28", "29" } },
    [PLACES] = { "places of 20 to 29", { "0", "1 to 65534", "65535", "65536" } },
    [MISNAMED] = { "23 at", { "V", "Vs", "Vd", "Vs before Vd", "Vd behind a word", "Vd behind a long", "Vi", "Vi of 2",
                              "Vi of 3", "Vi of 4", "Vi of 5", "a follower of 2", "a follower of 3",
                              "a follower of 4", "a follower of 5" } },
    [CLEARINGS] = { "CLRWIN", { "whole screen", "whole rows", "parts of rows", "no column", "no row" } },
    [LINES] = { "lines", { "x ahead rising", "x ahead level", "x ahead falling", "x back rising", "x back level",
                           "x back falling", "y ahead rising", "y ahead level", "y ahead falling", "y back rising",
                           "y back level", "y back falling", "one dot" } },
    [HALVES] = { "lines with a dot halfway", { "rising", "falling" } },
    [CUTS] = { "lines cut", { "nowhere", "to nothing", "at the start by the long axis", "at the start by the other",
                              "at the end by the long axis", "at the end by the other" } },
    [DASH_OPCODES] = { "dashed lines", { "LINE", "LINEV", "LINETO", "LINETOV", "LINETOR", "LINETORV" } },
    [DASH_PATTERNS] = { "dashed lines by pattern", { PATTERNS } },
    [DASH_LENGTHS] = { "dashed lines by dots", { "1", "2", "31", "32", "33", "64", "65536" } },
    [DASHES_X_AHEAD] = { "dashed lines, x ahead", DASH_PARTS },
    [DASHES_X_BACK] = { "dashed lines, x back", DASH_PARTS },
    [DASHES_Y_AHEAD] = { "dashed lines, y ahead", DASH_PARTS },
    [DASHES_Y_BACK] = { "dashed lines, y back", DASH_PARTS },
    [REFUSED_LINES] = { "lines refused", { "24 type 2", "24 type -1", "24 low word 1", "25 type 1" } },
    [LIT_LENGTHS] = { "lit dots by length", { "0", "1 to 200", "201 to 65534", "65535", "65536", "65537", "2^32 - 1" } },
    [LIT_PATTERNS] = { "lit dots by pattern", { PATTERNS } },
    [LIT_RUNS] = { "lit dots by runs", { "whole runs alone", "less than a run", "both" } },
    [LIT_LINES] = { "lines by lit dots", { "x ahead", "x back", "y ahead", "y back" } },
    [FILLED_CIRCLES] = { "filled circles", { "radius 0", "radius 1", "radius 32767", "whole", "cut", "outside",
                                             "over all that is drawable", "cut by the window", "from far outside" } },
    [OUTLINES] = { "outlines", { "radius 0", "radius 1", "radius 32767", "whole", "cut", "outside",
                                 "around all that is drawable", "cut by the window", "from far outside" } },
    [REFUSED_CIRCLES] = { "circles refused", { "24 type 1", "24+25 centre", "24+25 radius", "25 centre",
                                               "25 centre and radius", "25 radius 32768", "25 radius above",
                                               "25 radius below 0" } },
    [ORIGINS_SET] = { "origins set", { "XYORG", "XYORGV", "XYORG over another", "XYORGV over another", "back to (0, 0)",
                                       "by the environment" } },
    [REFUSED_ORIGINS] = { "origins refused", { "25 x", "25 y", "25 both", "25 low word about the screen", "23 Vi",
                                               "23 a follower" } },
    [ORIGINS] = { "drawn under an origin", { "(0, 0)", "about the screen", "x -32768", "x 32767", "y -32768", "y 32767",
                                             "other" } },
    [MOVED_SHAPES] = { "moved and seen", { "dot", "line", "dashed line", "filled circle", "outline", "CLRWIN" } },
    [SUMS] = { "sums", { "x -65536", "x 65534", "y -65536", "y 65534", "dot beyond a word", "line beyond, not seen",
                         "line beyond, seen", "circle beyond, not seen", "circle beyond, seen" } },
    [MOVED_WINDOWS] = { "windows under an origin", { "mode 1 empty", "mode 1 off the screen", "mode 1 cut by the screen",
                                                     "mode 1 inside the screen", "mode 1 beyond a word, on the screen",
                                                     "mode 2" } },
    [MODES_CHANGED] = { "modes changed under an origin", { "0 to 1", "0 to 2", "1 to 0", "1 to 2", "2 to 0", "2 to 1" } },
    [OPEN_REPEATS] = { "repeats of the environment", { "0", NESTINGS } },
    [REPEAT_FIELDS] = { "their fields", { "start 0", "start 65536", "left 1", "left 1000", "out of range past the nesting" } },
    [REPEATS_OPENED] = { "RPT, then open", { NESTINGS } },
    [COUNTS] = { "RPT by count", { "1", "2 to 999", "1000" } },
    [REFUSED_REPEATS] = { "RPT refused", { "22", "24 count 0", "24 count 1001", "24 count 7FFF", "24 count 8000",
                                           "24 count FFFF", "24 other count", "28" } },
    [WENT_BACK] = { "ERPT back, open", { NESTINGS } },
    [CLOSED] = { "ERPT closes, open before", { NESTINGS } },
    [PASSES] = { "ERPT", { "back of 1000", "back of 2", "back to itself", "back behind the list", "inside a call", "29" } },
    [WITH_REPEATS] = { "with a repeat open", { "jump to before its block", "other jump", "call", "RTRN", "EODL",
                                               "its RPT again" } },
    [SLICED_REPEATS] = { "slices that end", { "with a repeat open", "where its block begins", "before an ERPT" } },
    [CHECKED] = { "lists checked", { "0", "13", "20", "21", "22", "24", "28", "29", "30", "31" } },
    [CHECKED_STEPS] = { "0 by steps", { "1", "2 to 1000", "1001 to 999999", "1000000" } },
    [CHECKED_DEPTHS] = { "0 by depth", { "0", NESTINGS } },
    [CHECKED_ENDS] = { "0 with EODL", { "the last word", "the last of 65536", "and words behind" } },
    [CHECKED_21] = { "21 at", { "no opcode", "jump", "call", "RTRN", "jump cut", "call cut", "one inside a block" } },
    [CHECKED_CUTS] = { "lists that end too soon", { "20 of no words", "20 outside all blocks", "20 behind an RPT",
                                                    "20 inside a block", "22 RPT", "22 ninth RPT", "22 another",
                                                    "22 another inside a block", "22 at 65535", "20 at 65536" } },
    [CHECKED_COUNTS] = { "24 told of count", { "0", "1001", "7FFF", "8000", "FFFF", "other", "a ninth RPT's" } },
    [CHECKED_RUNS] = { "runs of lists checked", { "end", "end in 1000000", "budget short", "stopped by 23", "stopped by 24",
                                                  "stopped by 25", "stopped by 26", "20 too", "22 too", "24 too", "28 too",
                                                  "29 too", "23 to 26 sooner", "budget short of a fault",
                                                  "31 and on and on" } },
    [WHO_NUMBERS] = { "who", { "0", "10", "12", "13", "14", "25" } },
    [WHO_OUTSIDE] = { "25 for a dot", { "left of the screen", "above it", "right of it", "below it", "at its corner", "beyond a word",
                                        "at -2^31", "at 2^31 - 1" } },
    [WHO_SOONER] = { "a dot outside, and sooner", { "10", "12", "13", "14" } },
    [WHO_DOTS] = { "dots", { "in the pane", "at its edge", "next to it", "off it", "next to the window", "off the window" } },
    [WHO_WRITERS] = { "written by", { "PIXEL", "PIXELC", "line", "dashed line", "line of variables", "filled circle", "outline",
                                      "CLRWIN" } },
    [WHO_STEPS] = { "written in", { "the first step", "the last", "the only one", "one between", "one above 200",
                                    "one above 65535", "an opcode at word 0" } },
    [WHO_BEFORE] = { "before that", { "not written", "not written, of that colour", "written", "written in that colour" } },
    [WHO_RUNS] = { "written in a run that", { "ends", "runs on", "is refused", "is 11" } },
    [WHO_OF_NOBODY] = { "not written in a run that", { "ends", "runs on", "is refused", "is 11", "had ended", "was stopped",
                                                       "has no budget" } },
    [MENDED] = { "mended", { "0", "13", "32", "13 and no room" } },
    [MENDED_REPORTS] = { "by a report", { "at NULL", "at NULL, not needed", "of no numbers", "of no numbers, not needed",
                                          "a change short", "2 numbers short", "1 short", "exact", "1 more", "2 more", "3 more", "4 more", "larger",
                                          "2^32 more" } },
    [MENDED_LISTS] = { "lists mended", { "whole opcodes", "words overwritten", "bits flipped", "a stretch erased", "the tail lost",
                                         "any words", "much of this", "no words", "each word", "65536 words",
                                         "65536, some overwritten", "65536, the tail lost", "65536, all erased", "65537" } },
    [MENDED_CHANGES] = { "words changed", { "0", "1", "2 to 9", "10 to 99", "100 to 65535", "65536" } },
    [MENDED_UNKNOWN] = { "no opcode", { "any", "the first word", "the last", "behind another", "behind an EODL", "at 65535" } },
    [MENDED_CUTS] = { "cut by the end", { "no rest", "a rest of zeros", "of zeros and others", "of no zeros", "all there is",
                                          "behind such a word", "behind an EODL", "in 65536 words" } },
};

static uint64_t kinds_met[GROUPS][MOST_MEMBERS];

/* Per form: how often carried out, and how often refused with 20 to 29. */
static uint64_t forms_done[FORMS];
static uint64_t forms_refused[FORMS][10];

void count_kind(enum group group, int member)
{
    kinds_met[group][member]++;
}

static int is_refusal(int number)
{
    return number >= 20 && number <= 29;
}

/* A number that the paper doesn't know is no kind; it will be a difference. */
static void count_number(int number)
{
    if (number == 0 || number == 1)
        count_kind(NUMBERS, number);
    else if (number >= 10 && number <= 14)
        count_kind(NUMBERS, number - 10 + 2);
    else if (is_refusal(number))
        count_kind(NUMBERS, number - 20 + 7);
}

static void count_form(uint16_t opcode, struct afgis_answer answer)
{
    int form = form_of(opcode);

    if (form < 0)
        return;
    if (answer.steps == 1)
        forms_done[form]++;
    else if (answer.number >= 20)
        forms_refused[form][answer.number - 20]++;
}

/* What CLRWIN paints. */
static int clearing_of(const struct afgis_env *env)
{
    struct area area = area_of(env);

    if (area.left > area.right)
        return CLEARING_NO_COLUMN;
    if (area.top > area.bottom)
        return CLEARING_NO_ROW;
    if (area.left > 0 || area.right < (int64_t)env->width - 1)
        return CLEARING_PARTS;
    return area.top > 0 || area.bottom < (int64_t)env->height - 1 ? CLEARING_ROWS : CLEARING_SCREEN;
}

static void count_clearing(uint16_t opcode, struct afgis_answer answer, const struct afgis_env *env)
{
    if ((opcode == 0x0188 || opcode == 0x0189) && answer.steps == 1)
        count_kind(CLEARINGS, clearing_of(env));
}

/* Goes the call's way once more with the reference, step by step. */
static void count_forms(const struct call *call)
{
    static uint8_t scratch[SCREEN_ROOM];
    struct afgis_env env, before;
    struct afgis_answer answer = { 1, 0, 1 };

    to_reference(&call->env, &env);
    count_first_origin(&env);
    count_open_repeats(&env);
    for (uint32_t step = 0; answer.number == 1 && step < call->budget && step < STEPS_FOLLOWED; step++) {
        before = env;
        answer = afgis_run(call->list, call->words, scratch, call->bytes, &env, 1);
        if (before.counter < call->words) {
            count_form(call->list[before.counter], answer);
            count_clearing(call->list[before.counter], answer, &env);
            count_circle(call->list + before.counter, &before, answer);
            count_dash(call->list + before.counter, &before, &env, answer);
            count_origin(call->list + before.counter, &before, &env, answer);
            count_repeat(call->list + before.counter, &before, &env, answer);
        }
        if (answer.number == 23)
            count_misnamed(call->list + before.counter);
        if (answer.steps == 1)
            count_line(call->list + before.counter, &before, &env);
    }
}

void count_call(const struct call *call, int number, uint32_t place)
{
    for (enum group group = 0; group < GROUPS; group++)
        if (call->kinds[group] != NOT_OF_A_KIND)
            count_kind(group, call->kinds[group]);
    count_number(number);
    if (is_refusal(number))
        count_place(place);
    if ((number < 10 || number >= 20) && call->env.registers.state == RUNNING)
        count_forms(call);
}

static uint64_t sum(enum group group)
{
    uint64_t total = 0;

    for (int i = 0; i < MOST_MEMBERS; i++)
        total += kinds_met[group][i];
    return total;
}

uint64_t calls_counted(void)
{
    return sum(CALLS) + sum(FRESH_CALLS);
}

static int print_group(enum group group)
{
    int never = 0;

    printf("%s:", groups[group].title);
    for (int i = 0; i < MOST_MEMBERS && groups[group].members[i]; i++) {
        printf("%s %s %llu", i == 0 ? "" : ",", groups[group].members[i], (unsigned long long)kinds_met[group][i]);
        never += kinds_met[group][i] == 0;
    }
    printf("\n");
    return never;
}

static void print_cell(int is_possible, uint64_t met)
{
    if (is_possible || met != 0)
        printf(" %8llu", (unsigned long long)met);
    else
        printf(" %8s", "-");
}

/* One form's row: what it can meet must have been met. */
static int print_form(int form)
{
    int never = forms_done[form] == 0;

    printf("%-10s", forms[form].name);
    print_cell(1, forms_done[form]);
    for (int digit = 2; digit <= 9; digit++) {
        int is_possible = strchr(forms[form].refusals, '0' + digit) != NULL;
        print_cell(is_possible, forms_refused[form][digit]);
        never += is_possible && forms_refused[form][digit] == 0;
    }
    printf("\n");
    return never;
}

int print_counts(void)
{
    int never = 0;

    for (enum group group = 0; group < GROUPS; group++)
        never += print_group(group);
    printf("%-10s %8s %8d %8d %8d %8d %8d %8d %8d %8d\n", "form", "done", 22, 23, 24, 25, 26, 27, 28, 29);
    for (int form = 0; form < FORMS; form++)
        never += print_form(form);
    return never;
}
