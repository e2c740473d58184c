#include "walked.h"
#include "count.h"
#include "forms.h"
#include "libc.h"

enum { EODL = 0x0001, MOST_THERE = 5 };

/* Per form: how often it was passed, and how often cut with so many words there. */
static uint64_t forms_passed[FORMS];
static uint64_t forms_cut[FORMS][MOST_THERE + 1];

/* ---- what a walk meets ---- */

/* Where an opcode is due in a list, and what it stands behind. */
struct due {
    const struct damaged *damaged;
    size_t at;
    int is_behind_unknown;  /* the word before is no opcode */
    int is_behind_eodl;     /* one was passed somewhere before */
};

static void count_unknown(const struct due *due)
{
    count_kind(MENDED_UNKNOWN, UNKNOWN_ANY);
    if (due->at == 0)
        count_kind(MENDED_UNKNOWN, UNKNOWN_FIRST);
    if (due->at == due->damaged->words - 1)
        count_kind(MENDED_UNKNOWN, UNKNOWN_LAST);
    if (due->is_behind_unknown)
        count_kind(MENDED_UNKNOWN, UNKNOWN_AGAIN);
    if (due->is_behind_eodl)
        count_kind(MENDED_UNKNOWN, UNKNOWN_BEHIND_EODL);
    if (due->at == MOST_WORDS - 1)
        count_kind(MENDED_UNKNOWN, UNKNOWN_AT_65535);
}

static int rest_kind(const uint16_t *rest, size_t words)
{
    size_t zeros = 0;

    for (size_t i = 0; i < words; i++)
        zeros += rest[i] == 0x0000;
    if (words == 0)
        return REST_NONE;
    if (zeros == 0)
        return REST_NO_ZEROS;
    return zeros == words ? REST_ZEROS : REST_SOME_ZEROS;
}

static void count_cut(const struct due *due, int form)
{
    const struct damaged *damaged = due->damaged;
    size_t there = damaged->words - due->at;

    forms_cut[form][there]++;
    count_kind(MENDED_CUTS, rest_kind(damaged->list + due->at + 1, there - 1));
    if (due->at == 0)
        count_kind(MENDED_CUTS, CUT_IS_ALL);
    if (due->is_behind_unknown)
        count_kind(MENDED_CUTS, CUT_BEHIND_UNKNOWN);
    if (due->is_behind_eodl)
        count_kind(MENDED_CUTS, CUT_BEHIND_EODL);
    if (damaged->words == MOST_WORDS)
        count_kind(MENDED_CUTS, CUT_OF_LONGEST);
}

void count_walk(const struct damaged *damaged)
{
    struct due due = { damaged, 0, 0, 0 };
    size_t size;

    for (; due.at < damaged->words; due.at += size) {
        int form = form_of(damaged->list[due.at]);
        size = form < 0 ? 1 : form_words(&forms[form]);
        if (form < 0)
            count_unknown(&due);
        else if (size > damaged->words - due.at)
            count_cut(&due, form);
        else
            forms_passed[form]++;
        due.is_behind_unknown = form < 0;
        due.is_behind_eodl |= damaged->list[due.at] == EODL;
    }
}

/* ---- what it meets no more ---- */

/* What the box's run answers to the opcode at this index, on a screen of one dot. */
static int number_at(const uint16_t *list, size_t words, size_t at)
{
    struct ovenlute_pane whole = { 0, 0, 0, 0 };
    struct ovenlute_env env;
    uint8_t screen = 0;

    fresh_env(&env, 1, 1, whole);
    env.registers.counter = (uint32_t)at;
    return ovenlute_run(list, words, &screen, 1, &env, 1).number;
}

const char *walk_difference(const uint16_t *list, size_t words)
{
    size_t size;

    for (size_t at = 0; at < words; at += size) {
        int form = form_of(list[at]), number = number_at(list, words, at);
        if (form < 0 || number == OVENLUTE_NO_OPCODE)
            return "a word that is no opcode where one is due was not mended";
        size = form_words(&forms[form]);
        if (size > words - at || number == OVENLUTE_CUT)
            return "an opcode that is cut was not mended";
    }
    return NULL;
}

/* ---- the forms ---- */

/* One form's row: passed, and cut with every number of words that is not all of them. */
static int print_walk(int form)
{
    int never = forms_passed[form] == 0;
    size_t size = form_words(&forms[form]);

    printf("%-10s %8llu", forms[form].name, (unsigned long long)forms_passed[form]);
    for (size_t there = 1; there < size; there++) {
        printf(" %8llu", (unsigned long long)forms_cut[form][there]);
        never += forms_cut[form][there] == 0;
    }
    printf("\n");
    return never;
}

int print_walks(void)
{
    int never = 0;

    printf("%-10s %8s %8s %8d %8d %8d %8d\n", "form", "passed", "cut at 1", 2, 3, 4, MOST_THERE);
    for (int form = 0; form < FORMS; form++)
        never += print_walk(form);
    return never;
}
