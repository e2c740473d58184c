/*
 * Request T-14, lists off bad EPROMs, through the C face of the box: lists damaged by hand, with what each becomes and what is
 * reported, worked out from the request; every opcode of docs/OPCODES.md whole and cut at every length, and every other word; then
 * the numbers and their order, what is lent as NULL, the longest lists, and a list that plays again.
 */

#include "libc.h"
#include "ovenlute.h"
#include "tally.h"

enum { SHORT_LIST = 8, BEHIND = 4, MOST_NUMBERS = OVENLUTE_CHANGE_NUMBERS * OVENLUTE_MOST_WORDS };

struct test {
    const char *name;
    size_t words;
    uint16_t list[SHORT_LIST];
    uint16_t mended[SHORT_LIST];
    uint32_t changes;
    uint32_t report[OVENLUTE_CHANGE_NUMBERS * SHORT_LIST];  /* index, old word, new word */
};

static const struct test tests[] = {
    { "no words", 0, { 0 }, { 0 }, 0, { 0 } },
    { "NOOP", 1, { 0x0000 }, { 0x0000 }, 0, { 0 } },
    { "EODL", 1, { 0x0001 }, { 0x0001 }, 0, { 0 } },
    { "no opcode", 1, { 0x0004 }, { 0x0000 }, 1, { 0, 0x0004, 0x0000 } },
    { "no opcode, the largest word", 1, { 0xFFFF }, { 0x0000 }, 1, { 0, 0xFFFF, 0x0000 } },
    { "an EODL with a bit too many", 2, { 0x8001, 0x0001 }, { 0x0000, 0x0001 }, 1, { 0, 0x8001, 0x0000 } },
    { "three in a row", 4, { 0xFFFF, 0xFFFE, 0x8000, 0x0001 }, { 0, 0, 0, 0x0001 }, 3,
      { 0, 0xFFFF, 0, 1, 0xFFFE, 0, 2, 0x8000, 0 } },
    /* PIXEL 2 1, and a word between it and EODL */
    { "between two opcodes", 5, { 0x009E, 2, 1, 0x0005, 0x0001 }, { 0x009E, 2, 1, 0x0000, 0x0001 }, 1, { 3, 0x0005, 0x0000 } },
    /* PIXEL FFFF 0004: operands that are no opcodes */
    { "an operand stays", 4, { 0x009E, 0xFFFF, 0x0004, 0x0001 }, { 0x009E, 0xFFFF, 0x0004, 0x0001 }, 0, { 0 } },
    /* PIXEL 1 158: operands that would be EODL and PIXEL */
    { "an operand begins nothing", 4, { 0x009E, 0x0001, 0x009E, 0xFFFF }, { 0x009E, 0x0001, 0x009E, 0x0000 }, 1, { 3, 0xFFFF, 0 } },
    /* LINE 0 4 3 2 1 without its bit 2; its operands are a NOOP, no opcode, and ADVV 2 1 */
    { "operands of what was lost are opcodes", 7, { 0x0070, 0, 4, 3, 2, 1, 0x0001 }, { 0x0000, 0, 0x0000, 3, 2, 1, 0x0001 }, 2,
      { 0, 0x0070, 0, 2, 0x0004, 0 } },
    /* COLORF 7 0 without its bit 0, and PIXEL 2 1: behind the first word ANDVV 0 158, and an ADIV that is cut */
    { "and take the next opcode with them", 7, { 0x001E, 7, 0, 0x009E, 2, 1, 0x0001 }, { 0x0000, 7, 0, 0x009E, 0x0001, 0, 0 }, 4,
      { 0, 0x001E, 0, 4, 2, 0x0001, 5, 1, 0, 6, 0x0001, 0 } },
    { "a word that is no opcode is the last", 2, { 0x0000, 0x0152 }, { 0x0000, 0x0000 }, 1, { 1, 0x0152, 0 } },
    /* PIXEL, of which one word, two, and two with a zero are there */
    { "cut behind its first word", 1, { 0x009E }, { 0x0001 }, 1, { 0, 0x009E, 0x0001 } },
    { "cut behind its second", 2, { 0x009E, 5 }, { 0x0001, 0x0000 }, 2, { 0, 0x009E, 0x0001, 1, 5, 0 } },
    { "a rest that is 0000 already", 2, { 0x009E, 0 }, { 0x0001, 0x0000 }, 1, { 0, 0x009E, 0x0001 } },
    /* LINE 0 1 0 2 */
    { "a rest with zeros in it", 5, { 0x0074, 0, 1, 0, 2 }, { 0x0001, 0, 0, 0, 0 }, 3, { 0, 0x0074, 0x0001, 2, 1, 0, 4, 2, 0 } },
    { "a rest with opcodes in it", 4, { 0x0074, 0x0001, 0x0000, 0x009E }, { 0x0001, 0, 0, 0 }, 3,
      { 0, 0x0074, 0x0001, 1, 0x0001, 0, 3, 0x009E, 0 } },
    { "a rest that is no opcode", 3, { 0x0066, 0xFFFF, 0xFFFF }, { 0x0001, 0, 0 }, 3,
      { 0, 0x0066, 0x0001, 1, 0xFFFF, 0, 2, 0xFFFF, 0 } },
    { "cut behind an opcode", 5, { 0x009E, 2, 1, 0x0188, 9 }, { 0x009E, 2, 1, 0x0001, 0 }, 2, { 3, 0x0188, 0x0001, 4, 9, 0 } },
    { "cut behind a word that is no opcode", 2, { 0xFFFF, 0x0012 }, { 0x0000, 0x0001 }, 2, { 0, 0xFFFF, 0, 1, 0x0012, 0x0001 } },
    { "EODL is passed", 2, { 0x0001, 0xFFFF }, { 0x0001, 0x0000 }, 1, { 1, 0xFFFF, 0 } },
    { "EODL is passed, and what follows is cut", 3, { 0x0001, 0x0066, 7 }, { 0x0001, 0x0001, 0x0000 }, 2,
      { 1, 0x0066, 0x0001, 2, 7, 0 } },
    { "an opcode behind EODL stays", 4, { 0x0001, 0x009E, 2, 1 }, { 0x0001, 0x009E, 2, 1 }, 0, { 0 } },
    /* JUMPR 0 32767, CAL of an address between words, RTRN */
    { "no target is judged", 7, { 0x010C, 0, 0x7FFF, 0x000E, 0x0008, 0, 0x00B9 }, { 0x010C, 0, 0x7FFF, 0x000E, 0x0008, 0, 0x00B9 },
      0, { 0 } },
    /* JUMPR 0 2, over two words that no run comes to, and JUMPA behind EODL */
    { "a jump is passed and not followed", 8, { 0x010C, 0, 2, 0xFFFF, 0x0005, 0x0001, 0x010A, 0 },
      { 0x010C, 0, 2, 0, 0, 0x0001, 0x0001, 0 }, 3, { 3, 0xFFFF, 0, 4, 0x0005, 0, 6, 0x010A, 0x0001 } },
    /* RPT 0, ERPT, ERPT: a count that is refused with 24, and 29 */
    { "no count and no block is judged", 4, { 0x00B7, 0, 0x004F, 0x004F }, { 0x00B7, 0, 0x004F, 0x004F }, 0, { 0 } },
    /* INCV 64, CLIPMODE 3 */
    { "no variable and no mode is judged", 4, { 0x005D, 64, 0x0016, 3 }, { 0x005D, 64, 0x0016, 3 }, 0, { 0 } },
    /* FFFF, PIXEL 1 2, 8000, RPT */
    { "some of all", 6, { 0xFFFF, 0x009E, 1, 2, 0x8000, 0x00B7 }, { 0, 0x009E, 1, 2, 0, 0x0001 }, 3,
      { 0, 0xFFFF, 0, 4, 0x8000, 0, 5, 0x00B7, 0x0001 } },
};

/* ---- one mending ---- */

/* A list, what it becomes, and what is reported. */
struct mending {
    const uint16_t *list;
    size_t words;
    const uint16_t *mended;
    uint32_t changes;
    const uint32_t *report;
};

static const uint32_t FILL = 0xA5A5A5A5;
static const uint16_t GUARD = 0xA5A5;

/* What is lent, with a word and some numbers behind it. */
static uint16_t list[OVENLUTE_MOST_WORDS + 2];
static uint32_t report[MOST_NUMBERS + 2 * BEHIND];

static void lay_out(const uint16_t *words, size_t count, size_t numbers)
{
    memcpy(list, words, count * sizeof list[0]);
    list[count] = GUARD;
    for (size_t i = 0; i < numbers + BEHIND; i++)
        report[i] = FILL;
}

static int list_is(const uint16_t *wanted, size_t words)
{
    return memcmp(list, wanted, words * sizeof list[0]) == 0 && list[words] == GUARD;
}

/* So many numbers from the start, and behind them what was there. */
static int report_is(const uint32_t *wanted, size_t count, size_t numbers)
{
    for (size_t i = count; i < numbers + BEHIND; i++)
        if (report[i] != FILL)
            return 0;
    return memcmp(report, wanted, count * sizeof report[0]) == 0;
}

/* With 0 all is as worked out; with any other number list and report are as they were. */
static const char *wrong_mending(const struct mending *mending, size_t numbers, uint8_t number)
{
    size_t reported = number == 0 ? OVENLUTE_CHANGE_NUMBERS * (size_t)mending->changes : 0;
    struct ovenlute_mended told;

    lay_out(mending->list, mending->words, numbers);
    told = ovenlute_mend(list, mending->words, report, numbers);
    if (told.number != number)
        return "another number";
    if (told.changes != (number == OVENLUTE_LONG_LIST ? 0 : mending->changes))
        return "another count of changes";
    if (!list_is(number == 0 ? mending->mended : mending->list, mending->words))
        return "another list";
    return report_is(mending->report, reported, numbers) ? NULL : "another report";
}

/* Nothing is to mend, and no report is needed. */
static void check_clean(const char *name, const uint16_t *words, size_t count)
{
    struct ovenlute_mended told;

    lay_out(words, count, 0);
    told = ovenlute_mend(list, count, NULL, 0);
    check(name, told.number == 0 && told.changes == 0 && list_is(words, count) ? NULL : "something was mended");
}

/* ---- the lists ---- */

/* With every room up to what is needed, and some more; and a second time. */
static void check_lists(void)
{
    for (size_t i = 0; i < sizeof tests / sizeof tests[0]; i++) {
        const struct test *test = &tests[i];
        struct mending mending = { test->list, test->words, test->mended, test->changes, test->report };
        size_t needed = OVENLUTE_CHANGE_NUMBERS * (size_t)test->changes;
        for (size_t numbers = 0; numbers <= needed + BEHIND; numbers++)
            check(test->name, wrong_mending(&mending, numbers, numbers < needed ? OVENLUTE_NO_ROOM : 0));
        check_clean(test->name, test->mended, test->words);
    }
}

/* ---- every word as an opcode ---- */

/* The tables of docs/OPCODES.md, row by row: the number, and the words with the opcode's own among them. */
static const struct opcode {
    const char *name;
    uint16_t number;
    size_t words;
} opcodes[] = {
    { "NOOP", 0x0000, 1 }, { "EODL", 0x0001, 1 }, { "CAL", 0x000E, 3 }, { "CALV", 0x000F, 2 }, { "ERPT", 0x004F, 1 },
    { "RPT", 0x00B7, 2 }, { "RTRN", 0x00B9, 1 }, { "JUMPA", 0x010A, 4 }, { "JUMPR", 0x010C, 3 }, { "CALR", 0x010E, 2 },
    { "CALRV", 0x010F, 2 },
    { "ADIV", 0x0002, 4 }, { "ADVV", 0x0003, 3 }, { "ANDIV", 0x0006, 4 }, { "ANDVV", 0x0007, 3 }, { "CPIV", 0x0033, 4 },
    { "CPVV", 0x0034, 3 }, { "DCRV", 0x0042, 2 }, { "DIVV", 0x0045, 3 }, { "INCV", 0x005D, 2 }, { "LDIV", 0x0065, 3 },
    { "LDIVL", 0x0066, 4 }, { "LDVV", 0x0071, 3 }, { "MLTV", 0x0080, 3 }, { "MODV", 0x0081, 3 }, { "ORIV", 0x0090, 4 },
    { "ORVV", 0x0091, 3 },
    { "CLIPMODE", 0x0016, 2 }, { "CLIPMODEV", 0x0017, 2 }, { "CLIPWIN", 0x0018, 5 }, { "CLIPWINV", 0x0019, 2 },
    { "COLORF", 0x001F, 3 }, { "COLORFV", 0x0020, 2 }, { "LINEPATN", 0x0078, 3 }, { "LINEPATNV", 0x0079, 2 },
    { "MOVETO", 0x0082, 3 }, { "MOVETOV", 0x0083, 2 }, { "MOVETOR", 0x0084, 3 }, { "MOVETORV", 0x0085, 2 },
    { "XYORG", 0x0100, 3 }, { "XYORGV", 0x0101, 2 },
    { "CIR", 0x0012, 5 }, { "CIRV", 0x0013, 2 }, { "CIRS", 0x0014, 5 }, { "CIRSV", 0x0015, 2 }, { "LINE", 0x0074, 6 },
    { "LINEV", 0x0075, 2 }, { "LINETO", 0x007C, 4 }, { "LINETOV", 0x007D, 2 }, { "LINETOR", 0x007E, 4 }, { "LINETORV", 0x007F, 2 },
    { "PIXEL", 0x009E, 3 }, { "PIXELV", 0x009F, 2 }, { "PIXELC", 0x0150, 5 }, { "PIXELCV", 0x0151, 2 }, { "CLRWIN", 0x0188, 4 },
    { "CLRWINV", 0x0189, 2 },
};

enum { OPCODES = sizeof opcodes / sizeof opcodes[0] };

/* So many words, the opcode and FFFF behind it. Where it is whole, the words behind it become 0000; where it is cut, all but the
   first. */
static const char *wrong_opcode(const struct opcode *opcode, size_t words)
{
    uint16_t damaged[SHORT_LIST], mended[SHORT_LIST] = { 0 };
    uint32_t reported[OVENLUTE_CHANGE_NUMBERS * SHORT_LIST];
    int is_whole = opcode->words <= words;
    size_t kept = is_whole ? opcode->words : 0, count = 0;

    memset(damaged, 0xFF, sizeof damaged);
    damaged[0] = opcode->number;
    memcpy(mended, damaged, kept * sizeof mended[0]);
    if (!is_whole)
        mended[0] = 0x0001;
    for (size_t i = kept; i < words; i++, count++) {
        reported[3 * count] = (uint32_t)i;
        reported[3 * count + 1] = damaged[i];
        reported[3 * count + 2] = mended[i];
    }
    return wrong_mending(&(struct mending){ damaged, words, mended, (uint32_t)count, reported }, 3 * count, 0);
}

static void check_opcodes(void)
{
    for (size_t i = 0; i < OPCODES; i++)
        for (size_t words = 1; words <= SHORT_LIST; words++)
            check(opcodes[i].name, wrong_opcode(&opcodes[i], words));
}

static int is_opcode(uint32_t word)
{
    for (size_t i = 0; i < OPCODES; i++)
        if (opcodes[i].number == word)
            return 1;
    return 0;
}

/* 65,536 less 57 words are no opcode. */
static void check_other_words(void)
{
    const char *wrong = NULL;
    int others = 0;

    for (uint32_t word = 0; word < 65536 && wrong == NULL; word++) {
        const uint16_t damaged[] = { (uint16_t)word, 0x0001 }, mended[] = { 0x0000, 0x0001 };
        const uint32_t reported[] = { 0, word, 0x0000 };
        if (is_opcode(word))
            continue;
        others++;
        wrong = wrong_mending(&(struct mending){ damaged, 2, mended, 1, reported }, 3, 0);
    }
    check("every other word", wrong != NULL || others == 65479 ? wrong : "not 57 opcodes");
}

/* ---- the longest lists ---- */

static uint16_t erased[OVENLUTE_MOST_WORDS + 1], noops[OVENLUTE_MOST_WORDS + 1];
static uint32_t every_change[MOST_NUMBERS];

static void lay_out_longest(void)
{
    memset(erased, 0xFF, sizeof erased);
    for (uint32_t i = 0; i < OVENLUTE_MOST_WORDS; i++) {
        every_change[3 * i] = i;
        every_change[3 * i + 1] = 0xFFFF;
        every_change[3 * i + 2] = 0x0000;
    }
}

/* Every word of the longest list has to be changed; one word more is 13, whatever the room. */
static void check_longest(void)
{
    struct mending longest = { erased, OVENLUTE_MOST_WORDS, noops, OVENLUTE_MOST_WORDS, every_change };
    struct mending too_long = { erased, OVENLUTE_MOST_WORDS + 1, erased, 0, every_change };

    lay_out_longest();
    check("65,536 words", wrong_mending(&longest, MOST_NUMBERS, 0));
    check("65,536 words, more room", wrong_mending(&longest, MOST_NUMBERS + BEHIND, 0));
    check("65,536 words, a number short", wrong_mending(&longest, MOST_NUMBERS - 1, OVENLUTE_NO_ROOM));
    check("65,536 words, a change short", wrong_mending(&longest, MOST_NUMBERS - 3, OVENLUTE_NO_ROOM));
    check("65,536 words, no room", wrong_mending(&longest, 0, OVENLUTE_NO_ROOM));
    check_clean("65,536 words, clean", noops, OVENLUTE_MOST_WORDS);
    check("65,537 words", wrong_mending(&too_long, MOST_NUMBERS, OVENLUTE_LONG_LIST));
    check("65,537 words, and no room: 13 before 32", wrong_mending(&too_long, 0, OVENLUTE_LONG_LIST));
    too_long.list = noops;
    check("65,537 words, clean", wrong_mending(&too_long, 0, OVENLUTE_LONG_LIST));
}

/* LINE 0 1 2 3, cut by the last of 65,536 words. */
static void check_longest_cut(void)
{
    static uint16_t damaged[OVENLUTE_MOST_WORDS], mended[OVENLUTE_MOST_WORDS];
    static const uint32_t reported[] = { 65531, 0x0074, 0x0001, 65533, 1, 0, 65534, 2, 0, 65535, 3, 0 };
    static const uint16_t line[] = { 0x0074, 0, 1, 2, 3 };

    memcpy(damaged + 65531, line, sizeof line);
    mended[65531] = 0x0001;
    check("cut by the last of 65,536 words",
          wrong_mending(&(struct mending){ damaged, OVENLUTE_MOST_WORDS, mended, 4, reported }, 12, 0));
}

/* ---- what is lent, and what a host does ---- */

static const char *wrong_answer(struct ovenlute_mended told, uint8_t number, uint32_t changes)
{
    if (told.number != number)
        return "another number";
    return told.changes != changes ? "another count of changes" : NULL;
}

/* What has no words or no numbers may be NULL. */
static void check_nulls(void)
{
    uint16_t two[] = { 0xFFFF, 0x009E };
    uint32_t one[1] = { 7 };

    check("no list, no report", wrong_answer(ovenlute_mend(NULL, 0, NULL, 0), 0, 0));
    check("no list", wrong_answer(ovenlute_mend(NULL, 0, one, 1), 0, 0));
    check("no report: it is asked how many changes there are", wrong_answer(ovenlute_mend(two, 2, NULL, 0), OVENLUTE_NO_ROOM, 2));
    check("neither was touched", two[0] == 0xFFFF && two[1] == 0x009E && one[0] == 7 ? NULL : "it was");
}

/* PIXEL 2 1, FFFF, PIXEL 3 1, and a LINE that is cut: a run is stopped at the FFFF; once that is a NOOP, the list ends at the EODL
   that the LINE has become. */
static void check_played(void)
{
    uint16_t damaged[] = { 0x009E, 2, 1, 0xFFFF, 0x009E, 3, 1, 0x0074, 0 };
    size_t words = sizeof damaged / sizeof damaged[0];
    struct ovenlute_pane whole = { 0, 0, 4, 2 };
    struct ovenlute_env env = ovenlute_fresh(5, 3, whole).env;
    struct ovenlute_done done;
    uint8_t screen[15] = { 0 };
    uint32_t room[6];

    done = ovenlute_run(damaged, words, screen, sizeof screen, &env, 100);
    check("played as it is", done.number == OVENLUTE_NO_OPCODE && done.place == 3 ? NULL : "not stopped with 21 at its word 3");
    check("mended", wrong_answer(ovenlute_mend(damaged, words, room, 6), 0, 2));
    env = ovenlute_fresh(5, 3, whole).env;
    done = ovenlute_run(damaged, words, screen, sizeof screen, &env, 100);
    check("played when mended", done.number == OVENLUTE_ENDED && done.steps == 4 ? NULL : "not ended in four steps");
    check("what it painted", screen[7] == 15 && screen[8] == 15 ? NULL : "not both dots");
}

static void check_text(void)
{
    static const char wanted[] = "the report has no room for every change";
    struct ovenlute_words words = ovenlute_text(OVENLUTE_NO_ROOM);

    check("the words of 32", memcmp(words.text, wanted, sizeof wanted) == 0 ? NULL : words.text);
}

int main(void)
{
    check_lists();
    check_opcodes();
    check_other_words();
    check_longest();
    check_longest_cut();
    check_nulls();
    check_played();
    check_text();
    printf("%d cases of mend, %d failed\n", checked, failed);
    return failed != 0;
}
