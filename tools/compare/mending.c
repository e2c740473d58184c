#include "mending.h"
#include "libc.h"
#include "walked.h"

enum { GUARD = 16 };

/* What is lent, with words and numbers before and behind that nobody may touch. */
struct lent {
    uint16_t list[GUARD + LIST_ROOM + GUARD];
    uint32_t report[GUARD + REPORT_ROOM + GUARD];
    size_t words, numbers;
    int is_null;  /* what has no words or numbers is lent as NULL */
};

static struct lent before, box, reference;

/* ---- the two mendings ---- */

static void lay_out(const struct damaged *damaged, size_t numbers, int is_null)
{
    before.words = damaged->words;
    before.numbers = numbers;
    before.is_null = is_null;
    memset(before.list, 0xA5, GUARD * sizeof before.list[0]);
    memcpy(before.list + GUARD, damaged->list, damaged->words * sizeof before.list[0]);
    memset(before.list + GUARD + damaged->words, 0xA5, GUARD * sizeof before.list[0]);
    for (size_t i = 0; i < GUARD + numbers + GUARD; i++)
        before.report[i] = 0xA5A50000 + (uint32_t)i;
}

static void copy_lent(struct lent *to, const struct lent *from)
{
    memcpy(to->list, from->list, (GUARD + from->words + GUARD) * sizeof to->list[0]);
    memcpy(to->report, from->report, (GUARD + from->numbers + GUARD) * sizeof to->report[0]);
    to->words = from->words;
    to->numbers = from->numbers;
    to->is_null = from->is_null;
}

static uint16_t *list_of(struct lent *lent)
{
    return lent->is_null && lent->words == 0 ? NULL : lent->list + GUARD;
}

static uint32_t *report_of(struct lent *lent)
{
    return lent->is_null && lent->numbers == 0 ? NULL : lent->report + GUARD;
}

static void mend_both(struct mending *mending)
{
    struct afgis_mended wanted;

    copy_lent(&box, &before);
    mending->box = ovenlute_mend(list_of(&box), box.words, report_of(&box), box.numbers);
    copy_lent(&reference, &before);
    wanted = afgis_mend(list_of(&reference), reference.words, report_of(&reference), reference.numbers);
    mending->reference = (struct ovenlute_mended){ (uint8_t)wanted.number, wanted.changes };
}

/* ---- what must be the same ---- */

static int same_lists(const struct lent *a, const struct lent *b)
{
    return memcmp(a->list, b->list, (GUARD + a->words + GUARD) * sizeof a->list[0]) == 0;
}

static int same_reports(const struct lent *a, const struct lent *b)
{
    return memcmp(a->report, b->report, (GUARD + a->numbers + GUARD) * sizeof a->report[0]) == 0;
}

static const char *told_difference(const struct mending *mending)
{
    if (mending->box.number != mending->reference.number)
        return "the number that a list is mended with";
    if (mending->box.changes != mending->reference.changes)
        return "how many changes a mending tells";
    if (!same_lists(&box, &reference))
        return "the list that is mended, or words around it";
    return same_reports(&box, &reference) ? NULL : "the report of a mending, or numbers around it";
}

/* "It reports each index whose word differs afterwards, with old and new word, in rising order", and nothing behind is touched. */
static const char *report_difference(uint32_t changes)
{
    static struct lent wanted;
    uint32_t *next = wanted.report + GUARD;

    copy_lent(&wanted, &before);
    for (size_t i = 0; i < box.words; i++) {
        uint16_t was = before.list[GUARD + i], is = box.list[GUARD + i];
        if (was != is) {
            *next++ = (uint32_t)i;
            *next++ = was;
            *next++ = is;
        }
    }
    if (next != wanted.report + GUARD + OVENLUTE_CHANGE_NUMBERS * (size_t)changes)
        return "other changes are told than there are";
    return same_reports(&box, &wanted) ? NULL : "the words that differ are not what is reported";
}

/* "A second mending changes nothing". */
static const char *second_difference(void)
{
    static struct lent second;
    struct ovenlute_mended told;

    copy_lent(&second, &box);
    told = ovenlute_mend(list_of(&second), second.words, NULL, 0);
    return told.number == 0 && told.changes == 0 && same_lists(&second, &box) ? NULL : "a second mending";
}

static int is_whole(int kind)
{
    return kind == DAMAGE_NONE || kind == DAMAGE_NO_WORDS || kind == DAMAGE_LONGEST_NONE;
}

/* "A list above 65,536 words is 13; then a report without room for every change is 32". */
static int wanted_number(uint32_t changes)
{
    if (box.words > MOST_WORDS)
        return 13;
    return box.numbers < OVENLUTE_CHANGE_NUMBERS * (size_t)changes ? 32 : 0;
}

/* What is seen of a list that was mended. Where it leads a walk is looked at with the one room that is exact. */
static const char *mended_difference(const struct damaged *damaged, uint32_t changes)
{
    const char *difference = report_difference(changes);

    if (difference == NULL && is_whole(damaged->kind) && changes != 0)
        difference = "a list that walked cleanly was changed";
    if (difference == NULL)
        difference = second_difference();
    if (difference == NULL && box.numbers == OVENLUTE_CHANGE_NUMBERS * (size_t)changes)
        difference = walk_difference(box.list + GUARD, box.words);
    return difference;
}

/* What is seen without the reference. */
static const char *seen_difference(const struct damaged *damaged, struct ovenlute_mended told)
{
    if (told.number != wanted_number(told.changes))
        return "another number than words, changes and room call for";
    if (told.number == 0)
        return mended_difference(damaged, told.changes);
    return same_lists(&box, &before) && same_reports(&box, &before) ? NULL : "refused, and yet list or report was changed";
}

void judge_mending(const struct damaged *damaged, size_t numbers, int is_null, struct mending *mending)
{
    lay_out(damaged, numbers, is_null);
    mend_both(mending);
    mending->difference = told_difference(mending);
    if (mending->difference == NULL)
        mending->difference = seen_difference(damaged, mending->box);
}
