#include "mended.h"
#include "check.h"
#include "count.h"
#include "libc.h"
#include "mending.h"
#include "random.h"
#include "walked.h"

enum { LONGEST_LISTS = 2, WORDS_SHOWN = 64 };

/* ---- one report ---- */

static void count_mending(const struct damaged *damaged, size_t numbers, int report, int number)
{
    count_kind(MENDED, number == 0 ? MENDED_0 : number == 13 ? MENDED_13 : MENDED_32);
    if (damaged->kind == DAMAGE_TOO_LONG && numbers == 0)
        count_kind(MENDED, MENDED_13_AND_32);
    count_kind(MENDED_REPORTS, report);
}

static void print_mending(const struct damaged *damaged, size_t numbers, const struct mending *mending)
{
    printf("difference: %s; a report of %llu numbers; box %d, %u changes; reference %d, %u changes\n", mending->difference,
           (unsigned long long)numbers, mending->box.number, (unsigned)mending->box.changes, mending->reference.number,
           (unsigned)mending->reference.changes);
    printf("  list, %llu words:", (unsigned long long)damaged->words);
    for (size_t i = 0; i < damaged->words && i < WORDS_SHOWN; i++)
        printf(" %04X", damaged->list[i]);
    printf("%s\n", damaged->words > WORDS_SHOWN ? " ..." : "");
}

static void check_report(const struct damaged *damaged, size_t numbers, int report)
{
    struct mending mending;

    judge_mending(damaged, numbers, report == REPORT_NULL || report == REPORT_NULL_NOT_NEEDED, &mending);
    if (mending.difference == NULL)
        count_mending(damaged, numbers, report, mending.box.number);
    else if (is_shown())
        print_mending(damaged, numbers, &mending);
}

/* ---- one list ---- */

static int changes_kind(uint32_t changes)
{
    if (changes < 2)
        return changes == 0 ? CHANGES_NONE : CHANGES_1;
    if (changes < 100)
        return changes < 10 ? CHANGES_TO_9 : CHANGES_TO_99;
    return changes == MOST_WORDS ? CHANGES_MOST : CHANGES_ABOVE;
}

static void count_list(const struct damaged *damaged, uint32_t changes)
{
    count_kind(MENDED_LISTS, damaged->kind);
    if (damaged->words > MOST_WORDS)
        return;
    count_kind(MENDED_CHANGES, changes_kind(changes));
    count_walk(damaged);
}

/* How many words have to be changed, as the reference tells it. */
static uint32_t changes_of(const struct damaged *damaged)
{
    struct mending mending;

    judge_mending(damaged, 0, 1, &mending);
    return mending.reference.changes;
}

/* With reports of every room around what the changes need. */
static void check_list(const struct damaged *damaged)
{
    uint32_t changes = changes_of(damaged);
    size_t needed = OVENLUTE_CHANGE_NUMBERS * (size_t)changes;

    check_report(damaged, 0, needed > 0 ? REPORT_NULL : REPORT_NULL_NOT_NEEDED);
    check_report(damaged, 0, needed > 0 ? REPORT_NONE : REPORT_NONE_NOT_NEEDED);
    for (int report = needed > 0 ? REPORT_CHANGE_SHORT : REPORT_EXACT; report < REPORT_LARGER; report++)
        check_report(damaged, needed + (size_t)report - REPORT_EXACT, report);
    check_report(damaged, needed + 5 + below(100), REPORT_LARGER);
    count_list(damaged, changes);
}

/* ---- all of them ---- */

/* Each of the 65,536 words as an opcode, and what it leaves of the words behind it. */
static void check_words(void)
{
    static struct damaged damaged;

    for (uint32_t word = 0; word < 65536; word++) {
        make_damaged_word(&damaged, (uint16_t)word);
        check_report(&damaged, OVENLUTE_CHANGE_NUMBERS * damaged.words + 1, REPORT_LARGER);
        count_list(&damaged, changes_of(&damaged));
    }
}

static void check_longest(void)
{
    static struct damaged damaged;

    for (int kind = DAMAGE_LONGEST_NONE; kind <= DAMAGE_TOO_LONG; kind++)
        for (int i = 0; i < LONGEST_LISTS; i++) {
            make_longest_damaged(&damaged, kind);
            check_list(&damaged);
        }
}

/* One word, mended with 2^32 and two numbers: the low 32 bits alone would have no room. */
static void mend_by_huge_report(uint32_t *report)
{
    size_t numbers = ((size_t)1 << 32) + 2;
    uint16_t box_word = 0xFFFF, reference_word = 0xFFFF;
    struct ovenlute_mended told = ovenlute_mend(&box_word, 1, report, numbers);
    int is_reported = report[0] == 0 && report[1] == 0xFFFF && report[2] == 0;
    struct afgis_mended wanted = afgis_mend(&reference_word, 1, report, numbers);

    count_kind(MENDED_REPORTS, REPORT_PAST_32_BITS);
    if ((told.number != 0 || wanted.number != 0 || box_word != 0 || reference_word != 0 || !is_reported) && is_shown())
        printf("difference: mended with 2^32 + 2 numbers: box %d, reference %d\n", told.number, wanted.number);
}

/* Of so large a report one page can be written. */
static void check_huge_report(void)
{
    size_t page = 4096, bytes = ((size_t)1 << 32) * sizeof(uint32_t) + page;
    void *room = mmap(NULL, bytes, PROT_READ, MAP_PRIVATE | MAP_ANONYMOUS | MAP_NORESERVE, -1, 0);

    if (room == MAP_FAILED)
        return;
    if (mmap(room, page, PROT_READ | PROT_WRITE, MAP_PRIVATE | MAP_ANONYMOUS | MAP_FIXED, -1, 0) != MAP_FAILED)
        mend_by_huge_report(room);
    munmap(room, bytes);
}

void check_mending(unsigned long long lists)
{
    static struct damaged damaged;

    draw_from(STREAM_OF_LISTS);
    check_words();
    for (; lists > 0; lists--) {
        make_damaged(&damaged);
        check_list(&damaged);
    }
    check_longest();
    check_huge_report();
    draw_from(STREAM_OF_CALLS);
}
