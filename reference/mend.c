/*
 * 02's T-14 in plain C: the mender. A copy of the list is walked and mended, opcode after opcode; what differs is then found by
 * holding the copy against the list, word by word, and the list is written last.
 */

#include "afgis.h"
#include "numbers.h"
#include "sizes.h"

enum { NUMBERS_A_CHANGE = 3 };

/* "An opcode cut by the end has its first word made 0001 and the rest 0000." */
static void mend_cut(uint16_t *opcode, const uint16_t *end)
{
    *opcode = 0x0001;
    for (uint16_t *word = opcode + 1; word < end; word++)
        *word = 0x0000;
}

/* "Walks a list from word 0, opcode after opcode, through its end. A word that is no opcode where one is due becomes 0000 and the
   walk goes on at the next word." */
static void walk(uint16_t *list, size_t words)
{
    size_t at = 0, size;

    while (at < words) {
        size = words_of(list[at]);
        if (size == 0) {
            list[at] = 0x0000;
            size = 1;
        } else if (size > words - at) {
            mend_cut(list + at, list + words);
        }
        at += size;
    }
}

static uint32_t count_changes(const uint16_t *list, const uint16_t *mended, size_t words)
{
    uint32_t changes = 0;

    for (size_t i = 0; i < words; i++)
        changes += list[i] != mended[i];
    return changes;
}

/* "It reports each index whose word differs afterwards, with old and new word, in rising order, and changes nothing else." */
static void change(uint16_t *list, const uint16_t *mended, size_t words, uint32_t *report)
{
    for (size_t i = 0; i < words; i++)
        if (list[i] != mended[i]) {
            *report++ = (uint32_t)i;
            *report++ = list[i];
            *report++ = mended[i];
            list[i] = mended[i];
        }
}

/* "A list above 65,536 words is 13; then a report without room for every change is 32; either leaves list and report untouched." */
struct afgis_mended afgis_mend(uint16_t *list, size_t words, uint32_t *report, size_t numbers)
{
    static uint16_t mended[MOST_WORDS];
    uint32_t changes;

    if (words > MOST_WORDS)
        return (struct afgis_mended){ LONG_LIST, 0 };
    for (size_t i = 0; i < words; i++)
        mended[i] = list[i];
    walk(mended, words);
    changes = count_changes(list, mended, words);
    if (numbers / NUMBERS_A_CHANGE < changes)
        return (struct afgis_mended){ NO_ROOM, changes };
    change(list, mended, words, report);
    return (struct afgis_mended){ 0, changes };
}
