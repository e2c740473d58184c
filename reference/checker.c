/*
 * 02's T-09 in plain C: whether a list surely finishes, and in how many steps. One loop goes over the list's opcodes, each once,
 * and nothing calls itself: an opcode is carried out as often as the counts of the blocks around it multiply to, and the steps are
 * the sum of that over all opcodes.
 */

#include "afgis.h"
#include "numbers.h"
#include "sizes.h"

enum { EODL = 0x0001, ERPT = 0x004F, RPT = 0x00B7 };

/* What an opcode is that has no fault. */
enum { SOUND = 0 };

/* A product goes no higher: one opcode carried out so often is more than the steps allowed. */
static const uint64_t TOO_OFTEN = MOST_STEPS + 1;

struct reader {
    const uint16_t *list;
    size_t words;
    size_t at;                    /* where an opcode is due */
    int open;                     /* blocks around it */
    uint64_t times[REPEATS + 1];  /* how often an opcode is carried out that is inside so many blocks */
    uint64_t steps;               /* of all opcodes before it: at most 65,536 times the largest product */
};

/* "An opcode foreign to the profile": a call, a jump or RTRN. */
static int is_foreign(uint16_t opcode)
{
    switch (opcode) {
    case 0x000E: case 0x000F: case 0x010E: case 0x010F:     /* CAL, CALV, CALR, CALRV */
    case 0x010A: case 0x010C:                               /* JUMPA, JUMPR */
    case 0x00B9:                                            /* RTRN */
        return 1;
    default:
        return 0;
    }
}

/* An RPT's count is 1 to 1,000: a word from 8000 on is below 0, and none. */
static int is_count(uint16_t word)
{
    return 1 <= word && word <= MOST_PASSES;
}

/* The fault of an RPT that is whole. */
static int repeat_fault(const struct reader *reader, uint16_t count)
{
    if (!is_count(count))
        return NOT_ALLOWED;
    return reader->open == REPEATS ? STACK_FULL : SOUND;
}

/* The fault of the opcode that is due, the lowest number where there are two. */
static int fault(const struct reader *reader)
{
    size_t left = reader->words - reader->at;
    uint16_t opcode;

    if (left == 0)
        return PAST_END;
    opcode = reader->list[reader->at];
    if (words_of(opcode) == 0 || is_foreign(opcode))
        return NO_OPCODE;
    if (left < words_of(opcode))
        return CUT;
    switch (opcode) {
    case RPT:
        return repeat_fault(reader, reader->list[reader->at + 1]);
    case ERPT:
        return reader->open == 0 ? STACK_EMPTY : SOUND;
    case EODL:
        return reader->open > 0 ? END_INSIDE : SOUND;
    default:
        return SOUND;
    }
}

static void open_block(struct reader *reader, uint16_t count)
{
    uint64_t times = reader->times[reader->open] * count;

    reader->open++;
    reader->times[reader->open] = times < TOO_OFTEN ? times : TOO_OFTEN;
}

/* Goes past a sound opcode, and tells which it was. "RPT counts once each time its block is entered, ERPT once a pass": the one
   stands outside its block, the other inside. */
static uint16_t pass(struct reader *reader)
{
    const uint16_t *opcode = reader->list + reader->at;

    reader->steps += reader->times[reader->open];
    reader->at += words_of(opcode[0]);
    if (opcode[0] == RPT)
        open_block(reader, opcode[1]);
    else if (opcode[0] == ERPT)
        reader->open--;
    return opcode[0];
}

/* "With all else sound, the number exceeds 1,000,000." */
static struct afgis_checked sound(uint64_t steps)
{
    if (steps > MOST_STEPS)
        return (struct afgis_checked){ MANY_STEPS, 0, 0 };
    return (struct afgis_checked){ 0, 0, (uint32_t)steps };
}

/* "The first fault in list order is told; words after the EODL aren't read." */
struct afgis_checked afgis_check(const uint16_t *list, size_t words)
{
    struct reader reader = { list, words, 0, 0, { 1 }, 0 };
    int number;

    if (words > MOST_WORDS)
        return (struct afgis_checked){ LONG_LIST, 0, 0 };
    while ((number = fault(&reader)) == SOUND)
        if (pass(&reader) == EODL)
            return sound(reader.steps);
    return (struct afgis_checked){ number, (uint32_t)reader.at, 0 };
}
