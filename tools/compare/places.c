#include "call.h"
#include "count.h"
#include "forms.h"
#include "libc.h"
#include "places.h"

enum { LAST_VARIABLE = 63 };

static int is_above(uint32_t number)
{
    return number > LAST_VARIABLE;
}

/* Vi alone, the first of two to five, or only a follower of such a one. */
static int misnamed_first(uint32_t number, int count)
{
    if (count == 1)
        return MISNAMED_VI;
    return (is_above(number) ? MISNAMED_FIRST_OF_2 : MISNAMED_FOLLOWER_OF_2) + count - 2;
}

static int misnamed_pair(uint32_t source, uint32_t destination)
{
    if (is_above(source))
        return is_above(destination) ? MISNAMED_VS_AND_VD : MISNAMED_VS;
    return MISNAMED_VD;
}

void count_misnamed(const uint16_t *opcode)
{
    const struct form *form = &forms[form_of(opcode[0])];

    if (form->operands[0] == 'i')
        count_kind(MISNAMED, misnamed_first(opcode[1], (int)strlen(form->implied)));
    else if (strlen(form->operands) == 1)
        count_kind(MISNAMED, MISNAMED_V);
    else if (form->operands[0] == 'v')
        count_kind(MISNAMED, misnamed_pair(opcode[1], opcode[2]));
    else
        count_kind(MISNAMED, is_long(form->operands[0]) ? MISNAMED_VD_BEHIND_LONG : MISNAMED_VD_BEHIND_WORD);
}

void count_place(uint32_t place)
{
    if (place == 0)
        count_kind(PLACES, PLACE_FIRST);
    else if (place < MOST_WORDS - 1)
        count_kind(PLACES, PLACE_INSIDE);
    else
        count_kind(PLACES, place == MOST_WORDS ? PLACE_BEHIND_LONGEST : PLACE_LAST_OF_LONGEST);
}
