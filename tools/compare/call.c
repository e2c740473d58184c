#include "call.h"
#include "libc.h"

void copy_call(struct call *to, const struct call *from)
{
    memcpy(to->list, from->list, from->words * sizeof to->list[0]);
    memcpy(to->screen, from->screen, from->bytes);
    memcpy(to->kinds, from->kinds, sizeof to->kinds);
    to->words = from->words;
    to->bytes = from->bytes;
    to->env = from->env;
    to->budget = from->budget;
    to->expected = from->expected;
    to->expected_check = from->expected_check;
    memcpy(to->dots, from->dots, sizeof to->dots);
}
