#include "forms.h"
#include "libc.h"
#include "make.h"
#include "random.h"

enum { MOST_OPCODE_WORDS = 6, ERASED = 0xFFFF };

/* ---- opcodes ---- */

/* An operand is never judged: any word, often one that would be an opcode, or 0000. */
static uint16_t any_word(void)
{
    if (one_in(3))
        return forms[below(FORMS)].opcode;
    return one_in(3) ? 0x0000 : (uint16_t)random_bits();
}

static void put(struct damaged *damaged, uint16_t word)
{
    damaged->list[damaged->words++] = word;
}

static void put_whole(struct damaged *damaged, const struct form *form)
{
    put(damaged, form->opcode);
    for (uint32_t left = form_words(form) - 1; left > 0; left--)
        put(damaged, any_word());
}

/* So many words of an opcode that has more. */
static void put_cut(struct damaged *damaged, uint32_t words)
{
    const struct form *form;

    do
        form = &forms[below(FORMS)];
    while (form_words(form) <= words);
    put_whole(damaged, form);
    damaged->words -= form_words(form) - words;
}

/* ---- damages ---- */

static uint16_t *which_word(struct damaged *damaged)
{
    return &damaged->list[below((uint32_t)damaged->words)];
}

static void overwrite_words(struct damaged *damaged)
{
    for (uint32_t left = 1 + below(3); left > 0; left--)
        *which_word(damaged) = any_word();
}

static void flip_bits(struct damaged *damaged)
{
    for (uint32_t left = 1 + below(4); left > 0; left--)
        *which_word(damaged) ^= (uint16_t)(1u << below(16));
}

static void erase_stretch(struct damaged *damaged)
{
    size_t from = below((uint32_t)damaged->words);
    size_t count = 1 + below(8);

    for (size_t i = from; i < from + count && i < damaged->words; i++)
        damaged->list[i] = ERASED;
}

/* An opcode more, cut by the end. */
static void lose_tail(struct damaged *damaged)
{
    put_cut(damaged, 1 + below(MOST_OPCODE_WORDS - 1));
}

static void overwrite_all(struct damaged *damaged)
{
    for (size_t i = 0; i < damaged->words; i++)
        damaged->list[i] = any_word();
}

static void damage_much(struct damaged *damaged)
{
    overwrite_words(damaged);
    flip_bits(damaged);
    erase_stretch(damaged);
    lose_tail(damaged);
}

static void damage(struct damaged *damaged)
{
    static void (*const damages[])(struct damaged *) = {
        [DAMAGE_WORDS] = overwrite_words, [DAMAGE_BITS] = flip_bits, [DAMAGE_ERASED] = erase_stretch, [DAMAGE_TAIL] = lose_tail,
        [DAMAGE_ANY_WORDS] = overwrite_all, [DAMAGE_MUCH] = damage_much,
    };

    if (damages[damaged->kind] != NULL)
        damages[damaged->kind](damaged);
}

/* ---- lists ---- */

static void start_damaged(struct damaged *damaged, int kind)
{
    damaged->kind = kind;
    damaged->words = 0;
}

void make_damaged(struct damaged *damaged)
{
    start_damaged(damaged, one_in(200) ? DAMAGE_NO_WORDS : between(DAMAGE_NONE, DAMAGE_MUCH));
    if (damaged->kind == DAMAGE_NO_WORDS)
        return;
    for (uint32_t left = 1 + below(one_in(16) ? 80 : 10); left > 0; left--)
        put_whole(damaged, &forms[below(FORMS)]);
    damage(damaged);
}

void make_damaged_word(struct damaged *damaged, uint16_t word)
{
    start_damaged(damaged, DAMAGE_OPCODE_WORD);
    put(damaged, word);
    for (int i = 0; i < MOST_OPCODE_WORDS; i++)
        put(damaged, ERASED);
}

/* Whole opcodes, and NOOPs behind them that end at this index. */
static void fill_up(struct damaged *damaged, size_t end)
{
    while (damaged->words + MOST_OPCODE_WORDS <= end)
        put_whole(damaged, &forms[below(FORMS)]);
    while (damaged->words < end)
        put(damaged, 0x0000);
}

void make_longest_damaged(struct damaged *damaged, int kind)
{
    uint32_t cut = kind == DAMAGE_LONGEST_TAIL ? 1 + below(MOST_OPCODE_WORDS - 1) : 0;

    start_damaged(damaged, kind);
    fill_up(damaged, MOST_WORDS - cut);
    switch (kind) {
    case DAMAGE_LONGEST_WORDS:
        for (int i = 0; i < 500; i++)
            overwrite_words(damaged);
        break;
    case DAMAGE_LONGEST_TAIL:
        put_cut(damaged, cut);
        break;
    case DAMAGE_LONGEST_ERASED:
        memset(damaged->list, 0xFF, damaged->words * sizeof damaged->list[0]);
        break;
    case DAMAGE_TOO_LONG:
        damaged->list[0] = ERASED;
        put(damaged, 0x0000);
        break;
    }
}
