/* Lists for T-09's checker: sound ones, ones with faults at known places in their order, and ones of a known number of steps. */

#include "libc.h"
#include "random.h"
#include "sketch.h"

enum { EODL = 0x0001, ERPT = 0x004F, RPT = 0x00B7 };

/* A list in the making whose opcodes are all cheap ones, or any. */
struct profile {
    struct sketch sketch;
    int is_cheap;
};

/* ---- opcodes and blocks ---- */

/* What is no part of a sequence but opens, closes or ends one, or is foreign. */
static int is_flow(uint16_t opcode)
{
    static const uint16_t flow[] = { EODL, RPT, ERPT, 0x00B9, 0x010A, 0x010C, 0x000E, 0x000F, 0x010E, 0x010F };

    for (size_t i = 0; i < sizeof flow / sizeof flow[0]; i++)
        if (flow[i] == opcode)
            return 1;
    return 0;
}

static const struct form *any_plain(void)
{
    const struct form *form;

    do
        form = &forms[below(FORMS)];
    while (is_flow(form->opcode));
    return form;
}

static void put_plain(struct profile *profile)
{
    static const uint16_t cheap[] = { 0x0000, 0x005D, 0x0042, 0x0065, 0x0003, 0x0071, 0x0016, 0x0083, 0x0045 };

    if (one_in(2))
        put_opcode(&profile->sketch, 0x0000);
    else if (profile->is_cheap)
        put_named(&profile->sketch, cheap[below(one_in(8) ? 9 : 4)]);
    else
        put_form(&profile->sketch, any_plain());
}

static int32_t good_count(void)
{
    if (one_in(8))
        return one_in(4) ? MOST_PASSES : between(1, MOST_PASSES);
    return between(1, 4);
}

static void put_open(struct profile *profile, int32_t count)
{
    put_opcode(&profile->sketch, RPT);
    put_word(&profile->sketch, count);
}

static void put_close(struct profile *profile)
{
    put_opcode(&profile->sketch, ERPT);
}

/* Opcodes and blocks, all of them closed. */
static void put_sound(struct profile *profile)
{
    uint32_t open = 0;

    for (uint32_t i = below(14); i > 0; i--) {
        if (open < REPEATS && one_in(3)) {
            put_open(profile, good_count());
            open++;
        } else if (open > 0 && one_in(3)) {
            put_close(profile);
            open--;
        } else {
            put_plain(profile);
        }
    }
    for (; open > 0; open--)
        put_close(profile);
}

/* So many blocks in one another, none of them closed. */
static void put_opened(struct profile *profile, uint32_t count)
{
    for (uint32_t i = 0; i < count; i++) {
        put_open(profile, one_in(8) ? good_count() : between(1, 2));
        if (one_in(4))
            put_plain(profile);
    }
}

static void put_closed(struct profile *profile, uint32_t count)
{
    for (uint32_t i = 0; i < count; i++)
        put_close(profile);
}

/* Exactly so many steps: a block of as many passes as fit, which holds the same again, and what is left. */
static void put_exactly(struct profile *profile, uint64_t steps)
{
    while (steps > 1) {
        uint64_t passes = (uint64_t)between(700, MOST_PASSES), inside;
        if (passes > steps - 1)
            passes = steps - 1;
        inside = (steps - 1) / passes - 1;
        put_open(profile, (int32_t)passes);
        put_exactly(profile, inside);
        put_close(profile);
        steps -= 1 + passes * (inside + 1);
    }
    if (steps == 1)
        put_opcode(&profile->sketch, 0x0000);
}

/* ---- faults ---- */

/* A jump, a call or RTRN with some operands, or no opcode at all. */
static void put_foreign(struct profile *profile)
{
    static const uint16_t foreign[] = { 0x00B9, 0x010A, 0x010C, 0x000E, 0x000F, 0x010E, 0x010F, 0x00B8, 0x0043 };
    uint16_t word = (uint16_t)random_bits();

    if (one_in(4) && form_of(word) < 0)
        put_opcode(&profile->sketch, word);
    else
        put_opcode(&profile->sketch, foreign[below(sizeof foreign / sizeof foreign[0])]);
    for (uint32_t i = below(5); i > 0; i--)
        put_word(&profile->sketch, between(0, 16));
}

/* An opcode without its last word, or without more of them. */
static void put_cut(struct profile *profile)
{
    const struct form *form = &forms[form_of(RPT)];

    if (!one_in(3))
        do
            form = any_plain();
        while (form_words(form) == 1);
    put_opcode(&profile->sketch, form->opcode);
    for (uint32_t i = below(form_words(form) - 1); i > 0; i--)
        put_word(&profile->sketch, between(0, 2));
}

/* A count that isn't allowed, also in a ninth block. */
static void put_bad_count(struct profile *profile)
{
    put_opened(profile, one_in(3) ? REPEATS : below(REPEATS));
    put_open(profile, bad_count());
}

/* Behind blocks that are all closed: what the checker tells with this number. 20 and 22 need the list's end behind them. */
static void put_fault(struct profile *profile, int number)
{
    uint32_t open = one_in(4) ? REPEATS : below(REPEATS + 1);

    if (number == 24) {
        put_bad_count(profile);
        return;
    }
    put_opened(profile, number == 28 ? REPEATS : number == 30 && open == 0 ? 1 : open);
    if (number == 21)
        put_foreign(profile);
    else if (number == 22)
        put_cut(profile);
    else if (number == 28)
        put_open(profile, good_count());
    else if (number == 29)
        put_closed(profile, open + 1);
    else if (number == 30)
        put_end(&profile->sketch);
}

static int is_of_the_end(int number)
{
    return number == 20 || number == 22;
}

static int make_fault(void)
{
    static const int numbers[] = { 20, 21, 22, 24, 28, 29, 30 };

    return numbers[below(sizeof numbers / sizeof numbers[0])];
}

/* A fault with nothing sound behind it, or a sound rest. */
static int put_last_fault(struct profile *profile)
{
    int number = make_fault();

    put_fault(profile, number);
    if (!is_of_the_end(number) && one_in(2)) {
        put_sound(profile);
        put_end(&profile->sketch);
    }
    return number;
}

/* Two of them: the first is told. */
static int put_two_faults(struct profile *profile)
{
    int number;

    do
        number = make_fault();
    while (is_of_the_end(number));
    put_fault(profile, number);
    put_sound(profile);
    put_last_fault(profile);
    return number;
}

/* ---- numbers of steps ---- */

static const uint64_t PAST_32_BITS = (uint64_t)1 << 32;

/* 256 passes of 2^56 steps, and the RPT: 2^64 and one. */
static void put_past_64_bits(struct profile *profile)
{
    put_open(profile, 256);
    put_exactly(profile, ((uint64_t)1 << 56) - 1);
    put_close(profile);
}

/* More than a million by one, by a few, or by so many that 32 bits would lose them. */
static uint64_t too_many(void)
{
    return one_in(2) ? MOST_STEPS + 1 + below(3) : PAST_32_BITS + below(MOST_STEPS);
}

/* ---- long lists ---- */

/* Words from here on, at the end of the longest list. */
static void put_last_words(struct call *call, const uint16_t *words, size_t count)
{
    memcpy(call->list + MOST_WORDS - count, words, count * sizeof words[0]);
}

/* 65,536 words, most of them NOOP. */
static int put_longest(struct call *call)
{
    static const uint16_t end[] = { EODL }, cut[] = { RPT }, open[] = { RPT, 2 }, closed[] = { ERPT, EODL };

    memset(call->list, 0, sizeof call->list);
    call->words = MOST_WORDS;
    switch (below(5)) {
    case 0:
        return 20;
    case 1:
        put_last_words(call, open, 2);
        return 20;
    case 2:
        put_last_words(call, cut, 1);
        return 22;
    case 3:
        put_last_words(call, end, 1);
        return 0;
    default:
        call->list[0] = RPT;
        call->list[1] = (uint16_t)between(15, 16);
        put_last_words(call, closed, 2);
        return call->list[1] == 15 ? 0 : 31;
    }
}

static int put_too_long(struct call *call)
{
    memset(call->list, 0, sizeof call->list);
    call->list[below(2)] = EODL;
    call->words = MOST_WORDS + 1 + below(LIST_ROOM - MOST_WORDS);
    call->expected = 13;
    return 13;
}

/* ---- lists of a kind ---- */

static int make_kind(void)
{
    static const int kinds[] = {
        PROFILE_SOUND, PROFILE_SOUND, PROFILE_SOUND, PROFILE_SOUND, PROFILE_DEEPEST, PROFILE_DEEPEST, PROFILE_FAULT, PROFILE_FAULT,
        PROFILE_FAULT, PROFILE_FAULT, PROFILE_FAULT, PROFILE_TWO_FAULTS, PROFILE_TWO_FAULTS, PROFILE_ONE_MORE,
        PROFILE_PAST_32_BITS, PROFILE_PAST_64_BITS, PROFILE_MANY_AND_FAULT, PROFILE_MANY_AND_FAULT, PROFILE_WORDS_BEHIND,
    };

    if (one_in(100))
        return one_in(2) ? PROFILE_LONGEST : PROFILE_TOO_LONG;
    if (one_in(300))
        return PROFILE_MILLION;
    return kinds[below(sizeof kinds / sizeof kinds[0])];
}

static void put_deepest(struct profile *profile)
{
    put_opened(profile, REPEATS);
    put_plain(profile);
    put_closed(profile, REPEATS);
    put_sound(profile);
}

static void put_words_behind(struct profile *profile)
{
    put_sound(profile);
    put_end(&profile->sketch);
    for (uint32_t i = 1 + below(8); i > 0; i--)
        put_word(&profile->sketch, one_in(2) ? RPT : (int32_t)random_bits());
}

/* A list that has no fault, or too many steps alone. What must be told of it, where it is known. */
static int put_without_fault(struct profile *profile, int kind)
{
    switch (kind) {
    case PROFILE_DEEPEST:
        put_deepest(profile);
        break;
    case PROFILE_MILLION:
        put_exactly(profile, MOST_STEPS - 1);
        break;
    case PROFILE_ONE_MORE:
        put_exactly(profile, MOST_STEPS);
        break;
    case PROFILE_PAST_32_BITS:
        put_exactly(profile, PAST_32_BITS + below(MOST_STEPS));
        break;
    case PROFILE_PAST_64_BITS:
        put_past_64_bits(profile);
        break;
    default:
        put_sound(profile);
    }
    put_end(&profile->sketch);
    if (kind == PROFILE_MILLION)
        return 0;
    return kind == PROFILE_SOUND || kind == PROFILE_DEEPEST ? NO_EXPECTATION : 31;
}

static int put_kind(struct profile *profile, int kind)
{
    switch (kind) {
    case PROFILE_LONGEST:
        return put_longest(profile->sketch.call);
    case PROFILE_TOO_LONG:
        return put_too_long(profile->sketch.call);
    case PROFILE_WORDS_BEHIND:
        put_words_behind(profile);
        return NO_EXPECTATION;
    case PROFILE_FAULT:
        put_sound(profile);
        return put_last_fault(profile);
    case PROFILE_TWO_FAULTS:
        put_sound(profile);
        return put_two_faults(profile);
    case PROFILE_MANY_AND_FAULT:
        put_exactly(profile, too_many());
        return put_last_fault(profile);
    default:
        return put_without_fault(profile, kind);
    }
}

/* ---- whole calls ---- */

/* A fresh environment on a small screen: what is drawn again and again must not take long. */
static void start_profile(struct profile *profile, struct call *call)
{
    uint32_t width = 1 + below(12), height = 2 + below(11);
    struct ovenlute_pane whole = { 0, 0, width - 1, height - 1 };

    fresh_env(&call->env, width, height, whole);
    call->bytes = (size_t)width * height;
    call->kinds[ENVIRONMENTS] = ENV_FRESH;
    call->kinds[SIZES] = SIZE_SMALL;
    call->kinds[PANES] = PANE_WHOLE;
    call->kinds[MODES] = call->kinds[WINDOWS] = NOT_OF_A_KIND;
    call->kinds[LISTS] = LIST_PROFILE;
    start_sketch(&profile->sketch, call, 0);
}

/* All steps that are needed, or some more or less; but no more than a few where they aren't cheap. */
static uint32_t make_steps(uint32_t needed, int is_cheap)
{
    uint32_t most = is_cheap ? (one_in(16) ? MOST_STEPS : 5000) : 300;

    if (needed > most)
        return (uint32_t)between(9, 200);
    if (one_in(4))
        return below(needed + 1);
    return needed < MOST_STEPS && one_in(2) ? needed + 1 : needed;
}

static void make_profile_budget(struct call *call, int is_cheap)
{
    struct afgis_checked checked = afgis_check(call->list, call->words);

    if (call->kinds[PROFILES] == PROFILE_MILLION)
        set_budget(call, MOST_STEPS);
    else if (checked.number == 0)
        set_budget(call, make_steps(checked.steps, is_cheap));
    else if (is_cheap && one_in(60))
        set_budget(call, MOST_STEPS);
    else
        set_budget(call, (uint32_t)between(1, is_cheap ? 1000 : 200));
}

void make_profile(struct call *call)
{
    struct profile profile;

    start_profile(&profile, call);
    profile.is_cheap = one_in(2);
    call->kinds[PROFILES] = make_kind();
    call->expected_check = put_kind(&profile, call->kinds[PROFILES]);
    make_profile_budget(call, profile.is_cheap);
}

void make_whole_profile(struct call *call)
{
    struct profile profile;

    start_profile(&profile, call);
    profile.is_cheap = 1;
    call->kinds[PROFILES] = PROFILE_CUT;
    if (one_in(4))
        put_deepest(&profile);
    else
        put_sound(&profile);
    put_end(&profile.sketch);
    set_budget(call, (uint32_t)between(1, 200));
}
