#include "random.h"

static uint64_t states[STREAMS] = { 1, 1, 1 };
static enum stream drawn_from = STREAM_OF_CALLS;

void draw_from(enum stream stream)
{
    drawn_from = stream;
}

static void start_stream(enum stream stream, uint64_t state)
{
    draw_from(stream);
    states[stream] = state == 0 ? 1 : state;
    for (int i = 0; i < 16; i++)
        random_bits();
}

void random_seed(uint64_t seed)
{
    start_stream(STREAM_OF_LISTS, seed ^ 0x8CB92BA72F3D8DD7u);
    start_stream(STREAM_OF_DOTS, seed ^ 0xD1B54A32D192ED03u);
    start_stream(STREAM_OF_CALLS, seed ^ 0x9E3779B97F4A7C15u);
}

/* Marsaglia's xorshift on 64 bits; the upper half is the better one. */
uint32_t random_bits(void)
{
    uint64_t *state = &states[drawn_from];

    *state ^= *state << 13;
    *state ^= *state >> 7;
    *state ^= *state << 17;
    return (uint32_t)(*state >> 32);
}

uint32_t below(uint32_t limit)
{
    return (uint32_t)(((uint64_t)random_bits() * limit) >> 32);
}

int32_t between(int32_t low, int32_t high)
{
    return (int32_t)(low + (int64_t)below((uint32_t)((int64_t)high - low + 1)));
}

int one_in(uint32_t times)
{
    return below(times) == 0;
}
