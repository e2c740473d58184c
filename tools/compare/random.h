/* A small random generator, so that a seed gives the same calls on every machine. */
#ifndef RANDOM_H
#define RANDOM_H

#include <stdint.h>

/* Streams: what is asked of a call, or mended, does not change the calls that follow, those of a seed stay the same. */
enum stream { STREAM_OF_CALLS, STREAM_OF_DOTS, STREAM_OF_LISTS, STREAMS };

/* All begin by the seed; the calls' is drawn from. */
void random_seed(uint64_t seed);

/* The stream that is drawn from until it is told otherwise. */
void draw_from(enum stream stream);

/* Any 32 bits. */
uint32_t random_bits(void);

/* 0 to limit - 1. */
uint32_t below(uint32_t limit);

/* low to high, both ends possible. */
int32_t between(int32_t low, int32_t high);

/* True once in `times` on average. */
int one_in(uint32_t times);

#endif
