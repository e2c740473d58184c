/* The numbers that come back, and the limits: document 01's and 02's. */
#ifndef NUMBERS_H
#define NUMBERS_H

enum {
    ENDED = 0,
    BUDGET_USED = 1,
    BAD_SIZE = 10,
    BAD_SCREEN = 11,
    BAD_FIELD = 12,
    LONG_LIST = 13,
    LARGE_BUDGET = 14,
    PAST_END = 20,
    NO_OPCODE = 21,
    CUT = 22,
    NO_VARIABLE = 23,
    NOT_ALLOWED = 24,
    OUT_OF_RANGE = 25,
    ZERO_DIVISOR = 26,
    BAD_TARGET = 27,
    STACK_FULL = 28,
    STACK_EMPTY = 29,
    END_INSIDE = 30,
    MANY_STEPS = 31,
    NO_ROOM = 32
};

enum {
    MOST_WORDS = 65536, MOST_STEPS = 1000000, MOST_SIDE = 2048, VARIABLES = 64, RETURNS = 16, REPEATS = 8, MOST_PASSES = 1000,
    MOST_DOTS = 65536
};

#endif
