/* What a run leaves beside the screen when 02's T-08 is asked: which step wrote each pixel last, and where each step's opcode is. */
#ifndef RECORD_H
#define RECORD_H

#include "afgis.h"
#include "numbers.h"

struct record {
    uint32_t steps[MOST_SIDE * MOST_SIDE];  /* by pixel, row by row as on the screen; 0 where none wrote it */
    uint32_t opcodes[MOST_STEPS + 1];       /* by step, counted from 1: its word index; one that was refused may stand there too */
};

/* As afgis_run; the record's pixels are zeros before, or there is none. */
struct afgis_answer run_recorded(const uint16_t *list, size_t words, uint8_t *screen, size_t bytes,
                                 struct afgis_env *env, uint32_t budget, struct record *record);

#endif
