/* One mending: ovenlute_mend against the reference's mender, and against what is seen of list and report before and after. */
#ifndef MENDING_H
#define MENDING_H

#include "make.h"

/* Room for a report somewhat longer than any that is needed. */
enum { REPORT_ROOM = OVENLUTE_CHANGE_NUMBERS * MOST_WORDS + 128 };

struct mending {
    struct ovenlute_mended box, reference;  /* the answers */
    const char *difference;                 /* what is wrong, or NULL */
};

/* Both mend the list, lent with a report of so many numbers; what has no words or numbers may be lent as NULL. */
void judge_mending(const struct damaged *damaged, size_t numbers, int is_null, struct mending *mending);

#endif
