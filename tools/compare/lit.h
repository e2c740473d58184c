/* Lit dots: ovenlute_lit against the reference's walk, and against the dots of dashed lines that the box draws whole. */
#ifndef LIT_H
#define LIT_H

/* Every length from 0 to 200 and those about the limit, and some between, with many patterns; then lines. */
void check_lit(void);

#endif
