/* One list with its budget at once, in slices, and with a larger budget: slicing must not be seen. */
#ifndef SLICES_H
#define SLICES_H

void check_slices(void);

#endif
