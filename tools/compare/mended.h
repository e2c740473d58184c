/* Lists that are mended: which ones, by which reports, and what was met in them. */
#ifndef MENDED_H
#define MENDED_H

/* So many lists at random, every word as an opcode, and the longest lists; each with reports of every room around what it needs. */
void check_mending(unsigned long long lists);

#endif
