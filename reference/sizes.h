/* How many words each opcode of documents 01 and 02 has. */
#ifndef SIZES_H
#define SIZES_H

#include <stddef.h>
#include <stdint.h>

/* The opcode word and its operands; 0 for a word that is no opcode. */
size_t words_of(uint16_t opcode);

#endif
