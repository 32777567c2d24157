/*
 * word.h - a word as the assembler writes it, at a place.
 */
#ifndef WORD_H
#define WORD_H

#include "text.h"

void add_statement(struct text *t, unsigned place, uint16_t word);
void add_remark(struct text *t, const char *before, unsigned place, uint16_t word); /* what a WORD is, if it is one */
uint16_t plain_word(uint16_t word); /* without its ignored bit; itself where that is not set */
void add_instruction(struct text *t, unsigned place, uint16_t word);                /* both, the remark as a comment */

#endif
