/*
 * hint.h - a guess in words at what is wrong with the line at fault of a refused source.
 *
 * Where and why a source is refused is the library's word. A hint tells what is found in that line, and it is tried:
 * the library is asked for lines and sources with one part changed, and what they show is what is told. Where nothing
 * is found there is no hint.
 */
#ifndef HINT_H
#define HINT_H

#include "text.h"

/* Adds the hint for a source that is refused with 17, 18 or 19, and the line at fault; nothing where there is none. It
 * has letters, digits and signs of the line alone. A column counts bytes, from 1. */
void add_hint(struct text *t, const char *source, size_t length, unsigned refusal, uint32_t line);

#endif
