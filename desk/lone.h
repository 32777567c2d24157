/*
 * lone.h - names of a source that stand alone on their lines and are used nowhere.
 */
#ifndef LONE_H
#define LONE_H

#include "names.h"

/* Of an accepted source, in the order of its lines; `also` is a text besides it that may use them. How many; the array
 * is the caller's to free. */
size_t lone_names(const char *source, size_t length, const char *also, struct name **names);
void add_lone(struct text *t, const struct name *n); /* what is told of one */

#endif
