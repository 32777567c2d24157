/*
 * way.h - the way to a program: the folders of its name.
 *
 * The folders with which all names of a sitting begin were typed by the examiner: a link among them is followed, since
 * a path often goes by a link of the system's. What stands behind them a candidate may have made, and nothing there is
 * looked up by way of a link.
 */
#ifndef WAY_H
#define WAY_H

#include "text.h"

/* How many folders all names begin with; none where there is but one name. */
size_t shared_folders(char *const *names, size_t many);

/* Opens the folder of a name for lookups: of its first folders, so many are shared. AT_FDCWD where the name has none;
 * -1 with the reason in `why`, and in errno, which is 0 where the system did not fail. `last` is what the name means
 * in that folder. */
int open_way(const char *name, size_t shared, const char **last, struct text *why);
void close_way(int folder);

#endif
