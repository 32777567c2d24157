/* What the targets of the desk share, in desk_judge.c. */
#ifndef DESK_JUDGE_H
#define DESK_JUDGE_H

#include "../../desk/desk.h"
#include "../../desk/page.h"
#include "../../desk/source.h"

int LLVMFuzzerTestOneInput(const uint8_t *data, size_t size);

/* Ends the search where something does not hold, and prints what it is about. */
void must(int holds, const char *what, const char *text, size_t length);

/* Whether a text may be shown: characters alone, of controls those that are kept, a backslash before x and two
 * digits. */
int may_be_shown(const char *text, size_t length, const char *kept);

/* The bytes that such a text stands for. */
void add_undone(struct text *t, const char *text, size_t length);

/* Catches what is said on standard error; it must be nothing, or at most so many lines, each of which may be shown. */
void listen_to(void);
void end_listening(int most);

#endif
