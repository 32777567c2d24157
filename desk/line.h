/*
 * line.h - the line of the sheet, and what each field of it says.
 */
#ifndef LINE_H
#define LINE_H

#include "machine.h"

/* The line of a run of so many steps under a paper, from a machine before its first step: a run of its own, no LF. */
void add_line(struct text *t, const struct machine *m, const struct paper *p, uint64_t steps);

/* A row for each field of a line: its name, the field, what it says. */
struct field {
    char name[8], value[12], says[192];
};

/* Fills the rows, and gives how many: one of a line that is a refusal. */
int line_fields(const char *line, struct field *rows);
void add_legend(struct text *t, const char *line);

#endif
