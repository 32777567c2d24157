/*
 * page.h - the page of a program, and what every page has.
 */
#ifndef PAGE_H
#define PAGE_H

#include "marking.h"

void add_page_path(struct text *t, const struct sitting *s, size_t i); /* below the folder */
void add_page_head(struct text *t, const char *title);
void open_table(struct text *t, const char *heads); /* names of columns, a bar between two */
void open_heads(struct text *t, const char *classes); /* or part by part: these three */
void add_heads(struct text *t, const char *heads, const char *classes);
void close_heads(struct text *t);
void close_table(struct text *t);
void add_wide(struct text *t, const struct text *rows); /* not broken on a screen, which moves them sideways */
void add_page(struct text *t, const struct sitting *s, const struct marked *m);

/* ---- page_files.c: names of accepted sources that stand alone and that nothing uses; the sources as they were handed
 * in, of so many lines in all; of a folder what it has */

void add_notes(struct text *t, const struct program *p);
void add_sources(struct text *t, const struct program *p, unsigned most);
void add_files(struct text *t, const struct paper *paper, const struct program *p);

/* ---- page_award.c: the points in the heading; and of a program that ran, what was found for each award, of a text as
 * many bytes as there is room for */

void add_points_line(struct text *t, const struct paper *p, const struct row *r);
void add_awards_section(struct text *t, const struct paper *p, const struct marked *m, size_t most);

/* The walk on a page: tables that are there without scripts, and the data with the script that walks through it. */
void add_walk_words(struct text *t, const struct walk *w);
void add_walk_tables(struct text *t, const struct walk *w, const struct names *names, const struct machine *after);
void add_events_table(struct text *t, const struct walk *w, const struct paper *p, unsigned most);
void add_walk_data(struct text *t, const struct walk *w, const struct names *names, const struct text *screen);

/* ---- what pages carry: the files of these names, page.css and so on */

extern const char page_css[], index_js[], walk_html[], walk_js[];

#endif
