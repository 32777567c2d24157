/*
 * workers.h - the programs of a sitting, marked by processes of their own, and the rows that they tell.
 *
 * A worker is handed one program at a time. It writes the page and tells the row, and the marking holds the page to the
 * digest that it was told. A worker that is ended costs the program that it had: that is a row and a page which say so,
 * and another worker goes on with the next.
 */
#ifndef WORKERS_H
#define WORKERS_H

#include "folder.h"
#include "marking.h"

/* What one program may take of a worker; MOST_PROGRAM bounds its file. */
#define MOST_SECONDS 10 /* of processor time */
#define MOST_MEMORY 512 /* MiB */

#define MOST_WORKERS 64

/* The rows of a sitting: a file that has no name, and where in it each one is. */
struct rows {
    int file;
    off_t end;
    struct place {
        off_t at;
        size_t length;
    } *places;
};

int open_rows(struct rows *r, const struct folder *f, size_t many); /* 0 or errno */
int keep_row(struct rows *r, size_t i, const struct row *row);      /* 0 or errno */
int get_row(const struct rows *r, const struct sitting *s, size_t i, struct row *row); /* 0 where it cannot be read */
void drop_rows(struct rows *r);

/* Marks every program. DONE where each one has its row and its page, else a status that has been told. */
int mark_all(const struct sitting *s, const struct folder *f, struct rows *r);

/* The signal that asks to stop, or 0; it is noticed from the first call of notice_stop on. */
int stop_signal(void);
void notice_stop(void);

/* ---- results.c: results.csv, index.html and SHA256SUMS. DONE, or a status that has been told; `verdict` is that of
 * the programs, and `counts` gets how many there are of each kind, in words. */

int write_results(const struct sitting *s, const struct folder *f, const struct rows *r, int *verdict,
                  struct text *counts);

#endif
