/*
 * program.h - what a candidate hands in, and the machine that it opens under a paper.
 */
#ifndef PROGRAM_H
#define PROGRAM_H

#include "file.h"
#include "machine.h"

/*
 * Why a program has no closing state: refusal 0 where the library refuses none of its files, line 0 where no line is at
 * fault, of a folder the file that is refused. It is the program's, and goes with it.
 */
struct fault {
    unsigned refusal;
    uint32_t line;
    struct text why;
    const struct handed *file;
    char hint[512]; /* a guess at what is wrong with the line; empty where there is none */
};

/* A file that was handed in: S-records, or a source where its name ends in .asm. */
struct handed {
    char *path;       /* by which it is told: that of the program, and of a folder's file its own name behind it */
    const char *name; /* its own in the folder; of a file alone the path */
    char *bytes;
    size_t length;
};

enum { MOST_FILES = 9 }; /* a program and eight handlers */

/* What a candidate handed in: a file, or a folder with at most so many, in the order of the bytes of their names. */
struct program {
    const char *name;
    struct handed files[MOST_FILES];
    unsigned many;
    int folder;
};

/*
 * Reads a program, of a sitting where it is not ANY_FILE; a REGULAR_FILE is reached by no link behind the folders that
 * are shared. Of what stands in a folder no link is followed but where it is LINKED_FILE, and nothing but regular files
 * is opened. 0 with the reason in `why`, and in errno, as read_file has it.
 */
int read_program(const char *name, enum reading kind, size_t shared, struct program *p, struct text *why);
int take_program(const char *name, struct program *p); /* DONE, or UNREADABLE, which has been told */
int take_file(const char *name, struct program *p);    /* the same of a file alone */
void drop_program(struct program *p);

/* The digest of a file is that of its bytes; that of a folder is the one of what sha256sum -z prints of its files. 0
 * where the library fails. */
int digest_program(const struct program *p, char *digits);

/* Whether `to` is one of its files, which is then told. */
int overwrites_program(const char *to, const struct program *p);

/* ---- program_folder.c: the files of a folder. As read_program; `at` and `last` are the way to it. */
int read_program_folder(int at, const char *last, enum reading kind, size_t most, struct program *p, struct text *why);
void add_file(struct program *p, const char *name, char *bytes, size_t length); /* `name` is its own in a folder */

/* The machine before its first step: zero, the program, the paper over it. 0 where the program is refused. */
int open_program(const struct paper *p, const struct program *program, struct machine *m, struct fault *f);

/* A program's bytes, and those that it names: 1 in `set`. 0 where it is refused. */
struct assembled {
    uint8_t memory[XM23_MEMORY_SIZE], set[XM23_MEMORY_SIZE];
    uint16_t pc;
};

int load_srec(const char *text, size_t length, struct assembled *a, struct fault *f);
int load_file(const struct handed *h, struct assembled *a, struct fault *f);
int load_program(const struct program *p, struct assembled *a, struct fault *f); /* all its files, and the PC */
unsigned starting_file(const struct program *p); /* the one that has the PC: program.*, else the first */

/* ---- spans.c: S1 lines of the bytes that are of a kind in `set`; all that a program names, and S9 */
void add_spans(struct text *t, const uint8_t *memory, const uint8_t *set, unsigned kind);
void add_srec(struct text *t, const struct assembled *a);

/* Tells a refusal of the library, by its number and in words: that of a file, or of its line where one is at fault.
 * REFUSED. */
int say_refusal(const char *name, uint32_t line, unsigned refusal, const char *words);
int say_fault(const char *name, const struct fault *f); /* of a program, with the file that it is of */

#endif
