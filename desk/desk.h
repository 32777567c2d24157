/*
 * desk.h - statuses and subcommands of xm23, the program of setters, examiners and markers, over libxm23.a.
 *
 * It executes no instruction: states, words and counts are replies of the library. Functions that can fail say so on
 * standard error and give a status.
 */
#ifndef DESK_H
#define DESK_H

enum { DONE = 0, REFUSED = 1, USAGE = 2, UNREADABLE = 3 };

/* ---- the subcommands, each in the file of its name */

int xm23_desk_run(int argc, char **argv);
int xm23_desk_mark(int argc, char **argv);
int xm23_desk_dis(int argc, char **argv);
int xm23_desk_card(int argc, char **argv);
int xm23_desk_stack(int argc, char **argv);
int xm23_desk_report(int argc, char **argv);
int xm23_desk_back(int argc, char **argv);
int xm23_desk_events(int argc, char **argv);
int xm23_desk_sound(int argc, char **argv);
int xm23_desk_line(int argc, char **argv);
int xm23_desk_copies(int argc, char **argv);
int xm23_desk_asm(int argc, char **argv);
int xm23_desk_paper(int argc, char **argv);
int xm23_desk_check(int argc, char **argv);

/* ---- help.c */

struct subcommand {
    const char *name, *usage, *says, *help;
    int (*run)(int argc, char **argv);
};

extern const struct subcommand subcommands[];

/* Bad usage of a subcommand: what is wrong, and the usage line. USAGE. An option as getopt gave it, with what is wrong
 * with its value; the words behind the options, of which so many are taken. */
int wrong_option(const char *name, int option, const char *what);
int wrong_words(const char *name, int many, char **words, int most);
const char *late_option(const char *word); /* of a word that leads to nothing: that options come first, or empty */

#endif
