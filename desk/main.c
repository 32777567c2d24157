/* xm23: the program of setters, examiners and markers. Statuses: 0 done, 1 a refusal or a difference, 2 usage, 3 cannot
 * read or write. */
#include <fcntl.h>
#include <signal.h>
#include <stdio.h>
#include <string.h>

#include "desk.h"
#include "file.h"
#include "xm23.h"

static int print_text(struct text *t)
{
    int status = write_file("-", t);
    drop_text(t);
    return status;
}

static int help_of(const struct subcommand *s)
{
    struct text t = {0};
    addf(&t, "usage: %s\n\n%s", s->usage, s->help);
    return print_text(&t);
}

static int help(void)
{
    struct text t = {0};
    addf(&t, "usage: xm23 SUBCOMMAND .., over the proved machine; 'xm23 SUBCOMMAND --help' says more\n\n");
    for (const struct subcommand *s = subcommands; s->name; s++)
        addf(&t, "  %-8s%s\n", s->name, s->says);
    addf(&t, "\nStatus: 0 done, 1 a refusal or a difference, 2 bad usage, 3 a file cannot be read or written.\n");
    return print_text(&t);
}

static int version(void)
{
    struct text t = {0};
    unsigned v = xm23_version();
    addf(&t, "xm23 %u.%u.%u\n", v >> 16, v >> 8 & 0xFF, v & 0xFF);
    return print_text(&t);
}

/* Whether --help stands directly behind the subcommand. Anywhere else it may be the name of a file. */
static int asks_help(int argc, char **argv)
{
    return argc > 1 && strcmp(argv[1], "--help") == 0;
}

/* No file that is opened gets the number of standard input, output or errors, where one of these is closed: then a
 * message would go into it. What is put in its place can be neither read nor written, as before. */
static void keep_numbers(void)
{
    for (int i = 0; i < 3; i++)
        if (fcntl(i, F_GETFD) < 0 && open("/dev/null", i ? O_RDONLY : O_WRONLY) != i)
            return;
}

int main(int argc, char **argv)
{
    keep_numbers();
    signal(SIGPIPE, SIG_IGN);
    signal(SIGXFSZ, SIG_IGN); /* a file that may not grow is told, as a full disk is */
    if (argc > 1 && strcmp(argv[1], "--help") == 0)
        return help();
    if (argc > 1 && strcmp(argv[1], "--version") == 0)
        return version();
    for (const struct subcommand *s = subcommands; argc > 1 && s->name; s++)
        if (strcmp(s->name, argv[1]) == 0)
            return asks_help(argc - 1, argv + 1) ? help_of(s) : s->run(argc - 1, argv + 1);
    if (argc > 1)
        say_text("'%s' is no subcommand; 'xm23 --help' lists them", argv[1]);
    else
        fputs("usage: xm23 SUBCOMMAND ..; 'xm23 --help' lists them\n", stderr);
    return USAGE;
}
