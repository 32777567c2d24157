/* xm23 mark: every program of a sitting under one paper. */
#include <signal.h>
#include <stdio.h>
#include <stdlib.h>
#include <string.h>
#include <unistd.h>

#include "alike.h"
#include "desk.h"
#include "way.h"
#include "workers.h"

/* ---- the marking */

/* Fills the new folder. DONE where it is whole. */
static int fill_folder(const struct sitting *s, const struct folder *f, int *verdict, struct text *counts)
{
    struct rows rows;
    int problem = open_rows(&rows, f, s->many), status = UNREADABLE;
    if (problem)
        say_at(f->name, 0, "cannot be written: %s", strerror(problem));
    else
        status = mark_all(s, f, &rows);
    if (status == DONE)
        status = write_results(s, f, &rows, verdict, counts);
    drop_rows(&rows);
    return status;
}

/* Nothing is left of a marking that is stopped, and it ends as the signal would have ended it. */
static int end_stopped(const char *folder)
{
    say_at(folder, 0, "the marking was stopped; what was there is as it was");
    signal(stop_signal(), SIG_DFL);
    raise(stop_signal());
    return UNREADABLE;
}

/* On a terminal how many programs there were, and where the table is. */
static void tell_counts(const char *folder, const struct text *counts)
{
    if (isatty(STDERR_FILENO))
        say_at(folder, 0, "%s; the table is %s/index.html", counts->at, folder);
}

static int mark_into(const struct sitting *s, const char *folder)
{
    struct folder f;
    struct text counts = {0};
    int verdict = DONE, status;
    signal(SIGCHLD, SIG_DFL);
    notice_stop();
    status = open_folder(&f, folder);
    if (status != DONE)
        return status;
    status = fill_folder(s, &f, &verdict, &counts);
    if (status == DONE && count_pages(&f) != s->many) {
        say_at(folder, 0, "pages of the new marking are gone: somebody has removed them");
        status = UNREADABLE;
    }
    if (status == DONE && !stop_signal()) {
        status = place_folder(&f);
        if (status == DONE)
            tell_counts(folder, &counts);
        drop_text(&counts);
        return status == DONE ? verdict : status;
    }
    drop_text(&counts);
    leave_folder(&f);
    if (stop_signal())
        return end_stopped(folder);
    say_at(folder, 0, "the marking is not whole; what was there is as it was");
    return UNREADABLE;
}

static int mark_paper(struct sitting *s, const char *name, const char *folder)
{
    static struct paper p;
    struct alike alike;
    int status = read_paper(name, &p);
    if (status != DONE)
        return status;
    s->paper = &p;
    s->alike = &alike;
    s->shared = shared_folders(s->names, s->many);
    open_alike(&alike, s->many);
    status = digest_paper(&p, s->paper_digest) ? mark_into(s, folder) : UNREADABLE;
    drop_alike(&alike);
    drop_paper(&p);
    return status;
}

/* ---- the command */

/* Lines where zero bytes should end names, told before the one name that they come to leads to no file. */
static void tell_lines(const char *name, size_t length)
{
    if (strlen(name) == length && strchr(name, '\n'))
        say_text("standard input has lines, where a zero byte ends a name: 'find .. -print0' writes it so");
}

/* The names that standard input has, each ended by a zero byte. */
static int names_from_input(struct sitting *s)
{
    char *name = NULL;
    size_t room = 0, places = 0;
    ssize_t length;
    while ((length = getdelim(&name, &room, 0, stdin)) > 0) {
        if (s->many == places)
            s->names = (char **)room_for(s->names, (places = 2 * places + 64) * sizeof *s->names);
        s->names[s->many] = (char *)room_for(NULL, (size_t)length + 1);
        memcpy(s->names[s->many++], name, (size_t)length + 1);
        tell_lines(name, (size_t)length);
    }
    free(name);
    if (ferror(stdin))
        say_text("standard input cannot be read");
    else if (!s->many)
        say_text("standard input names no program");
    return ferror(stdin) ? UNREADABLE : s->many ? DONE : USAGE;
}

static void drop_names(struct sitting *s)
{
    for (size_t i = 0; i < s->many; i++)
        free(s->names[i]);
    free(s->names);
}

static unsigned processors(void)
{
    long many = sysconf(_SC_NPROCESSORS_ONLN);
    return many < 1 ? 1 : many > MOST_WORKERS ? MOST_WORKERS : (unsigned)many;
}

/* 1 to 64, by digits alone; 0 where it is none. */
static unsigned workers_of(const char *word)
{
    unsigned long many = 0;
    size_t length = strlen(word);
    if (length && length < 4 && strspn(word, "0123456789") == length)
        many = strtoul(word, NULL, 10);
    return many > MOST_WORKERS ? 0 : (unsigned)many;
}

int xm23_desk_mark(int argc, char **argv)
{
    struct sitting s = {0};
    const char *folder = "marks";
    int option, listed = 0, status = DONE;
    s.workers = processors();
    s.kind = REGULAR_FILE;
    while ((option = getopt(argc, argv, "+:j:o:0Ls")) != -1) {
        if (option == 'j')
            s.workers = workers_of(optarg);
        else if (option == 'o')
            folder = optarg;
        else if (option == 'L')
            s.kind = LINKED_FILE;
        else if (option == 's')
            s.sound = 1;
        listed |= option == '0';
        if (option == ':' || option == '?' || !s.workers)
            return wrong_option("mark", option, "is no number of workers, 1 to 64");
    }
    if (listed ? argc - optind != 1 : argc - optind < 2)
        return wrong_words("mark", argc - optind, argv + optind, listed ? 1 : argc);
    if (listed) {
        status = names_from_input(&s);
    } else {
        s.names = argv + optind + 1;
        s.many = (size_t)(argc - optind - 1);
    }
    if (status == DONE)
        status = mark_paper(&s, argv[optind], folder);
    if (listed)
        drop_names(&s);
    return status;
}
