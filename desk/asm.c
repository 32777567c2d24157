/* xm23 asm: a source to S-records, or to a listing. */
#include <stdlib.h>
#include <unistd.h>

#include "desk.h"
#include "lone.h"

/* The PC that is asked for; told where it is none. */
static int put_start(const struct program *p, const char *start, struct assembled *a)
{
    unsigned refusal = start ? source_value(p->files[0].bytes, p->files[0].length, start, &a->pc) : XM23_ACCEPTED;
    if (refusal)
        say_text("-s %s: R%u: %s", start, refusal, xm23_refusal_text(refusal));
    return !refusal;
}

/* Lines of strangers, as a terminal may have them. */
static void add_lines(struct text *t, const struct program *p, const struct assembled *a)
{
    struct text lines = {0};
    add_source_listing(&lines, p->files[0].bytes, p->files[0].length, a, 0);
    add_plain_lines(t, lines.at, lines.length);
    addf(t, "start %04X\n", a->pc);
    drop_text(&lines);
}

/* Names that stand alone and that neither a line nor the start uses. */
static void tell_lone(const struct program *p, const char *start)
{
    struct name *names;
    size_t many = lone_names(p->files[0].bytes, p->files[0].length, start ? start : "", &names);
    for (size_t i = 0; i < many; i++) {
        struct text says = {0};
        add_lone(&says, &names[i]);
        say_at(p->name, names[i].line, "%s", says.at);
        drop_text(&says);
    }
    free(names);
}

static int assemble_program(const struct program *p, const char *to, const char *start, int listing)
{
    static struct assembled a;
    struct text t = {0};
    struct fault f = {0};
    int status = REFUSED;
    if (!assemble_source(p->files[0].bytes, p->files[0].length, &a, &f)) {
        say_fault(p->name, &f);
        if (ends_in(p->name, ".s19"))
            say_at(p->name, 0, "by its name it is a file of S-records, and no source");
    } else if (put_start(p, start, &a)) {
        tell_lone(p, start);
        if (listing)
            add_lines(&t, p, &a);
        else
            add_srec(&t, &a);
        status = write_file(to, &t);
    }
    drop_text(&t);
    drop_text(&f.why);
    return status;
}

int xm23_desk_asm(int argc, char **argv)
{
    const char *to = "-", *start = NULL;
    struct program p = {0};
    int option, listing = 0, status;
    while ((option = getopt(argc, argv, "+:lo:s:")) != -1) {
        if (option == 'l')
            listing = 1;
        else if (option == 'o')
            to = optarg;
        else if (option == 's')
            start = optarg;
        else
            return wrong_option("asm", option, NULL);
    }
    if (argc - optind != 1)
        return wrong_words("asm", argc - optind, argv + optind, 1);
    if (overwrites(to, argv[optind]))
        return UNREADABLE;
    status = take_file(argv[optind], &p);
    if (status == DONE)
        status = assemble_program(&p, to, start, listing);
    drop_program(&p);
    return status;
}
