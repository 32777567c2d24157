/* xm23 run: one program under a paper, or under none. */
#include <string.h>
#include <unistd.h>

#include "awarded.h"
#include "desk.h"
#include "line.h"

/* What is asked for: the legend; the machine before the step of a count, and not at the close. */
struct asked {
    int legend, early;
    uint32_t count;
};

/* What stands for a paper where none is named. */
static const char no_name[] = "no paper", no_lines[] = "steps 1000000\nstart SP=$0800\n";

/* The line, and behind it the legend, what the screen showed and the awards where they are asked for. */
static int tell_line(const struct paper *p, const char *line, const struct text *screen, const struct text *awards,
                     int legend)
{
    struct text t = {0};
    int status;
    if (*line)
        addf(&t, "%s\n", line);
    if (legend && *line) {
        addf(&t, "\n");
        add_legend(&t, line);
    }
    if (legend && *line && p->name == no_name)
        addf(&t, "  paper   none      memory zero, SP 0800, at most 1,000,000 steps\n");
    if (legend && screen->length) {
        addf(&t, "\n  screen  ");
        add_plain(&t, screen->at, screen->length);
        addf(&t, "\n");
    }
    if (legend && awards->length)
        addf(&t, "\n%s", awards->at);
    status = write_file("-", &t);
    drop_text(&t);
    return status;
}

/* Whether the line is the one that the paper expects; told where it is another. */
static int agrees(const struct paper *p, const char *line)
{
    int same = as_expected(p, line) != 0;
    if (!same)
        say_at(p->name, p->expected_line, "another line was expected: %s", p->expected);
    return same;
}

/* What a program is awarded, in words: nothing where it did not run. */
static uint64_t add_points(struct text *t, const struct paper *p, const struct machine *before)
{
    static struct awarded w;
    if (!p->awards.many)
        return 0;
    if (!before) {
        addf(t, "  ");
        add_total(t, &p->awards, 0);
        addf(t, "\n");
        return 0;
    }
    award_run(p, before, &w);
    add_awarded(t, &p->awards, &w);
    drop_awarded(&w);
    return w.met;
}

/* Why a program does not run, which is told, as its line: nothing where that has no number. */
static void add_refused(struct text *line, const struct program *program, const struct fault *f)
{
    say_fault(program->name, f);
    add_bytes(line, "", 0);
    if (f->refusal)
        addf(line, "R%u", f->refusal);
}

static int run_program(const struct paper *p, const struct program *program, int legend)
{
    static struct machine m;
    struct text line = {0}, screen = {0}, awards = {0};
    struct outcome o = {0};
    struct fault f = {0};
    uint64_t met = 0;
    int status, ran;
    o.screen = legend ? &screen : NULL;
    ran = open_program(p, program, &m, &f);
    met = add_points(&awards, p, ran ? &m : NULL);
    if (ran) {
        add_line(&line, &m, p, p->steps);
        if (legend)
            run_machine(&m, p, p->steps, &o);
    } else {
        add_refused(&line, program, &f);
    }
    status = tell_line(p, line.at, &screen, &awards, legend);
    if (status == DONE) {
        int as_it_should = agrees(p, line.at), enough = points_enough(p, met);
        status = ran && as_it_should && enough ? DONE : REFUSED;
    }
    drop_text(&line);
    drop_text(&screen);
    drop_text(&awards);
    drop_text(&f.why);
    return status;
}

/* The machine before a step: no line is expected of it, and nothing is awarded. */
static int run_early(const struct paper *p, const struct program *program, const struct asked *a)
{
    static struct machine m, after;
    struct text line = {0}, screen = {0}, awards = {0};
    struct outcome o = {0};
    struct fault f = {0};
    uint32_t step = 0;
    int ran = open_program(p, program, &m, &f), status;
    if (ran) {
        memcpy(&after, &m, sizeof after);
        run_machine(&after, p, p->steps, &o);
        if (!find_step(program->name, &m, o.steps, a->count, 1, &step))
            return REFUSED;
        add_line(&line, &m, p, step);
        o.screen = &screen;
        run_machine(&m, p, step, &o);
    } else {
        add_refused(&line, program, &f);
    }
    status = tell_line(p, line.at, &screen, &awards, a->legend);
    drop_text(&line);
    drop_text(&screen);
    drop_text(&f.why);
    return status == DONE && !ran ? REFUSED : status;
}

static int run_file(const struct paper *p, const char *name, const struct asked *a)
{
    struct program program = {0};
    int status = take_program(name, &program);
    if (status == DONE)
        status = a->early ? run_early(p, &program, a) : run_program(p, &program, a->legend);
    drop_program(&program);
    return status;
}

static int no_paper(struct paper *p)
{
    struct text bytes = {0};
    add_bytes(&bytes, no_lines, sizeof no_lines - 1);
    return take_paper(no_name, bytes.at, bytes.length, p);
}

int xm23_desk_run(int argc, char **argv)
{
    static struct paper p;
    struct asked a = {0};
    int option, status;
    a.legend = isatty(STDOUT_FILENO);
    while ((option = getopt(argc, argv, "+:ln:")) != -1) {
        if (option == 'l')
            a.legend = 1;
        else if (option != 'n' || !(a.early = step_word(optarg, &a.count)))
            return wrong_option("run", option, NO_STEP);
    }
    if (argc - optind != 1 && argc - optind != 2)
        return wrong_words("run", argc - optind, argv + optind, 2);
    status = argc - optind == 1 ? no_paper(&p) : read_paper(argv[optind], &p);
    if (status == DONE) {
        status = run_file(&p, argv[argc - 1], &a);
        drop_paper(&p);
    }
    return status;
}
