/* xm23 sound: were the handlers of a program sound. */
#include <unistd.h>

#include "sound.h"
#include "desk.h"

/* A line for each finding, in the order of their steps. */
static int tell_findings(const struct verdict *v)
{
    struct text t = {0};
    int status;
    for (unsigned i = 0; i < v->many; i++)
        addf(&t, "%s\n", v->words[v->kinds[i]].at);
    if (!v->many)
        add_sound(&t);
    if (v->reason == XM23_REASON_DEEP)
        add_deep(&t, v);
    if (!v->many || v->reason == XM23_REASON_DEEP)
        addf(&t, "\n");
    status = write_file("-", &t);
    drop_text(&t);
    return status == DONE && v->many ? REFUSED : status;
}

static int judge_program(const struct paper *p, const struct program *program)
{
    static struct machine m;
    struct fault f = {0};
    int status;
    if (open_program(p, program, &m, &f)) {
        struct verdict *v = judge_run(p, &m);
        status = v->refusal ? say_refusal(p->name, 0, v->refusal, xm23_refusal_text(v->refusal)) : tell_findings(v);
        drop_verdict(v);
    } else {
        status = say_fault(program->name, &f);
    }
    drop_text(&f.why);
    return status;
}

static int sound_file(const char *paper, const char *name)
{
    static struct paper p;
    struct program program = {0};
    int status = read_paper(paper, &p);
    if (status != DONE)
        return status;
    status = take_program(name, &program);
    if (status == DONE)
        status = judge_program(&p, &program);
    drop_program(&program);
    drop_paper(&p);
    return status;
}

int xm23_desk_sound(int argc, char **argv)
{
    int option = getopt(argc, argv, "+:");
    if (option != -1)
        return wrong_option("sound", option, NULL);
    if (argc - optind != 2)
        return wrong_words("sound", argc - optind, argv + optind, 2);
    return sound_file(argv[optind], argv[optind + 1]);
}
