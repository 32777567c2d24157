/* xm23 report: the page of one run. */
#include <unistd.h>

#include "awarded.h"
#include "desk.h"
#include "page.h"

/* What is not as it should be, of a page that is written. */
static int tell_verdict(const struct paper *p, const struct marked *m)
{
    int enough;
    if (!m->ran)
        say_fault(m->row.name, &m->fault);
    else if (m->row.agrees == 0)
        say_at(p->name, p->expected_line, "another line was expected: %s", p->expected);
    enough = points_enough(p, m->row.met);
    return m->ran && m->row.agrees != 0 && enough ? DONE : REFUSED;
}

static int report(struct sitting *s, const char *name, const char *to)
{
    static struct marked m;
    struct text page = {0};
    uint32_t step;
    int status = UNREADABLE;
    if (mark_program(s, name, &m)) {
        if (!m.row.digest[0])
            say_at(name, 0, "%s", m.row.says.at);
        else if (s->asked && m.ran && !find_step(name, &m.before, m.o.steps, s->around, 0, &step))
            status = REFUSED;
        else if (!overwrites_program(to, &m.program)) {
            add_page(&page, s, &m);
            status = write_file(to, &page);
        }
    }
    if (status == DONE)
        status = tell_verdict(s->paper, &m);
    drop_marked(&m);
    drop_text(&page);
    return status;
}

int xm23_desk_report(int argc, char **argv)
{
    static struct paper p;
    struct sitting s = {0};
    const char *to = "-";
    int option, status;
    while ((option = getopt(argc, argv, "+:a:o:s")) != -1) {
        if (option == 'o')
            to = optarg;
        else if (option == 's')
            s.sound = 1;
        else if (option != 'a' || !(s.asked = step_word(optarg, &s.around)))
            return wrong_option("report", option, NO_STEP);
    }
    if (argc - optind != 2)
        return wrong_words("report", argc - optind, argv + optind, 2);
    if (overwrites(to, argv[optind]))
        return UNREADABLE;
    status = read_paper(argv[optind], &p);
    if (status != DONE)
        return status;
    s.paper = &p;
    status = UNREADABLE;
    if (!overwrites_paper(to, &p) && digest_paper(&p, s.paper_digest))
        status = report(&s, argv[optind + 1], to);
    drop_paper(&p);
    return status;
}
