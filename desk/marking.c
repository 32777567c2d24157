/* One program of a sitting: read, run, and told in its row. */
#include <errno.h>
#include <string.h>

#include "awarded.h"
#include "line.h"
#include "prints.h"

/* Of a long screen text the row has the first bytes, and how many there were. */
static void put_screen(struct row *r, const struct text *screen)
{
    add_bytes(&r->screen, screen->at, screen->length < MOST_SCREEN ? screen->length : MOST_SCREEN);
    if (screen->length > MOST_SCREEN)
        addf(&r->screen, " .. (%lu bytes)", (unsigned long)screen->length);
}

/* Of a paper with no events there is no handler of a device to judge, and a long run would cost more than all else; but
 * where points are given for it, it is judged. */
int judges(const struct sitting *s)
{
    return s->sound || asks_verdict(&s->paper->awards) ||
           (s->paper->many_events && s->paper->steps <= MOST_JUDGED);
}

static void put_verdict(const struct sitting *s, struct marked *m)
{
    struct row *r = &m->row;
    if (judges(s)) {
        m->verdict = judge_run(s->paper, &m->before);
        add_handlers(&r->handlers, m->verdict);
        add_application(&r->application, m->verdict);
    } else {
        addf(&r->handlers, "not judged");
        addf(&r->application, "not judged");
    }
}

static void put_awards(const struct paper *p, struct marked *m)
{
    struct closing c = closing_of(&m->after, &m->o, m->verdict);
    m->row.met = judge_awards(&p->awards, &c);
}

/* Why a program is not run: the refusal, of a folder with the file that is refused; or that two of its files state a
 * byte, which has no number. */
static void put_fault(struct row *r, const struct fault *f)
{
    if (f->refusal) {
        addf(&r->line, "R%u", f->refusal);
        addf(&r->says, "%s%sline %lu: ", f->file ? f->file->name : "", f->file ? ", " : "", (unsigned long)f->line);
    }
    add_bytes(&r->says, f->why.at, f->why.length);
}

/* The bytes that the screen showed in the first steps of the run. */
static size_t shown_in(const struct sitting *s, struct marked *m, uint32_t steps)
{
    struct outcome o = {0};
    struct text screen = {0};
    size_t shown;
    o.screen = &screen;
    memcpy(&m->scratch, &m->before, sizeof m->scratch);
    run_machine(&m->scratch, s->paper, steps, &o);
    shown = screen.length;
    drop_text(&screen);
    return shown;
}

/* The steps of the run that its page has. */
static void walk_marked(const struct sitting *s, struct marked *m)
{
    uint32_t start = get_long(m->before.record, XM23_RECORD_COUNT);
    struct part part;
    if (s->asked && s->around >= start && s->around - start < m->o.steps)
        part = part_around(m->o.steps, s->around - start);
    else
        part = closing_part(m->o.steps, idle_steps(s->paper, &m->before, &m->after, m->o.steps));
    memcpy(&m->scratch, &m->before, sizeof m->scratch);
    walk_run(&m->walk, s->paper, &m->scratch, &part);
    m->walk.before = (uint32_t)(part.asked ? shown_in(s, m, part.first) : m->screen.length - m->walk.shown);
    gather_names(&m->names, s->paper, &m->program);
}

/* What is compared with other programs, where there are any. */
static void put_prints(const struct sitting *s, struct marked *m)
{
    static struct assembled a;
    static struct prints prints;
    struct fault f = {0};
    if (s->many > 1 && load_program(&m->program, &a, &f) && take_prints(&prints, s->paper, &a))
        pack_prints(&m->row.prints, &prints);
    drop_text(&f.why);
}

static void run_marked(const struct sitting *s, struct marked *m)
{
    struct row *r = &m->row;
    m->o.screen = &m->screen;
    m->o.shown = s->paper->awards.many ? m->shown : NULL;
    m->ran = open_program(s->paper, &m->program, &m->before, &m->fault);
    if (m->ran) {
        add_line(&r->line, &m->before, s->paper, s->paper->steps);
        memcpy(&m->after, &m->before, sizeof m->after);
        run_machine(&m->after, s->paper, s->paper->steps, &m->o);
        r->steps = m->o.steps;
        r->deepest = m->o.deepest;
        put_screen(r, &m->screen);
        walk_marked(s, m);
        put_verdict(s, m);
        put_awards(s->paper, m);
        put_prints(s, m);
    } else {
        put_fault(r, &m->fault);
    }
}

/* Nothing of an earlier program stays. */
static struct row *new_row(const char *name, struct marked *m)
{
    struct row *r = &m->row;
    memset(m, 0, sizeof *m);
    r->name = name;
    add_bytes(&r->line, "", 0);
    add_bytes(&r->says, "", 0);
    add_bytes(&r->screen, "", 0);
    add_bytes(&r->handlers, "", 0);
    add_bytes(&r->application, "", 0);
    return r;
}

static void put_unmarked(struct row *r, const char *why)
{
    addf(&r->says, "could not be marked: %s", why);
    r->problem = UNMARKED;
}

/* What could not be read by the machine's fault is no row of the candidate's. */
int mark_program(const struct sitting *s, const char *name, struct marked *m)
{
    struct row *r = new_row(name, m);
    struct text why = {0};
    int good = 1;
    if (read_program(name, s->kind, s->shared, &m->program, &why)) {
        good = digest_program(&m->program, r->digest);
        if (good)
            run_marked(s, m);
    } else if (is_trouble(errno)) {
        put_unmarked(r, why.at);
    } else {
        add_bytes(&r->says, why.at, why.length);
    }
    drop_text(&why);
    r->agrees = as_expected(s->paper, r->line.at);
    return good;
}

void leave_unmarked(const struct sitting *s, const char *name, const char *why, struct marked *m)
{
    struct row *r = new_row(name, m);
    put_unmarked(r, why);
    r->agrees = as_expected(s->paper, r->line.at);
}

void drop_marked(struct marked *m)
{
    drop_row(&m->row);
    drop_text(&m->screen);
    for (unsigned d = 0; d < DEVICES; d++)
        drop_text(&m->shown[d]);
    drop_verdict(m->verdict);
    free_names(&m->names);
    drop_text(&m->fault.why);
    drop_program(&m->program);
}
