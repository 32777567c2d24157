/* xm23 check: what a setter should look at before a sitting. Nothing of the machine is judged here: it is asked. */
#include <stdarg.h>
#include <stdio.h>
#include <stdlib.h>
#include <string.h>
#include <unistd.h>

#include "check.h"
#include "desk.h"
#include "walk.h"

/* ---- findings */

void find_text(struct check *c, const char *name, uint32_t line, const struct text *says)
{
    struct text found = {0};
    add_at(&found, name, line);
    add_bytes(&found, says->at, says->length);
    add_plain(&c->found, found.at, found.length);
    addf(&c->found, "\n");
    drop_text(&found);
    c->many++;
}

void find(struct check *c, const char *name, uint32_t line, const char *format, ...)
{
    struct text says = {0};
    char words[512];
    va_list list;
    va_start(list, format);
    vsnprintf(words, sizeof words, format, list);
    va_end(list);
    addf(&says, "%s", words);
    find_text(c, name, line, &says);
    drop_text(&says);
}

/* The events of a line that are so: told at the first of them. */
static void find_line(struct check *c, event_is *is, size_t first, const char *what)
{
    const struct event *e = c->paper->events;
    size_t many = 0, all = 0;
    for (size_t i = 0; i < c->paper->many_events; i++)
        if (e[i].line == e[first].line) {
            all++;
            many += (size_t)(is(c, i) != 0);
        }
    if (all == 1)
        find(c, c->paper->name, e[first].line, "the event at step %lu %s", (unsigned long)e[first].step, what);
    else
        find(c, c->paper->name, e[first].line, "%lu of %lu events, the first at step %lu: each %s", (unsigned long)many,
             (unsigned long)all, (unsigned long)e[first].step, what);
}

void find_events(struct check *c, event_is *is, const char *what)
{
    const struct event *e = c->paper->events;
    uint8_t *told = (uint8_t *)room_for(NULL, c->paper->many_events + 1);
    memset(told, 0, c->paper->many_events + 1);
    for (size_t i = 0; i < c->paper->many_events; i++) {
        if (told[i] || !is(c, i))
            continue;
        for (size_t k = i; k < c->paper->many_events; k++)
            told[k] |= e[k].line == e[i].line;
        find_line(c, is, i, what);
    }
    free(told);
}

/* ---- the paper alone */

static uint32_t start_of(const struct check *c)
{
    return get_long(c->paper->record, XM23_RECORD_COUNT);
}

static int is_early(const struct check *c, size_t i)
{
    return c->paper->events[i].step < start_of(c);
}

int is_late(const struct check *c, size_t i)
{
    uint32_t step = c->paper->events[i].step;
    return step >= start_of(c) && step - start_of(c) >= c->paper->steps;
}

/* What an event of a device would do at the start: asked of a machine that is asleep at priority 7, whose one step is
 * its event and nothing else. */
static unsigned effect_at_start(const struct check *c, unsigned device)
{
    static struct machine m;
    uint8_t event[XM23_EVENT_SIZE] = {0}, told[XM23_TRACE_SIZE] = {0};
    memcpy(&m, &c->before, sizeof m);
    put_word(m.record, XM23_RECORD_PSW, XM23_FLAG_SLP | PRIORITY_7);
    m.record[XM23_RECORD_HALTED] = 0;
    memset(m.record + XM23_RECORD_COUNT, 0, 4);
    event[XM23_EVENT_DEVICE] = (uint8_t)device;
    xm23_trace(m.memory, sizeof m.memory, m.record, sizeof m.record, event, sizeof event, told, sizeof told,
               XM23_KIND(XM23_KIND_EVENT), 1);
    return told[XM23_TRACE_EFFECT];
}

int has_vector(const struct check *c, unsigned device)
{
    unsigned at = XM23_VECTORS + 4 * device;
    for (unsigned i = 0; i < 4; i++)
        if (!c->paper->set[at + i] && !c->bytes.set[at + i])
            return 0;
    return 1;
}

/* Without a model it is the paper that must have what events need, or the programs must bring it. */
static int is_deaf(const struct check *c, size_t i)
{
    return !is_early(c, i) && !is_late(c, i) && !(c->effects[c->paper->events[i].device] & XM23_EFFECT_TAKEN);
}

static int leads_nowhere(const struct check *c, size_t i)
{
    unsigned device = c->paper->events[i].device;
    return !is_early(c, i) && !is_late(c, i) && c->effects[device] & XM23_EFFECT_RAISED && !has_vector(c, device);
}

static void check_paper(struct check *c)
{
    const struct paper *p = c->paper;
    if (!p->expected && !p->awards.many)
        find(c, p->name, 0, "has no line 'expect' and no line 'award': nothing says what is right");
    find_events(c, is_early, "comes before the start, and never is due");
    find_events(c, is_late, "comes behind the last step, and never is due");
    if (c->model)
        return;
    for (unsigned d = 0; d < 8; d++)
        c->effects[d] = (uint8_t)effect_at_start(c, d);
    find_events(c, is_deaf, "is on a device with ENA clear at the start: a program must set it");
    find_events(c, leads_nowhere, "is on a device whose vector is not in the paper: a program must state it");
}

/* The figure that `stack` gives; a finding where it gives none. */
static void check_stack(struct check *c)
{
    const struct need *n = &c->need;
    c->need = stack_need(c->paper, &c->bytes);
    if (n->refusal)
        find(c, c->paper->name, n->line, "R%u: %s", n->refusal, xm23_refusal_text(n->refusal));
    else if (n->without < 8)
        find(c, c->paper->name, c->paper->use_line[n->without],
             "'stack' has no figure: the vector of device %u, which has its priority, is not in the paper%s",
             n->without, c->model ? ", nor in the model" : "");
}

/* ---- the command */

static int tell_check(struct check *c)
{
    struct text t = {0};
    int status;
    if (c->found.length)
        add_bytes(&t, c->found.at, c->found.length);
    if (c->said.length)
        add_bytes(&t, c->said.at, c->said.length);
    if (!c->model)
        addf(&t, "without a model not looked at: overruns and lost events, bytes laid over it, its line and points, "
                 "its handlers and the stack bytes that they hold\n");
    if (c->many)
        addf(&t, "%u thing%s to look at\n", c->many, c->many == 1 ? "" : "s");
    else
        addf(&t, "nothing found\n");
    status = write_file("-", &t);
    drop_text(&t);
    return status == DONE && c->many ? REFUSED : status;
}

static int check_all(struct check *c)
{
    check_paper(c);
    check_stack(c);
    if (c->model)
        check_model(c);
    return tell_check(c);
}

static int with_model(struct check *c, const char *name)
{
    struct program program = {0};
    struct fault f = {0};
    int status = take_program(name, &program);
    if (status == DONE) {
        c->model = &program;
        if (load_program(&program, &c->bytes, &f) && open_program(c->paper, &program, &c->before, &f))
            status = check_all(c);
        else
            status = say_fault(name, &f);
    }
    drop_text(&f.why);
    drop_program(&program);
    return status;
}

/* The paper's memory alone, where there is no model. */
static int without_model(struct check *c)
{
    memcpy(c->before.memory, c->paper->memory, sizeof c->before.memory);
    memcpy(c->before.record, c->paper->record, sizeof c->before.record);
    return check_all(c);
}

int xm23_desk_check(int argc, char **argv)
{
    static struct paper p;
    static struct check c;
    int option = getopt(argc, argv, "+:"), status;
    if (option != -1)
        return wrong_option("check", option, NULL);
    if (argc - optind < 1 || argc - optind > 2)
        return wrong_words("check", argc - optind, argv + optind, 2);
    status = read_paper(argv[optind], &p);
    if (status == DONE) {
        c.paper = &p;
        status = argv[optind + 1] ? with_model(&c, argv[optind + 1]) : without_model(&c);
        drop_text(&c.found);
        drop_text(&c.said);
        drop_paper(&p);
    }
    return status;
}
