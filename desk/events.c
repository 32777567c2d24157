/* xm23 events: what became of each event of a paper, by the trace of the whole run. */
#include <string.h>
#include <unistd.h>

#include "events.h"
#include "desk.h"
#include "program.h"

/* ---- from the trace */

/* Events with a step before the start are passed over; lines that wait from before are entered first. */
void begin_fates(struct fates *f, const struct paper *p, const struct machine *m)
{
    memset(f, 0, sizeof *f);
    f->start = get_long(m->record, XM23_RECORD_COUNT);
    while (f->next < p->many_events && p->events[f->next].step < f->start)
        f->next++;
    for (unsigned d = 0; d < 8; d++) {
        f->before[d] = (uint8_t)XM23_RECORD_WAITING(m->record, d);
        f->oldest[d] = f->next;
    }
}

static int raised(const struct fate *e)
{
    return e->effect & XM23_EFFECT_RAISED && !(e->effect & XM23_EFFECT_FULL);
}

/* A line of the device was entered: it was the oldest's that waited. */
static void enter(struct fates *f, const struct paper *p, const uint8_t *record)
{
    unsigned d = record[XM23_TRACE_NUMBER];
    size_t *i = &f->oldest[d];
    if (f->before[d]) {
        f->before[d]--;
        f->entered++;
        return;
    }
    while (*i < f->next && (p->events[*i].device != d || !raised(&f->each[*i])))
        ++*i;
    if (*i < f->next) {
        f->each[*i].entry = record[XM23_TRACE_KIND];
        f->each[(*i)++].at = get_long(record, XM23_TRACE_STEP);
    }
}

/* Records of events are in the order of the list, none left out. */
void follow_trace(struct fates *f, const struct paper *p, const uint8_t *trace, uint32_t records)
{
    for (uint32_t i = 0; i < records; i++, trace += XM23_TRACE_SIZE) {
        unsigned kind = trace[XM23_TRACE_KIND];
        if (kind == XM23_KIND_EVENT && f->next < p->many_events) {
            f->each[f->next].due = 1;
            f->each[f->next++].effect = trace[XM23_TRACE_EFFECT];
        } else if (kind == XM23_KIND_ACCEPT || kind == XM23_KIND_CHAIN) {
            enter(f, p, trace);
        }
    }
}

void trace_events(struct fates *f, struct picture *d, const struct paper *p, struct machine *m, uint64_t n)
{
    static uint8_t trace[XM23_TRACE_SIZE * MOST_TRACE];
    uint32_t kinds = XM23_KIND(XM23_KIND_EVENT) | XM23_KIND(XM23_KIND_CHAIN) | XM23_KIND(XM23_KIND_ACCEPT);
    uint64_t reply;
    if (d)
        kinds |= DRAWN_KINDS;
    do {
        reply = xm23_trace(m->memory, sizeof m->memory, m->record, sizeof m->record, p->event_bytes,
                           XM23_EVENT_SIZE * p->many_events, trace, sizeof trace, kinds, n);
        follow_trace(f, p, trace, XM23_TRACE_ADDED(reply));
        if (d)
            draw_trace(d, trace, XM23_TRACE_ADDED(reply));
        n -= XM23_RUN_STEPS(reply);
    } while (XM23_RUN_REASON(reply) == XM23_REASON_TRACE);
}

/* ---- in words */

static const char *const words[EVENT_WORDS] = {"taken", "ENA clear", "before the start", "after the end", "",
                                               "IE clear", "count full", "waits", "accepted", "chained"};

int event_of(const struct fates *f, const struct paper *p, size_t i)
{
    if (f->each[i].due)
        return f->each[i].effect & XM23_EFFECT_TAKEN ? EVENT_TAKEN : EVENT_ENA_CLEAR;
    return p->events[i].step < f->start ? EVENT_BEFORE_START : EVENT_AFTER_END;
}

int interrupt_of(const struct fate *e)
{
    if (!(e->effect & XM23_EFFECT_TAKEN))
        return EVENT_NOT_TAKEN;
    if (!(e->effect & XM23_EFFECT_RAISED))
        return EVENT_IE_CLEAR;
    if (!raised(e))
        return EVENT_COUNT_FULL;
    return e->entry == XM23_KIND_ACCEPT ? EVENT_ACCEPTED : e->entry == XM23_KIND_CHAIN ? EVENT_CHAINED : EVENT_WAITS;
}

const char *event_word(const struct fates *f, const struct paper *p, size_t i)
{
    return words[event_of(f, p, i)];
}

const char *interrupt_word(const struct fate *e)
{
    return words[interrupt_of(e)];
}

const char *overrun_word(const struct fate *e)
{
    if (!(e->effect & XM23_EFFECT_TAKEN))
        return "";
    return e->effect & XM23_EFFECT_OVERRUN ? "yes" : "no";
}

void add_totals(struct text *t, const struct fates *f, const struct paper *p)
{
    unsigned long many[EVENT_WORDS] = {0}, overruns = 0, before = f->entered;
    for (size_t i = 0; i < p->many_events; i++) {
        many[event_of(f, p, i)]++;
        many[interrupt_of(&f->each[i])]++;
        overruns += f->each[i].effect & XM23_EFFECT_OVERRUN ? 1 : 0;
    }
    for (unsigned d = 0; d < 8; d++)
        before += f->before[d];
    addf(t, "events %lu: taken %lu, ENA clear %lu, before the start %lu, after the end %lu\n",
        (unsigned long)p->many_events, many[EVENT_TAKEN], many[EVENT_ENA_CLEAR], many[EVENT_BEFORE_START],
        many[EVENT_AFTER_END]);
    addf(t, "taken %lu: accepted %lu, chained %lu, waits %lu, count full %lu, IE clear %lu; overruns %lu\n",
        many[EVENT_TAKEN], many[EVENT_ACCEPTED], many[EVENT_CHAINED], many[EVENT_WAITS], many[EVENT_COUNT_FULL],
        many[EVENT_IE_CLEAR], overruns);
    if (before)
        addf(t, "waiting before the first step %lu: entered %lu\n", before, f->entered);
}

static void add_event(struct text *t, const struct fates *f, const struct paper *p, size_t i)
{
    const struct fate *e = &f->each[i];
    addf(t, "%-8lu%-12lu%-8u%02X    %-18s%-9s%s", (unsigned long)p->events[i].line, (unsigned long)p->events[i].step,
        p->events[i].device, p->events[i].byte, event_word(f, p, i), overrun_word(e), interrupt_word(e));
    if (e->entry)
        addf(t, " at step %lu", (unsigned long)e->at);
    while (t->at[t->length - 1] == ' ')
        t->at[--t->length] = 0;
    addf(t, "\n");
}

/* ---- the command */

static void add_table(struct text *t, const struct fates *f, const struct paper *p)
{
    addf(t, "%-8s%-12s%-8s%-6s%-18s%-9s%s\n", "line", "step", "device", "byte", "event", "overrun", "interrupt");
    for (size_t i = 0; i < p->many_events; i++)
        add_event(t, f, p, i);
    add_totals(t, f, p);
}

static void add_rows(struct text *t, const struct fates *f, const struct paper *p)
{
    addf(t, "line,step,device,byte,event,overrun,interrupt,at\n");
    for (size_t i = 0; i < p->many_events; i++) {
        const struct fate *e = &f->each[i];
        addf(t, "%lu,%lu,%u,%u,%s,%s,%s,", (unsigned long)p->events[i].line, (unsigned long)p->events[i].step,
            p->events[i].device, p->events[i].byte, event_word(f, p, i), overrun_word(e), interrupt_word(e));
        if (e->entry)
            addf(t, "%lu", (unsigned long)e->at);
        addf(t, "\n");
    }
}

static int tell_events(const struct paper *p, const struct program *program, int rows)
{
    static struct machine m;
    static struct fates fates;
    struct fault f = {0};
    struct text t = {0};
    int status;
    if (open_program(p, program, &m, &f)) {
        begin_fates(&fates, p, &m);
        trace_events(&fates, NULL, p, &m, p->steps);
        if (rows)
            add_rows(&t, &fates, p);
        else
            add_table(&t, &fates, p);
        status = write_file("-", &t);
    } else {
        status = say_fault(program->name, &f);
    }
    drop_text(&f.why);
    drop_text(&t);
    return status;
}

static int events_file(const char *paper, const char *name, int rows)
{
    static struct paper p;
    struct program program = {0};
    int status = read_paper(paper, &p);
    if (status != DONE)
        return status;
    status = take_program(name, &program);
    if (status == DONE)
        status = tell_events(&p, &program, rows);
    drop_program(&program);
    drop_paper(&p);
    return status;
}

int xm23_desk_events(int argc, char **argv)
{
    int option, rows = 0;
    while ((option = getopt(argc, argv, "+:c")) != -1) {
        if (option != 'c')
            return wrong_option("events", option, NULL);
        rows = 1;
    }
    if (argc - optind != 2)
        return wrong_words("events", argc - optind, argv + optind, 2);
    return events_file(argv[optind], argv[optind + 1], rows);
}
