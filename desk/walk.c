/*
 * Some steps of a run: a second run up to them, their trace, and their journal, by which xm23_back goes back step by
 * step. The trace tells what each step was, and of the whole run what became of events; nothing is judged here.
 */
#include <string.h>

#include "walk.h"

uint32_t step_count(const struct step *s)
{
    return get_long(s->before, XM23_RECORD_COUNT);
}

unsigned step_pc(const struct step *s)
{
    return get_word(s->before, XM23_RECORD_REGISTER(7));
}

/* ---- what a step was, by the trace */

static int is_entry(const struct step *s)
{
    return s->kind == XM23_KIND_ACCEPT || s->kind == XM23_KIND_TRAP || s->kind == XM23_KIND_FAULT;
}

/* The acts that fetch; a fault is told with PC before the step, and nothing is fetched from an odd one. */
static int fetches(const uint8_t *act)
{
    unsigned kind = act[XM23_TRACE_KIND];
    return (kind == XM23_KIND_FAULT || kind == XM23_KIND_HALT || kind >= XM23_KIND_TRAP) &&
           get_word(act, XM23_TRACE_PC) % 2 == 0;
}

/* Of each step the records of its events, which are counted, and then that of its act. */
static void take_trace(struct walk *w, uint32_t records)
{
    struct step *s = w->steps;
    for (uint32_t i = 0; i < records; i++) {
        const uint8_t *record = w->trace + XM23_TRACE_SIZE * i;
        if (record[XM23_TRACE_KIND] == XM23_KIND_EVENT) {
            s->events++;
            continue;
        }
        s->kind = record[XM23_TRACE_KIND];
        s->number = record[XM23_TRACE_NUMBER];
        s->fetched = (uint8_t)fetches(record);
        if (s->kind == XM23_KIND_STORE) {
            s->at = (uint16_t)get_word(record, XM23_TRACE_ADDRESS);
            s->stored = s->number ? 1 : 2;
        }
        s++;
    }
}

/* The step that `m` is before, taken from another PSW: the record of the fault that it enters, else zeros. */
static void ask_again(struct machine *then, const struct machine *m, const struct paper *p, unsigned psw,
                      uint8_t fault[XM23_TRACE_SIZE])
{
    memcpy(then, m, sizeof *then);
    put_word(then->record, XM23_RECORD_PSW, psw);
    memset(fault, 0, XM23_TRACE_SIZE);
    xm23_trace(then->memory, sizeof then->memory, then->record, sizeof then->record, p->event_bytes,
               XM23_EVENT_SIZE * p->many_events, fault, XM23_TRACE_SIZE, XM23_KIND(XM23_KIND_FAULT), 1);
}

/*
 * What the trace does not tell, asked of the step itself, `m` being before it. Which fault halted: the one that it
 * enters with FLT clear. The word fetched: memory's, of device bytes after the step's events, which is what the step
 * leaves where it sleeps at priority 7.
 */
static void ask_step(struct step *s, const struct machine *m, const struct paper *p)
{
    static struct machine then;
    unsigned psw = get_word(s->before, XM23_RECORD_PSW), pc = step_pc(s);
    uint8_t fault[XM23_TRACE_SIZE];
    if (s->kind == XM23_KIND_HALT) {
        ask_again(&then, m, p, psw & ~XM23_PSW_FLT, fault);
        s->number = fault[XM23_TRACE_NUMBER];
    }
    if (s->fetched)
        s->word = (uint16_t)word_at(m->memory, pc);
    if (s->fetched && s->events && pc < sizeof s->devices) {
        ask_again(&then, m, p, psw | XM23_FLAG_SLP | PRIORITY_7, fault);
        s->word = (uint16_t)word_at(then.memory, pc);
    }
}

int stores_device(const struct step *s)
{
    return s->kind == XM23_KIND_STORE && s->at < sizeof s->devices;
}

static int covers(const struct step *s, unsigned at)
{
    return ((at - s->at) & 0xFFFF) < s->stored;
}

int device_written(const struct step *s, unsigned at)
{
    return s->before[XM23_JOURNAL_DEVICES + at] != s->devices[at] || (stores_device(s) && covers(s, at));
}

int step_wrote(const struct step *s, unsigned at)
{
    return covers(s, at) || (at < sizeof s->devices && device_written(s, at));
}

/* ---- back, and the frames */

/* What a step left where its record says, taken before it is undone. */
static void keep_after(struct step *s, const uint8_t *memory)
{
    unsigned at = get_word(s->before, XM23_JOURNAL_ADDRESS);
    for (unsigned i = 0; i < 8; i++)
        s->bytes[i] = memory[(at + i) & 0xFFFF];
}

/* The journal began with no record kept, at its first place. */
void walk_back(const struct walk *w, struct machine *m, uint32_t done, uint32_t many)
{
    uint32_t kept = done, place = done % MOST_WALK;
    xm23_back(m->memory, sizeof m->memory, m->record, sizeof m->record, w->journal, sizeof w->journal, &kept, &place,
              many);
}

static void go_back(struct walk *w, const struct paper *p, struct machine *m)
{
    for (uint32_t i = w->many; i-- > 0;) {
        struct step *s = &w->steps[i];
        keep_after(s, m->memory);
        walk_back(w, m, i + 1, 1);
        ask_step(s, m, p);
    }
}

static void find_frames(struct walk *w)
{
    unsigned open = 0;
    for (uint32_t i = 0; i < w->many; i++) {
        struct step *s = &w->steps[i];
        if (is_entry(s)) {
            struct frame *f = &w->frames[++w->many_frames];
            f->older = (uint16_t)open;
            f->sp = (uint16_t)get_word(s->after, XM23_RECORD_REGISTER(6));
            f->step = (uint16_t)i;
            f->kind = s->kind;
            f->number = s->number;
            open = w->many_frames;
        } else if (s->kind == XM23_KIND_PULL) {
            w->strays += !open;
            open = open ? w->frames[open].older : 0;
        }
        s->frame = (uint16_t)open;
    }
}

/* ---- runs */

/* The journal tells what was before each step, and so what the one before it left; and where an entry pushed. */
static void take_journal(struct walk *w)
{
    for (uint32_t i = 0; i < w->many; i++) {
        struct step *s = &w->steps[i];
        const uint8_t *after = w->journal + XM23_JOURNAL_SIZE * (i + 1);
        int last = i + 1 == w->many;
        s->before = w->journal + XM23_JOURNAL_SIZE * i;
        s->after = last ? w->end.record : after;
        memcpy(s->devices, last ? w->end.memory : after + XM23_JOURNAL_DEVICES, sizeof s->devices);
        if (is_entry(s)) {
            s->at = (uint16_t)get_word(s->before, XM23_JOURNAL_ADDRESS);
            s->stored = 8;
        }
    }
}

/* Steps twice from the same state: the trace of them, and then the journal; `m` is run to their end. */
static uint32_t run_part(struct walk *w, const struct paper *p, struct machine *m, uint32_t many)
{
    uint32_t deepest = 0, kept = 0, place = 0, records;
    size_t events = XM23_EVENT_SIZE * p->many_events;
    uint64_t reply;
    memset(w->steps, 0, sizeof w->steps);
    memcpy(&w->end, m, sizeof w->end);
    reply = xm23_trace(w->end.memory, sizeof w->end.memory, w->end.record, sizeof w->end.record, p->event_bytes, events,
                       w->trace, sizeof w->trace, XM23_KINDS, many);
    records = XM23_TRACE_ADDED(reply);
    take_trace(w, records);
    reply = xm23_run_journal(m->memory, sizeof m->memory, m->record, sizeof m->record, p->event_bytes, events, w->log,
                             sizeof w->log, &deepest, w->journal, sizeof w->journal, &kept, &place, many);
    w->many = XM23_RUN_STEPS(reply);
    w->shown = XM23_RUN_ADDED(reply);
    take_journal(w);
    return records;
}

static void look_back(struct walk *w, const struct paper *p, struct machine *m)
{
    go_back(w, p, m);
    find_frames(w);
}

void walk_on(struct walk *w, const struct paper *p, struct machine *m, uint32_t many)
{
    memset(w, 0, sizeof *w);
    run_part(w, p, m, many);
    look_back(w, p, m);
}

/* Of a walk that was there nothing stays: what is told of a run is its own. */
void walk_run(struct walk *w, const struct paper *p, struct machine *m, const struct part *part)
{
    static struct machine rest;
    uint32_t records;
    memset(w, 0, sizeof *w);
    w->part = *part;
    begin_fates(&w->fates, p, m);
    begin_picture(&w->picture, m->record, part->first + part->many + part->behind);
    trace_events(&w->fates, &w->picture, p, m, part->first);
    records = run_part(w, p, m, part->many);
    follow_trace(&w->fates, p, w->trace, records);
    draw_trace(&w->picture, w->trace, records);
    memcpy(&rest, &w->end, sizeof rest);
    trace_events(&w->fates, &w->picture, p, &rest, part->behind);
    end_picture(&w->picture);
    look_back(w, p, m);
}

uint32_t last_writer(struct walk *w, const struct paper *p, struct machine *m, uint32_t many, unsigned at)
{
    uint32_t done = 0, found = 0;
    do {
        run_part(w, p, m, many - done < MOST_WALK ? many - done : MOST_WALK);
        for (uint32_t i = 0; i < w->many; i++)
            if (step_wrote(&w->steps[i], at))
                found = done + i + 1;
        done += w->many;
    } while (w->many && done < many);
    return found;
}
