/* The walk on a page: some of its steps, the frames and the stack as tables, which are there without scripts. */
#include <string.h>

#include "page.h"

#define MOST_TURNS 64 /* rows of the table of entries, returns and faults */
#define MOST_WORDS 24 /* of that of the stack */

static void add_step_row(struct text *t, const struct step *s, const struct names *names, int asked)
{
    struct text what = {0};
    add_what(&what, s);
    addf(t, "<tr%s><td class=\"n\">%lu</td>", asked ? " class=\"changed\"" : "", (unsigned long)step_count(s));
    addf(t, "<td class=\"n\">%04X</td><td class=\"n\">", step_pc(s));
    if (s->fetched)
        addf(t, "%04X", s->word);
    addf(t, "</td><td class=\"n pre\">");
    add_html(t, what.at, what.length);
    addf(t, "</td><td class=\"n\">");
    add_left(t, s);
    if (names->many) {
        addf(t, "</td><td class=\"n\">");
        add_label(t, names, step_pc(s));
    }
    addf(t, "</td></tr>\n");
    drop_text(&what);
}

static void add_span(struct text *t, const struct walk *w, uint32_t first, uint32_t past)
{
    addf(t, "%lu to %lu", (unsigned long)step_count(&w->steps[first]), (unsigned long)step_count(&w->steps[past - 1]));
}

/* The last steps, or those around the one that was asked for. */
static void add_few_steps(struct text *t, const struct walk *w, const struct names *names)
{
    uint32_t past = w->part.told, many = past < FEW_STEPS ? past : FEW_STEPS;
    if (w->part.asked) {
        addf(t, "<h2>Steps ");
        add_span(t, w, past - many, past);
    } else {
        addf(t, "<h2>The last %lu step%s", (unsigned long)many, many == 1 ? "" : "s");
    }
    addf(t, "%s</h2>\n<p>A step is named by the step count before it.</p>\n",
        w->part.idle ? " before the closing ones" : "");
    open_table(t, names->many ? "Step|PC|Word|Instruction, or what else it was|What it left, PC aside|Place"
                              : "Step|PC|Word|Instruction, or what else it was|What it left, PC aside");
    for (uint32_t i = past - many; i < past; i++)
        add_step_row(t, &w->steps[i], names, w->part.asked && i == w->part.look);
    close_table(t);
}

static int is_turn(const struct step *s)
{
    return s->kind < XM23_KIND_PLAIN && s->kind != XM23_KIND_SKIP && s->kind != XM23_KIND_SLEEP;
}

/* Entries, returns and faults of the walk, the newest of them. */
static void add_turns(struct text *t, const struct walk *w)
{
    unsigned many = 0, passed = 0;
    for (uint32_t i = 0; i < w->many; i++)
        many += (unsigned)is_turn(&w->steps[i]);
    addf(t, "<h2>Entries, returns and faults of ");
    if (w->part.behind) {
        addf(t, "steps ");
        add_span(t, w, 0, w->many);
    } else {
        addf(t, "the last %lu steps", (unsigned long)w->many);
    }
    addf(t, "</h2>\n");
    if (!many) {
        addf(t, "<p>None.</p>\n");
        return;
    }
    if (many > MOST_TURNS)
        addf(t, "<p>The last %u of %u.</p>\n", (unsigned)MOST_TURNS, many);
    open_table(t, "Step|What|PC before|PC after|SP after|Priority after");
    for (uint32_t i = 0; i < w->many; i++) {
        const struct step *s = &w->steps[i];
        if (!is_turn(s) || passed++ + MOST_TURNS < many)
            continue;
        addf(t, "<tr><td class=\"n\">%lu</td><td>", (unsigned long)step_count(s));
        add_act(t, s->kind, s->number);
        addf(t, "</td><td class=\"n\">%04X</td><td class=\"n\">%04X</td><td class=\"n\">%04X</td><td>%u</td></tr>\n",
            step_pc(s), get_word(s->after, XM23_RECORD_REGISTER(7)),
            get_word(s->after, XM23_RECORD_REGISTER(6)), XM23_PSW_CURRENT(get_word(s->after, XM23_RECORD_PSW)));
    }
    close_table(t);
}

/* The newest frame that is open where the tables look; 0: none. */
static unsigned newest_frame(const struct walk *w)
{
    return w->part.look ? w->steps[w->part.look - 1].frame : 0;
}

/* What the word at an even address is of the frames that are open. */
static void add_place(struct text *t, const struct walk *w, unsigned at)
{
    static const char *const words[] = {"CEX", "PSW", "LR", "PC"};
    unsigned number = 0, open = newest_frame(w);
    for (unsigned f = open; f; f = w->frames[f].older)
        number++;
    for (unsigned f = open; f; f = w->frames[f].older, number--)
        for (unsigned i = 0; i < 4; i++)
            if (((w->frames[f].sp + 2 * i) & 0xFFFE) == at) {
                addf(t, "%s of frame %u: ", words[i], number);
                add_act(t, w->frames[f].kind, w->frames[f].number);
                addf(t, " at step %lu", (unsigned long)step_count(&w->steps[w->frames[f].step]));
                return;
            }
}

/* The step before which the tables look, or the close. */
static void add_when(struct text *t, const struct walk *w, const struct machine *m)
{
    if (w->part.asked)
        addf(t, "before step %lu", (unsigned long)get_long(m->record, XM23_RECORD_COUNT));
    else
        addf(t, "at the close");
}

/* The words from SP upwards, as far as the oldest open frame, and some more. */
static void add_stack(struct text *t, const struct walk *w, const struct machine *m)
{
    unsigned sp = get_word(m->record, XM23_RECORD_REGISTER(6)), many = 8;
    for (unsigned f = newest_frame(w); f; f = w->frames[f].older) {
        unsigned up = ((w->frames[f].sp - sp) & 0xFFFF) / 2 + 6;
        many = up > many && up <= MOST_WORDS ? up : many;
    }
    addf(t, "<h2>Stack ");
    add_when(t, w, m);
    addf(t, "</h2>\n");
    open_table(t, "Address|Word|What it is");
    for (unsigned i = 0; i < many; i++) {
        unsigned at = (sp + 2 * i) & 0xFFFE;
        addf(t, "<tr><td class=\"n\">%04X</td><td class=\"n\">%04X</td><td>%s", at, word_at(m->memory, at),
            i ? "" : "SP. ");
        add_place(t, w, at);
        addf(t, "</td></tr>\n");
    }
    close_table(t);
    if (w->strays)
        addf(t, "<p>Returns that pulled a frame from before these steps, or none: %u.</p>\n", w->strays);
}

/* The devices that are not all zeros, or have events waiting. */
static void add_devices(struct text *t, const struct walk *w, const struct machine *m)
{
    static const struct {
        unsigned bit;
        const char *name;
    } bits[] = {{0x10, "ENA"}, {0x08, "OF"}, {0x04, "DBA"}, {0x02, "input"}, {0x01, "IE"}};
    unsigned many = 0;
    addf(t, "<h2>Devices ");
    add_when(t, w, m);
    addf(t, "</h2>\n");
    for (unsigned d = 0; d < 8; d++) {
        unsigned status = m->memory[2 * d], data = m->memory[2 * d + 1], waiting = XM23_RECORD_WAITING(m->record, d);
        if (!status && !data && !waiting)
            continue;
        if (!many++)
            open_table(t, "Device|Status||Data|Events waiting");
        addf(t, "<tr><td>%u</td><td class=\"n\">%02X</td><td>", d, status);
        for (unsigned i = 0; i < 5; i++)
            addf(t, "%s%s", status & bits[i].bit ? bits[i].name : "", status & bits[i].bit ? " " : "");
        addf(t, "</td><td class=\"n\">%02X</td><td>%u</td></tr>\n", data, waiting);
    }
    if (many)
        close_table(t);
    else
        addf(t, "<p>All are zero.</p>\n");
}

static void add_event_row(struct text *t, const struct fates *f, const struct paper *p, size_t i)
{
    const struct fate *e = &f->each[i];
    addf(t, "<tr><td class=\"n\">%lu</td><td class=\"n\">%lu</td><td>%u</td><td class=\"n\">%02X</td>",
        (unsigned long)p->events[i].line, (unsigned long)p->events[i].step, p->events[i].device, p->events[i].byte);
    addf(t, "<td>%s</td><td>%s</td><td>%s", event_word(f, p, i), overrun_word(e), interrupt_word(e));
    if (e->entry)
        addf(t, " at step %lu", (unsigned long)e->at);
    addf(t, "</td></tr>\n");
}

/* The events of a paper that has some, in the whole run. */
void add_events_table(struct text *t, const struct walk *w, const struct paper *p, unsigned most)
{
    size_t many = p->many_events < most ? p->many_events : most;
    if (!many)
        return;
    addf(t, "<h2>Events</h2>\n<p>Of the whole run, by the line of the paper.</p>\n");
    if (many < p->many_events)
        addf(t, "<p>The first %lu of %lu; xm23 events has all.</p>\n", (unsigned long)many,
            (unsigned long)p->many_events);
    open_table(t, "Line|Step|Device|Byte|Event|Overrun|Interrupt");
    for (size_t i = 0; i < many; i++)
        add_event_row(t, &w->fates, p, i);
    close_table(t);
    addf(t, "<pre>");
    add_totals(t, &w->fates, p);
    addf(t, "</pre>\n");
}

/* Which steps the walk has, where they are not all; and that the last ones of the run change nothing. */
void add_walk_words(struct text *t, const struct walk *w)
{
    const struct part *p = &w->part;
    const struct step *s = &w->steps[p->idle ? w->many + p->behind - p->idle : 0];
    struct text what = {0};
    if (p->first || p->behind) {
        addf(t, "<p>The walk shows steps ");
        add_span(t, w, 0, w->many);
        addf(t, " of %lu", (unsigned long)p->first + w->many + p->behind);
        if (p->asked)
            addf(t, ", around step %lu", (unsigned long)step_count(&w->steps[p->look]));
        addf(t, ".</p>\n");
    }
    if (!p->idle)
        return;
    add_what(&what, s);
    addf(t, "<p>From step %lu on nothing changes but the step count: ", (unsigned long)step_count(s));
    add_html(t, what.at, what.length);
    addf(t, " at $%04X, in the last %lu step%s.%s</p>\n", step_pc(s), (unsigned long)p->idle, p->idle == 1 ? "" : "s",
        p->behind ? " The walk shows the steps before them, and of them the first." : "");
    drop_text(&what);
}

/* The machine where the tables look. */
static void look_at(const struct walk *w, const struct machine *after, struct machine *m)
{
    memcpy(m, w->part.asked ? &w->end : after, sizeof *m);
    if (w->part.asked)
        walk_back(w, m, w->many, w->many - w->part.look);
}

void add_walk_tables(struct text *t, const struct walk *w, const struct names *names, const struct machine *after)
{
    static struct machine m;
    look_at(w, after, &m);
    add_few_steps(t, w, names);
    add_turns(t, w);
    add_stack(t, w, &m);
    add_devices(t, w, &m);
}
