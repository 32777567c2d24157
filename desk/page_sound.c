/* Whether the run was sound, on a page: each finding with a link to its step in the walk, and the bytes that handlers
 * wrote last. */
#include "sound.h"

#define MOST_RANGES 24 /* of addresses */

/* Whether the walk has the step, to which its script takes a reader; without scripts the link is not shown. */
static int in_walk(const struct walk *w, uint32_t step)
{
    return w->many && step >= step_count(&w->steps[0]) && step - step_count(&w->steps[0]) < w->many;
}

static void add_finding(struct text *t, const struct marked *m, unsigned kind)
{
    const struct text *words = &m->verdict->words[kind];
    unsigned long step = get_long(finding_of(m->verdict, kind), XM23_FINDING_STEP);
    addf(t, "<li>");
    add_html(t, words->at, words->length);
    if (in_walk(&m->walk, (uint32_t)step))
        addf(t, " <a class=\"to_step\" href=\"#walk\" data-step=\"%lu\" hidden>(walk to step %lu)</a>", step, step);
    addf(t, "</li>\n");
}

/* The addresses from `at` on that handlers or their entries wrote last; where they end. */
static unsigned end_of_range(const uint8_t *writers, unsigned at)
{
    while (at < XM23_WRITERS_SIZE && writers[at] == XM23_WROTE_OTHER)
        at++;
    return at;
}

static void add_range(struct text *t, unsigned number, unsigned first, unsigned end)
{
    addf(t, "%s$%04X", number ? ", " : "", first);
    if (end - first > 1)
        addf(t, " to $%04X", end - 1);
}

static void add_written(struct text *t, const uint8_t *writers)
{
    unsigned many = 0;
    addf(t, "<p>Bytes that handlers or their entries wrote last: ");
    for (unsigned at = 0, end; at < XM23_WRITERS_SIZE; at = end > at ? end : at + 1) {
        end = end_of_range(writers, at);
        if (end > at && many++ < MOST_RANGES)
            add_range(t, many - 1, at, end);
    }
    if (many > MOST_RANGES)
        addf(t, ", and %u more", many - MOST_RANGES);
    addf(t, "%s.</p>\n", many ? "" : "none");
}

static void add_findings(struct text *t, const struct marked *m)
{
    const struct verdict *v = m->verdict;
    addf(t, "<ul>\n");
    for (unsigned i = 0; i < v->many; i++)
        add_finding(t, m, v->kinds[i]);
    if (!v->many) {
        addf(t, "<li>");
        add_sound(t);
        addf(t, "</li>\n");
    }
    if (v->reason == XM23_REASON_DEEP) {
        addf(t, "<li>");
        add_deep(t, v);
        addf(t, "</li>\n");
    }
    addf(t, "</ul>\n");
}

void add_sound_section(struct text *t, const struct marked *m)
{
    addf(t, "<h2>Were the handlers sound</h2>\n<div id=\"sound\">\n");
    if (m->verdict) {
        add_findings(t, m);
        add_written(t, m->verdict->writers);
    } else {
        addf(t, "<p>Not judged: the paper has no events, or more than 100,000 steps. With -s they are.</p>\n");
    }
    addf(t, "</div>\n");
}
