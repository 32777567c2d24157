/* Awards on a page: of each the points, what is wanted and what is found. */
#include "awarded.h"
#include "page.h"

/* Of a long text the first bytes, so many. */
static void add_cell(struct text *t, struct text *words, const char *classes, size_t most)
{
    size_t length = words->length < most ? words->length : most;
    addf(t, "<td class=\"%s\">", classes);
    add_html(t, length ? words->at : "", length);
    addf(t, "%s</td>", length < words->length ? " .." : "");
    drop_text(words);
}

/* One that is not met is marked, and its points say so. */
static void add_row(struct text *t, const struct paper *p, size_t i, const struct marked *m, size_t most)
{
    const struct awards *a = &p->awards;
    struct closing c = closing_of(&m->after, &m->o, m->verdict);
    struct text subject = {0}, wanted = {0}, found = {0};
    int met = m->row.met >> i & 1;
    add_subject(&subject, &a->list[i]);
    add_wanted(&wanted, &a->list[i]);
    add_found(&found, &a->list[i], &c, m->verdict);
    addf(t, "<tr%s><td class=\"nowrap\">%lu of %u</td>", met ? "" : " class=\"other\"", (unsigned long)points_of(a, i, m->row.met),
        a->list[i].points);
    add_cell(t, &subject, "small", most);
    add_cell(t, &wanted, "n any", most);
    add_cell(t, &found, "n any", most);
    addf(t, "</tr>\n");
}

void add_awards_section(struct text *t, const struct paper *p, const struct marked *m, size_t most)
{
    if (!p->awards.many)
        return;
    addf(t, "<h2>Awards</h2>\n<div id=\"awards\">\n");
    open_table(t, "Points|For|Wanted|Found");
    for (size_t i = 0; i < p->awards.many; i++)
        add_row(t, p, i, m, most);
    close_table(t);
    addf(t, "</div>\n");
}

void add_points_line(struct text *t, const struct paper *p, const struct row *r)
{
    if (!p->awards.many || r->problem == UNMARKED)
        return;
    addf(t, "<p id=\"points\">");
    add_total(t, &p->awards, r->met);
    addf(t, "</p>\n");
}
