/* The page of xm23 copies: groups and pairs as tables, and of the first pairs both listings side by side. */
#include <string.h>

#include "copies.h"
#include "page.h"
#include "word.h"

enum { AROUND = 3, MOST_LINES = 160 }; /* words beside one that is shared; lines of a listing */

/* ---- tables */

static void add_group_names(struct text *t, const struct compared *c, size_t first, int shape)
{
    const char *mark = "";
    for (size_t i = first; i < c->many; i++) {
        const struct kin *k = &c->alike.each[i];
        if ((shape ? k->shape_first : k->same_first) != first)
            continue;
        addf(t, "%s", mark);
        add_name(t, c->names[i]);
        mark = "<br>";
    }
}

static void add_group_rows(struct text *t, const struct compared *c, int shape, int ignored)
{
    const struct alike *x = &c->alike;
    for (size_t i = next_group(x, 0, shape, ignored); i < x->many; i = next_group(x, i + 1, shape, ignored)) {
        addf(t, "<tr><td>%s</td><td class=\"right\">%lu</td><td class=\"right\">%lu</td><td class=\"any name\">",
            shape ? "the same but for registers" : "the same words", (unsigned long)x->each[i].words,
            shape ? 0ul : (unsigned long)x->each[i].ignored);
        add_group_names(t, c, i, shape);
        addf(t, "</td></tr>\n");
    }
}

static int has_groups(const struct alike *x)
{
    return next_group(x, 0, 0, 1) < x->many || next_group(x, 0, 0, 0) < x->many || next_group(x, 0, 1, 0) < x->many;
}

static void add_group_table(struct text *t, const struct compared *c)
{
    addf(t, "<h2>Groups</h2>\n");
    if (!has_groups(&c->alike)) {
        addf(t, "<p>None.</p>\n");
        return;
    }
    open_table(t, "What is alike|Words|Ignored bits|Programs");
    add_group_rows(t, c, 0, 1);
    add_group_rows(t, c, 0, 0);
    add_group_rows(t, c, 1, 0);
    close_table(t);
}

static void add_pair_row(struct text *t, const struct compared *c, size_t i)
{
    const struct pair *p = &c->alike.pairs[i];
    addf(t, "<tr><td>");
    if (i < MOST_SIDES)
        addf(t, "<a href=\"#pair%lu\">", (unsigned long)i + 1);
    addf(t, "%lu%s", (unsigned long)i + 1, i < MOST_SIDES ? "</a>" : "");
    addf(t, "</td><td class=\"right\">%lu</td><td class=\"right\">%u</td><td class=\"right\">%lu</td>"
            "<td class=\"any name\">",
        (unsigned long)p->words, p->longest, (unsigned long)p->ignored);
    add_name(t, c->names[p->a]);
    addf(t, "</td><td class=\"any name\">");
    add_name(t, c->names[p->b]);
    addf(t, "</td></tr>\n");
}

static void add_pair_table(struct text *t, const struct compared *c)
{
    const struct alike *x = &c->alike;
    addf(t, "<h2>Pairs that share runs of %d words and more</h2>\n", RUN);
    if (!x->many_pairs) {
        addf(t, "<p>None.</p>\n");
        return;
    }
    open_table(t, "|Words|Longest run|Ignored bits|Program|Program");
    for (size_t i = 0; i < x->many_pairs && i < MOST_PAIRS; i++)
        add_pair_row(t, c, i);
    close_table(t);
    if (x->many_pairs > MOST_PAIRS)
        addf(t, "<p>%lu pairs more.</p>\n", (unsigned long)(x->many_pairs - MOST_PAIRS));
}

/* ---- side by side */

/* Whether a word is shared, or stands near one that is. */
static int is_near(const struct words *w, unsigned i)
{
    unsigned from = i > AROUND ? i - AROUND : 0, to = i + AROUND < w->many ? i + AROUND + 1 : w->many;
    return memchr(w->shared + from, 1, to - from) != NULL;
}

static void add_side_line(struct text *t, const struct words *w, unsigned i)
{
    struct text line = {0};
    addf(&line, "%04X %04X  ", w->at[i], w->word[i]);
    add_instruction(&line, w->at[i], w->word[i]);
    addf(t, "%s", w->shared[i] ? "<b>| " : "  ");
    add_html(t, line.at, line.length);
    addf(t, "%s\n", w->shared[i] ? "</b>" : "");
    drop_text(&line);
}

static void add_side(struct text *t, const char *name, const struct words *w)
{
    unsigned lines = 0, last = 0;
    addf(t, "<div>\n<h3 class=\"any\">");
    add_name(t, name);
    addf(t, "</h3>\n<div class=\"wide\"><pre>");
    for (unsigned i = 0; i < w->many && lines < MOST_LINES; i++) {
        if (!is_near(w, i))
            continue;
        if (i > last)
            addf(t, "  ..\n");
        add_side_line(t, w, i);
        last = i + 1;
        lines++;
    }
    addf(t, "%s</pre></div>\n</div>\n", last < w->many ? "  ..\n" : "");
}

static void add_sides(struct text *t, const struct compared *c, size_t i)
{
    static struct assembled a;
    static struct words one, other;
    const struct pair *p = &c->alike.pairs[i];
    addf(t, "<h2 id=\"pair%lu\">Pair %lu: %lu words, %lu with an ignored bit set</h2>\n", (unsigned long)i + 1,
        (unsigned long)i + 1, (unsigned long)p->words, (unsigned long)p->ignored);
    if (!load_compared(c, p->a, &a)) {
        addf(t, "<p>One of them cannot be read any more.</p>\n");
        return;
    }
    take_words(&one, c->paper, &a);
    if (!load_compared(c, p->b, &a)) {
        addf(t, "<p>One of them cannot be read any more.</p>\n");
        return;
    }
    take_words(&other, c->paper, &a);
    find_shared(&one, &other, c->paper, c->alike.common, c->alike.many_common);
    addf(t, "<div class=\"two\">\n");
    add_side(t, c->names[p->a], &one);
    add_side(t, c->names[p->b], &other);
    addf(t, "</div>\n");
}

/* ---- the page */

static void add_copies_head(struct text *t, const struct compared *c)
{
    const struct alike *x = &c->alike;
    const char *title = c->paper->title ? c->paper->title : c->paper->name;
    addf(t, "<!DOCTYPE html>\n");
    add_page_head(t, title);
    addf(t, "<h1>");
    add_name(t, title);
    addf(t, "</h1>\n<p id=\"verdict\">Programs that are alike. %lu compared", (unsigned long)x->compared);
    if (c->left)
        addf(t, ", %lu not", (unsigned long)c->left);
    addf(t, "</p>\n<p>" A_PERSON " The assembler leaves ignored bits 0: where one is set, somebody wrote the word as a "
            "number.</p>\n");
    addf(t, "<p class=\"small\">Compared are words, at whatever address, that the paper does not lay. Runs that the "
            "paper has, of less than four different words, or that more than %lu programs have count for nothing.",
        (unsigned long)most_common(x));
    if (x->many_common)
        addf(t, " Of such there are %lu.", (unsigned long)x->many_common);
    if (x->mask)
        addf(t, " There are so many runs that one in %lu was looked at.", (unsigned long)x->mask + 1);
    addf(t, "</p>\n");
}

void add_copies_page(struct text *t, const struct compared *c)
{
    add_copies_head(t, c);
    add_group_table(t, c);
    add_pair_table(t, c);
    if (c->alike.many_pairs)
        addf(t, "<p class=\"small\">In the listings a bar and bold letters mark what both have.</p>\n");
    for (size_t i = 0; i < c->alike.many_pairs && i < MOST_SIDES; i++)
        add_sides(t, c, i);
    addf(t, "</body>\n</html>\n");
}
