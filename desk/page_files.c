/* What was handed in, on a page: sources with places and words, and the files of a folder. */
#include <stdlib.h>
#include <string.h>

#include "page.h"
#include "lone.h"

#define MOST_SOURCE 65536 /* bytes of a source that is listed */
#define MOST_LONE 8       /* names of a source that are told of as standing alone */

static int is_listed(const struct handed *h)
{
    return is_source(h->name) && h->length <= MOST_SOURCE;
}

/* Of a folder's file its name, too. */
static void add_source(struct text *t, const struct program *p, const struct handed *h, unsigned most)
{
    static struct assembled a;
    struct text listing = {0};
    struct fault f = {0};
    if (assemble_source(h->bytes, h->length, &a, &f)) {
        add_source_listing(&listing, h->bytes, h->length, &a, most);
        if (p->folder) {
            addf(t, "<h3>");
            add_name(t, h->name);
            addf(t, "</h3>\n");
        }
        add_wide(t, &listing);
    }
    drop_text(&f.why);
    drop_text(&listing);
}

/* How many lines a source has at least. */
static unsigned lines_of(const struct handed *h, unsigned most)
{
    const char *at = h->bytes, *end = at + h->length;
    unsigned many = 0;
    while (many < most && at && at < end) {
        at = (const char *)memchr(at, '\n', (size_t)(end - at));
        at = at ? at + 1 : NULL;
        many++;
    }
    return many;
}

/* Each of those that are left has its share of the lines that are left. */
void add_sources(struct text *t, const struct program *p, unsigned most)
{
    unsigned left = 0;
    for (unsigned i = 0; i < p->many; i++)
        left += is_listed(&p->files[i]);
    if (!left)
        return;
    addf(t, "<h2>Source%s</h2>\n<div id=\"source\">\n", left > 1 ? "s" : "");
    for (unsigned i = 0; i < p->many; i++) {
        unsigned share;
        if (!is_listed(&p->files[i]))
            continue;
        share = most > left ? most / left : 1;
        left--;
        add_source(t, p, &p->files[i], share);
        share = lines_of(&p->files[i], share);
        most -= share < most ? share : most;
    }
    addf(t, "</div>\n");
}

/* Where a name stands alone that nothing uses, of a folder with the name of the file. */
static void add_lone_names(struct text *t, const struct program *p, const struct handed *h)
{
    struct name *names;
    size_t many = lone_names(h->bytes, h->length, "", &names);
    for (size_t i = 0; i < many && i < MOST_LONE; i++) {
        struct text says = {0};
        add_lone(&says, &names[i]);
        addf(t, "<p class=\"note\">");
        if (p->folder)
            add_name(t, h->name);
        addf(t, "%sline %lu: ", p->folder ? ", " : "", (unsigned long)names[i].line);
        add_html(t, says.at, says.length);
        addf(t, "</p>\n");
        drop_text(&says);
    }
    if (many > MOST_LONE)
        addf(t, "<p class=\"note\">and %lu names more</p>\n", (unsigned long)(many - MOST_LONE));
    free(names);
}

void add_notes(struct text *t, const struct program *p)
{
    for (unsigned i = 0; i < p->many; i++)
        if (is_source(p->files[i].name))
            add_lone_names(t, p, &p->files[i]);
}

/* Name, length and digest of each; which one has the PC, where the paper does not. */
void add_files(struct text *t, const struct paper *paper, const struct program *p)
{
    if (!p->folder)
        return;
    addf(t, "<h2>Files</h2>\n<div id=\"files\">\n");
    open_table(t, "File|Bytes|PC|SHA-256");
    for (unsigned i = 0; i < p->many; i++) {
        const struct handed *h = &p->files[i];
        char digest[SHA256_TEXT] = "";
        sha256(h->bytes, h->length, digest);
        addf(t, "<tr><td class=\"any\">");
        add_name(t, h->name);
        addf(t, "</td><td>%lu</td><td>%s</td><td class=\"n any\">%s</td></tr>\n", (unsigned long)h->length,
            i == starting_file(p) && !paper->start_line[7] ? "from it" : "", digest);
    }
    close_table(t);
    addf(t, "</div>\n");
}
