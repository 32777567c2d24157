/* The page of one program: its line, the fields of it, the screen, what memory became, the program. */
#include <string.h>

#include "page.h"
#include "line.h"
#include "sound.h"
#include "word.h"

#define MOST_PAGE 400000  /* bytes */
#define MOST_ROWS 512     /* of memory, of the listing and of the source */
#define FEW_ROWS 32       /* on a page that is else too long */
#define FEW_BYTES 64      /* of what an award wants or finds, on such a page */
#define MOST_SHOWN 2048   /* bytes of screen text */

/* The last part of a name; slashes behind it are none of it. */
static const char *last_part(const char *name, size_t *length)
{
    size_t end = strlen(name), start;
    while (end && name[end - 1] == '/')
        end--;
    for (start = end; start && name[start - 1] != '/';)
        start--;
    *length = end - start;
    return name + start;
}

/* The number of the program among those of the sitting, and its name as far as it may stand in a file's name. */
void add_page_path(struct text *t, const struct sitting *s, size_t i)
{
    size_t length;
    const char *name = last_part(s->names[i], &length);
    addf(t, "pages/%06lu-", (unsigned long)i + 1);
    for (size_t at = 0; at < 40 && at < length; at++) {
        char c = name[at];
        int plain = (c >= '0' && c <= '9') || (c >= 'A' && c <= 'Z') || (c >= 'a' && c <= 'z') || c == '.' || c == '-';
        addf(t, "%c", plain ? c : '_');
    }
    addf(t, ".html");
}

void add_page_head(struct text *t, const char *title)
{
    addf(t, "<html lang=\"en\">\n<head>\n<meta charset=\"utf-8\">\n"
           "<meta name=\"viewport\" content=\"width=device-width\">\n<title>");
    add_name(t, title);
    addf(t, "</title>\n<style>\n%s</style>\n</head>\n<body>\n", page_css);
}

void open_heads(struct text *t, const char *classes)
{
    addf(t, "<div class=\"wide%s\">\n<table>\n<thead><tr>", classes);
}

void add_heads(struct text *t, const char *heads, const char *classes)
{
    for (const char *end; *heads; heads = end + (*end == '|')) {
        end = heads + strcspn(heads, "|");
        addf(t, "<th%s>%.*s</th>", classes, (int)(end - heads), heads);
    }
}

void close_heads(struct text *t)
{
    addf(t, "</tr></thead>\n<tbody>\n");
}

void open_table(struct text *t, const char *heads)
{
    open_heads(t, "");
    add_heads(t, heads, "");
    close_heads(t);
}

void close_table(struct text *t)
{
    addf(t, "</tbody>\n</table>\n</div>\n");
}

static void add_verdict(struct text *t, const struct row *r)
{
    addf(t, "<p id=\"verdict\">");
    if (!r->line.length)
        addf(t, "Not run");
    else if (r->line.at[0] == 'R')
        addf(t, "Refused");
    else
        addf(t, "%s", r->line.at[0] == '1' ? "Halted" : "All steps are done");
    addf(t, "%s</p>\n", r->agrees < 0 ? "" : r->agrees ? ": the expected line" : ": not the expected line");
    if (r->says.length) {
        addf(t, "<p>");
        add_html(t, r->says.at, r->says.length);
        addf(t, "</p>\n");
    }
}

static void add_hint_of(struct text *t, const struct marked *m)
{
    const char *hint = m->fault.hint;
    if (!hint[0])
        return;
    addf(t, "<p id=\"hint\">");
    add_html(t, hint, strlen(hint));
    addf(t, "</p>\n");
}

static void add_pre(struct text *t, const char *class, const char *bytes, size_t length)
{
    addf(t, "<pre%s>", class);
    add_html_lines(t, bytes, length);
    addf(t, "</pre>\n");
}

void add_wide(struct text *t, const struct text *rows)
{
    addf(t, "<div class=\"wide\">");
    add_pre(t, "", rows->at, rows->length);
    addf(t, "</div>\n");
}

/* The fields of the closing state; those that are not the expected ones are marked, in words too. */
static void add_fields(struct text *t, const struct paper *p, const char *line)
{
    struct field rows[FIELDS];
    char expected[16];
    int many = line_fields(line, rows), beside = p->expected && p->expected[0] != 'R', other = 0;
    addf(t, "<h2>Closing state</h2>\n");
    open_table(t, beside ? "Field|Value|Expected|Says" : "Field|Value|Says");
    for (int i = 0; i < many; i++) {
        if (beside)
            other = !expects_field(p, i, rows[i].value, expected, sizeof expected);
        addf(t, "<tr%s><th>%s</th>", other ? " class=\"other\"" : "", rows[i].name);
        addf(t, "<td class=\"n\">%s</td>", rows[i].value);
        if (beside)
            addf(t, "<td class=\"n\">%s%s</td>", other ? "not " : "", expected[0] == '*' ? "any" : expected);
        addf(t, "<td>%s</td></tr>\n", rows[i].says);
    }
    close_table(t);
}

/* The machine before the step that the page is about, where it is about one: what the sheet says of it, but for the
 * reason, which is that so many steps are done. */
static void add_there(struct text *t, const struct sitting *s, const struct marked *m)
{
    struct field rows[FIELDS];
    struct text line = {0};
    int many;
    if (!m->walk.part.asked)
        return;
    add_line(&line, &m->before, s->paper, m->walk.part.first + m->walk.part.look);
    many = line_fields(line.at, rows);
    addf(t, "<h2>Machine before step %lu</h2>\n", (unsigned long)s->around);
    open_table(t, "Field|Value|Says");
    for (int i = 1; i < many; i++)
        addf(t, "<tr><th>%s</th><td class=\"n\">%s</td><td>%s</td></tr>\n", rows[i].name, rows[i].value, rows[i].says);
    close_table(t);
    drop_text(&line);
}

static void add_sixteen(struct text *t, const uint8_t *bytes)
{
    for (unsigned i = 0; i < 16; i++)
        add_byte(t, i ? " " : "", bytes[i]);
}

/* Rows of sixteen bytes in which the run changed one. */
static void add_memory(struct text *t, const struct machine *before, const struct machine *after, unsigned most)
{
    struct text rows = {0};
    unsigned many = 0;
    for (unsigned at = 0; at < XM23_MEMORY_SIZE; at += 16) {
        if (memcmp(before->memory + at, after->memory + at, 16) == 0 || many++ >= most)
            continue;
        addf(&rows, "%04X  before  ", at);
        add_sixteen(&rows, before->memory + at);
        addf(&rows, "\n      after   ");
        add_sixteen(&rows, after->memory + at);
        addf(&rows, "\n");
    }
    if (many > most)
        addf(&rows, ".. and %u rows more\n", many - most);
    addf(t, "<h2>Memory that the run changed</h2>\n");
    if (many)
        add_wide(t, &rows);
    else
        addf(t, "<p>None.</p>\n");
    drop_text(&rows);
}

/* A word of memory before the run: what stands there by its address or by the paper, else the instruction. */
static void add_word(struct text *t, const struct paper *p, unsigned at, unsigned word)
{
    addf(t, "%04X  %04X  ", at, word);
    if (at < 16)
        addf(t, "device %u", at / 2);
    else if (at >= XM23_VECTORS)
        addf(t, "vector %u, %s", (at - XM23_VECTORS) / 4, at & 2 ? "PC" : "PSW");
    else if (p->set[at] == DATA || p->set[at + 1] == DATA)
        addf(t, "WORD $%04X", word);
    else
        add_instruction(t, at, (uint16_t)word);
    addf(t, "\n");
}

/* What was in memory before the first step: the program with the paper over it. */
static void add_program(struct text *t, const struct paper *p, const struct marked *m, unsigned most)
{
    struct text listing = {0};
    unsigned many = 0, last = XM23_MEMORY_SIZE;
    for (unsigned at = 0; at < XM23_MEMORY_SIZE; at += 2) {
        unsigned word = get_word(m->before.memory, at);
        const struct name *label = label_at(&m->names, at);
        if (!word || many++ >= most)
            continue;
        if (last + 2 < at)
            addf(&listing, "\n");
        if (label) {
            add_name_letters(&listing, label);
            addf(&listing, "\n");
        }
        add_word(&listing, p, at, word);
        last = at;
    }
    if (many > most)
        addf(&listing, ".. and %u words more\n", many - most);
    addf(t, "<h2>Memory before the run, words of 0 left out</h2>\n");
    if (many)
        add_wide(t, &listing);
    else
        addf(t, "<p>All is zero.</p>\n");
    drop_text(&listing);
}

static void add_foot(struct text *t, const struct sitting *s, const struct row *r)
{
    unsigned v = xm23_version();
    addf(t, "<footer>Program SHA-256 %s, paper SHA-256 %s, machine %u.%u.%u.</footer>\n",
        r->digest[0] ? r->digest : "unknown", s->paper_digest, v >> 16, v >> 8 & 0xFF, v & 0xFF);
}

/* The first bytes of the screen text, and how many there were where they are not all. */
static void add_screen(struct text *t, const struct text *screen)
{
    size_t length = screen->length < MOST_SHOWN ? screen->length : MOST_SHOWN;
    addf(t, "<h2>Screen</h2>\n");
    if (length < screen->length)
        addf(t, "<p>The first %lu bytes of %lu.</p>\n", (unsigned long)length, (unsigned long)screen->length);
    add_pre(t, " class=\"screen\"", screen->at, length);
}

static void add_heading(struct text *t, const struct sitting *s, const struct row *r)
{
    const struct paper *p = s->paper;
    add_page_head(t, r->name);
    addf(t, "<h1>");
    add_name(t, r->name);
    addf(t, "</h1>\n<p>");
    add_name(t, p->title ? p->title : p->name);
    addf(t, "</p>\n");
    add_verdict(t, r);
    add_points_line(t, p, r);
    if (r->line.length)
        add_pre(t, " class=\"line\"", r->line.at, r->line.length);
    if (p->expected) {
        addf(t, "<p>Expected:</p>\n<pre>");
        add_name(t, p->expected);
        addf(t, "</pre>\n");
    }
    if (r->handlers.length)
        addf(t, "<p><a href=\"#sound\">Handlers</a>: %s. Application: %s.</p>\n", r->handlers.at, r->application.at);
}

static void add_state(struct text *t, const struct sitting *s, const struct marked *m, unsigned most)
{
    add_awards_section(t, s->paper, m, most < MOST_ROWS ? FEW_BYTES : MOST_SHOWN);
    addf(t, "<div class=\"beside\">\n<div>\n");
    add_fields(t, s->paper, m->row.line.at);
    addf(t, "</div>\n<div class=\"grow\">\n");
    add_picture(t, &m->walk.picture, m->walk.many ? step_count(&m->walk.steps[0]) : 0);
    addf(t, "</div>\n</div>\n");
    if (m->walk.many) {
        add_walk_words(t, &m->walk);
        addf(t, "%s<noscript><p>Without scripts the walk is not shown; its last steps are below.</p></noscript>\n",
            walk_html);
    }
    add_there(t, s, m);
    add_sound_section(t, m);
    add_walk_tables(t, &m->walk, &m->names, &m->after);
    add_events_table(t, &m->walk, s->paper, most);
    add_memory(t, &m->before, &m->after, most);
    add_sources(t, &m->program, most);
    add_program(t, s->paper, m, most);
}

/* With so many rows at most of memory, of the listing and of the source. */
static void add_rows(struct text *t, const struct sitting *s, const struct marked *m, unsigned most)
{
    const struct row *r = &m->row;
    addf(t, "<!DOCTYPE html>\n");
    add_heading(t, s, r);
    add_hint_of(t, m);
    if (m->ran)
        add_notes(t, &m->program);
    if (m->screen.length)
        add_screen(t, &m->screen);
    if (m->ran)
        add_state(t, s, m, most);
    if (r->digest[0])
        add_files(t, s->paper, &m->program);
    add_foot(t, s, r);
    if (m->ran && m->walk.many)
        add_walk_data(t, &m->walk, &m->names, &m->screen);
    addf(t, "</body>\n</html>\n");
}

/* A page that would be too long has fewer rows. */
void add_page(struct text *t, const struct sitting *s, const struct marked *m)
{
    add_rows(t, s, m, MOST_ROWS);
    if (t->length > MOST_PAGE) {
        t->length = 0;
        add_rows(t, s, m, FEW_ROWS);
    }
}
