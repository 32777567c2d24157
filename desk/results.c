/* results.csv, index.html and SHA256SUMS of a sitting, made of the rows that its workers told. */
#include <errno.h>
#include <string.h>
#include <unistd.h>

#include "alike.h"
#include "awarded.h"
#include "desk.h"
#include "page.h"
#include "workers.h"

#define MOST_KEPT 65536 /* bytes that are kept before they are written */
#define MOST_HEAD 40    /* bytes of an award in the head of the table */

/* How many agree, differ, have no closing state, could not be marked, have passed, and have not. */
struct tally {
    size_t agree, differ, without, unmarked, passed, failed;
};

/* ---- awards: what could not be marked has neither points nor is it said that it has not passed */

static int has_points(const struct row *r)
{
    return r->problem != UNMARKED;
}

static int has_passed(const struct sitting *s, const struct row *r)
{
    return has_points(r) ? passes(&s->paper->awards, r->met) : -1;
}

/* Whether a row is as the paper wants it, as far as that says what it wants. */
static int is_right(const struct sitting *s, const struct row *r)
{
    const struct paper *p = s->paper;
    return (!p->expected || r->agrees == 1) && (!p->awards.pass_line || has_passed(s, r) == 1);
}

/* The points of each award, each between two marks. */
static void add_points(struct text *t, const struct sitting *s, const struct row *r, const char *mark, const char *end)
{
    const struct awards *a = &s->paper->awards;
    for (size_t i = 0; i < a->many; i++) {
        addf(t, "%s", mark);
        if (has_points(r))
            addf(t, "%lu", (unsigned long)points_of(a, i, r->met));
        addf(t, "%s", end);
    }
}

static void add_sum_of(struct text *t, const struct sitting *s, const struct row *r)
{
    if (has_points(r))
        addf(t, "%lu", (unsigned long)total_of(&s->paper->awards, r->met));
}

/* yes or no; nothing where the paper does not say who passes. */
static const char *passed_word(const struct sitting *s, const struct row *r)
{
    static const char *const words[] = {"", "no", "yes"};
    return words[has_passed(s, r) + 1];
}

static void add_csv_heads(struct text *t, const struct awards *a)
{
    for (size_t i = 0; i < a->many; i++) {
        struct text words = {0};
        add_criterion(&words, &a->list[i]);
        addf(t, ",");
        add_csv(t, words.at, words.length);
        drop_text(&words);
    }
    if (a->many)
        addf(t, ",total,passed");
}

/* An award in the head of the table: of a long one the first bytes; and its points. */
static void add_html_head(struct text *t, const struct award *a)
{
    struct text words = {0};
    add_criterion(&words, a);
    addf(t, "<th class=\"award\">");
    add_html(t, words.at, words.length < MOST_HEAD ? words.length : MOST_HEAD);
    addf(t, "%s<br>of %u</th>", words.length < MOST_HEAD ? "" : " ..", a->points);
    drop_text(&words);
}

/* ---- rows */

/* Which programs one is alike, for a person to look at. */
static void add_copies(struct text *t, const struct sitting *s, size_t i,
                       void (*add)(struct text *, const char *, size_t))
{
    struct text says = {0};
    add_bytes(&says, "", 0);
    add_alike(&says, s->alike, s->names, i);
    add(t, says.at, says.length);
    drop_text(&says);
}

/* The prints of a row, where it has them. */
static void compare_row(const struct sitting *s, size_t i, const struct row *r)
{
    static struct prints f;
    if (r->prints.length && unpack_prints(r->prints.at, r->prints.length, &f))
        take_alike(s->alike, i, &f);
}

static void add_csv_row(struct text *t, const struct sitting *s, size_t i, const struct row *r)
{
    add_csv(t, r->name, strlen(r->name));
    addf(t, ",");
    add_csv(t, r->line.at, r->line.length);
    addf(t, ",");
    add_csv(t, r->says.at, r->says.length);
    addf(t, ",%lu,%lu,", (unsigned long)r->steps, (unsigned long)r->deepest);
    add_csv(t, r->screen.at, r->screen.length);
    addf(t, ",%s,%s,%s,", r->agrees < 0 ? "" : r->agrees ? "yes" : "no", r->digest, s->paper_digest);
    add_csv(t, r->handlers.at, r->handlers.length);
    addf(t, ",");
    add_csv(t, r->application.at, r->application.length);
    if (s->paper->awards.many) {
        add_points(t, s, r, ",", "");
        addf(t, ",");
        add_sum_of(t, s, r);
        addf(t, ",%s", passed_word(s, r));
    }
    addf(t, ",");
    add_copies(t, s, i, add_csv);
    addf(t, "\n");
}

static void add_sums_row(struct text *t, const struct sitting *s, size_t i, const struct row *r)
{
    addf(t, "%s  ", r->page);
    add_page_path(t, s, i);
    addf(t, "\n");
}

/* What became of a program, in words. */
static const char *verdict(const struct row *r)
{
    if (!r->line.length)
        return r->problem == UNMARKED ? "not marked" : "not run";
    if (r->line.at[0] == 'R')
        return r->agrees == 1 ? "refused, as expected" : "refused";
    return r->agrees < 0 ? (r->line.at[0] == '1' ? "halted" : "ran") : r->agrees ? "as expected" : "another line";
}

/* The first bytes of a screen text. */
static void add_screen(struct text *t, const struct text *screen)
{
    size_t length = screen->length < 60 ? screen->length : 60;
    add_html(t, screen->at, length);
    addf(t, "%s", length < screen->length ? " .." : "");
}

static void add_html_row(struct text *t, const struct sitting *s, size_t i, const struct row *r)
{
    addf(t, "<tr data-agrees=\"%s\"><td>%lu</td>", is_right(s, r) ? "yes" : "no", (unsigned long)i + 1);
    addf(t, "<td class=\"any name\"><a href=\"");
    add_page_path(t, s, i);
    addf(t, "\">");
    add_name(t, r->name);
    addf(t, "</a></td><td class=\"nowrap\">%s</td>", verdict(r));
    if (s->paper->awards.many) {
        addf(t, "<td class=\"right\">");
        add_sum_of(t, s, r);
        addf(t, "</td>");
        if (s->paper->awards.pass_line)
            addf(t, "<td>%s</td>", passed_word(s, r));
        add_points(t, s, r, "<td class=\"right\">", "</td>");
    }
    addf(t, "<td class=\"n any sheet more\">");
    add_html(t, r->line.at, r->line.length);
    addf(t, "%s", r->line.length && r->says.length ? "<br>" : "");
    add_html(t, r->says.at, r->says.length);
    addf(t, "</td><td class=\"n more\">%lu</td><td class=\"n more\">%lu</td><td class=\"more\">%s</td>"
            "<td class=\"more\">%s</td><td class=\"n any more\">",
        (unsigned long)r->steps, (unsigned long)r->deepest, r->handlers.at, r->application.at);
    add_screen(t, &r->screen);
    addf(t, "</td><td class=\"any name more\">");
    add_copies(t, s, i, add_html);
    addf(t, "</td></tr>\n");
}

static void add_counts(struct text *t, const struct sitting *s, const struct tally *all)
{
    const struct paper *p = s->paper;
    addf(t, "%lu program%s", (unsigned long)s->many, s->many == 1 ? "" : "s");
    if (p->expected)
        addf(t, ": %lu as expected, %lu not", (unsigned long)all->agree, (unsigned long)all->differ);
    if (p->awards.pass_line)
        addf(t, "%s %lu passed, %lu not", p->expected ? ";" : ":", (unsigned long)all->passed,
            (unsigned long)all->failed);
    addf(t, "; %lu without a closing state", (unsigned long)all->without);
    if (all->unmarked)
        addf(t, "; %lu could not be marked", (unsigned long)all->unmarked);
}

/* Those that are not as the paper wants them can be shown alone. */
static void add_find(struct text *t, const struct paper *p)
{
    static const char *const which[] = {"", "are not as expected", "have not passed",
                                        "are not as expected or have not passed"};
    unsigned wants = (p->expected != NULL) + 2 * (p->awards.pass_line != 0);
    addf(t, "<div class=\"find\" id=\"find\" hidden><label>Find <input id=\"name\" type=\"search\"></label>");
    if (wants)
        addf(t, "<label><input id=\"others\" type=\"checkbox\"> only those that %s</label>", which[wants]);
    addf(t, "<span id=\"count\" role=\"status\"></span></div>\n");
}

static void add_index_heads(struct text *t, const struct awards *a)
{
    open_heads(t, a->many ? " points" : "");
    add_heads(t, "|Program|Verdict", "");
    if (a->many)
        addf(t, "<th>Points<br>of %lu</th>%s", (unsigned long)most_of(a), a->pass_line ? "<th>Passed</th>" : "");
    for (size_t i = 0; i < a->many; i++)
        add_html_head(t, &a->list[i]);
    add_heads(t, "Line, or refusal|Steps|Depth|Handlers|Application|Screen|Copies", " class=\"more\"");
    close_heads(t);
}

static void add_index_head(struct text *t, const struct sitting *s, const struct tally *all)
{
    const struct paper *p = s->paper;
    const char *title = p->title ? p->title : p->name;
    addf(t, "<!DOCTYPE html>\n");
    add_page_head(t, title);
    addf(t, "<h1>");
    add_name(t, title);
    addf(t, "</h1>\n");
    addf(t, "<p id=\"verdict\">");
    add_counts(t, s, all);
    addf(t, "</p>\n");
    if (p->awards.pass_line)
        addf(t, "<p>%lu of %lu points are enough to pass.</p>\n", (unsigned long)p->awards.pass,
            (unsigned long)most_of(&p->awards));
    if (p->awards.many)
        addf(t, "<p class=\"on_paper\">Lines, steps, findings and screens are in results.csv and on the pages.</p>\n");
    if (p->expected) {
        addf(t, "<p>Expected:</p>\n<pre class=\"line\">");
        add_name(t, p->expected);
        addf(t, "</pre>\n");
    }
    add_find(t, p);
    add_index_heads(t, &p->awards);
}

static void add_index_foot(struct text *t, const struct sitting *s)
{
    unsigned v = xm23_version();
    close_table(t);
    addf(t, "<footer>Paper SHA-256 %s, machine %u.%u.%u.</footer>\n", s->paper_digest, v >> 16, v >> 8 & 0xFF,
        v & 0xFF);
    addf(t, "<script>\n%s</script>\n</body>\n</html>\n", index_js);
}

/* ---- a file, part by part */

struct sheet {
    const struct folder *f;
    const char *path;
    struct text t;
    int file, problem;
};

static void open_sheet(struct sheet *x, const struct folder *f, const char *path)
{
    memset(x, 0, sizeof *x);
    x->f = f;
    x->path = path;
    x->file = make_file(f, path);
    x->problem = x->file < 0 ? errno : 0;
}

static void flush_sheet(struct sheet *x, size_t most)
{
    if (x->t.length <= most)
        return;
    if (!x->problem && !write_all(x->file, &x->t))
        x->problem = errno;
    x->t.length = 0;
}

/* DONE, or the status that has been told. */
static int close_sheet(struct sheet *x)
{
    flush_sheet(x, 0);
    if (x->file >= 0 && close(x->file) != 0 && !x->problem)
        x->problem = errno;
    if (x->problem)
        say_at(x->f->name, 0, "cannot be written: %s: %s", x->path, strerror(x->problem));
    drop_text(&x->t);
    return x->problem ? UNREADABLE : DONE;
}

/* ---- the files: a row at a time, so that a sitting may be as long as it likes */

typedef void (*add_one)(struct text *t, const struct sitting *s, size_t i, const struct row *r);

static void put_rows(const struct sitting *s, const struct rows *rows, struct sheet *x, add_one add_it)
{
    for (size_t i = 0; i < s->many && !x->problem && !stop_signal(); i++) {
        struct row r;
        if (get_row(rows, s, i, &r))
            add_it(&x->t, s, i, &r);
        else
            x->problem = EIO;
        flush_sheet(x, MOST_KEPT);
        drop_row(&r);
    }
}

static int write_csv(const struct sitting *s, const struct folder *f, const struct rows *rows)
{
    struct sheet x;
    open_sheet(&x, f, "results.csv");
    addf(&x.t, "name,line,says,steps,depth,screen,agrees,program_sha256,paper_sha256,handlers,application");
    add_csv_heads(&x.t, &s->paper->awards);
    addf(&x.t, ",copies\n");
    put_rows(s, rows, &x, add_csv_row);
    return close_sheet(&x);
}

static int write_index(const struct sitting *s, const struct folder *f, const struct rows *rows,
                       const struct tally *all)
{
    struct sheet x;
    open_sheet(&x, f, "index.html");
    add_index_head(&x.t, s, all);
    put_rows(s, rows, &x, add_html_row);
    add_index_foot(&x.t, s);
    return close_sheet(&x);
}

static void add_sum(struct sheet *x, const char *path)
{
    char digest[SHA256_TEXT] = "";
    if (!digest_file(x->f->at, path, digest) && !x->problem)
        x->problem = EIO;
    addf(&x->t, "%s  %s\n", digest, path);
}

static int write_sums(const struct sitting *s, const struct folder *f, const struct rows *rows)
{
    struct sheet x;
    open_sheet(&x, f, "SHA256SUMS");
    add_sum(&x, "index.html");
    put_rows(s, rows, &x, add_sums_row);
    add_sum(&x, "results.csv");
    return close_sheet(&x);
}

/* A name that leads to nothing is a slip of the person who types. */
static void tell_missing(const struct row *r)
{
    if (!r->digest[0] && strcmp(r->says.at, strerror(ENOENT)) == 0)
        say_at(r->name, 0, "%s%s", r->says.at, late_option(r->name));
}

static int tally_rows(const struct sitting *s, const struct folder *f, const struct rows *rows, struct tally *all)
{
    for (size_t i = 0; i < s->many; i++) {
        struct row r;
        if (!get_row(rows, s, i, &r)) {
            say_at(f->name, 0, "cannot be written: its rows cannot be read again");
            drop_row(&r);
            return UNREADABLE;
        }
        all->agree += r.agrees == 1;
        all->differ += r.agrees == 0;
        all->without += !r.line.length || r.line.at[0] == 'R';
        all->unmarked += r.problem == UNMARKED;
        all->passed += has_passed(s, &r) == 1;
        all->failed += has_passed(s, &r) == 0;
        tell_missing(&r);
        compare_row(s, i, &r);
        drop_row(&r);
    }
    find_alike(s->alike);
    return DONE;
}

int write_results(const struct sitting *s, const struct folder *f, const struct rows *rows, int *verdict,
                  struct text *counts)
{
    struct tally all = {0};
    int status = tally_rows(s, f, rows, &all);
    if (status == DONE)
        status = write_csv(s, f, rows);
    if (status == DONE)
        status = write_index(s, f, rows, &all);
    if (status == DONE)
        status = write_sums(s, f, rows);
    add_counts(counts, s, &all);
    *verdict = all.unmarked ? UNREADABLE : all.differ || all.without || all.failed ? REFUSED : DONE;
    if (status == DONE && all.unmarked)
        say_at(f->name, 0, "%lu program%s could not be marked; the rows say why", (unsigned long)all.unmarked,
               all.unmarked == 1 ? "" : "s");
    return status;
}
