/* xm23 copies: programs of a sitting that are alike, for a person to look at. */
#include <string.h>
#include <unistd.h>

#include "copies.h"
#include "desk.h"
#include "way.h"

/* ---- reading */

int load_compared(const struct compared *c, size_t i, struct assembled *a)
{
    struct program p = {0};
    struct fault f = {0};
    struct text why = {0};
    int good = read_program(c->names[i], c->kind, c->shared, &p, &why) && load_program(&p, a, &f);
    drop_text(&why);
    drop_text(&f.why);
    drop_program(&p);
    return good;
}

/* One program, or why it is not compared. */
static int compare_one(struct compared *c, size_t i)
{
    static struct assembled a;
    static struct prints prints;
    struct program p = {0};
    struct fault f = {0};
    struct text why = {0};
    int good = read_program(c->names[i], c->kind, c->shared, &p, &why);
    c->taken = c->to && overwrites_program(c->to, &p);
    if (!good)
        say_at(c->names[i], 0, "is not compared: %s%s", why.at, late_option(c->names[i]));
    else if (!(good = load_program(&p, &a, &f)))
        say_fault(c->names[i], &f);
    else if ((good = take_prints(&prints, c->paper, &a)) != 0)
        take_alike(&c->alike, i, &prints);
    drop_text(&why);
    drop_text(&f.why);
    drop_program(&p);
    return good;
}

/* ---- telling */

size_t next_group(const struct alike *x, size_t from, int shape, int ignored)
{
    while (from < x->many) {
        const struct kin *k = &x->each[from];
        if (shape ? k->shape_first == from && k->shape_many > k->same_many
                  : k->same_first == from && k->same_many > 1 && (k->ignored != 0) == ignored)
            break;
        from++;
    }
    return from;
}

static void add_names(struct text *t, const struct compared *c, size_t first, int shape)
{
    const char *mark = ": ";
    for (size_t i = first; i < c->many; i++) {
        const struct kin *k = &c->alike.each[i];
        if ((shape ? k->shape_first : k->same_first) != first)
            continue;
        addf(t, "%s", mark);
        add_plain(t, c->names[i], strlen(c->names[i]));
        mark = ", ";
    }
    addf(t, "\n");
}

static void add_set(struct text *t, uint32_t ignored, const char *what)
{
    if (ignored)
        addf(t, ", %lu ignored bit%s set%s", (unsigned long)ignored, ignored == 1 ? "" : "s", what);
}

static void add_groups(struct text *t, const struct compared *c, int shape, int ignored)
{
    const struct alike *x = &c->alike;
    for (size_t i = next_group(x, 0, shape, ignored); i < x->many; i = next_group(x, i + 1, shape, ignored)) {
        addf(t, "same words%s, %lu", shape ? " but for registers" : "", (unsigned long)x->each[i].words);
        add_set(t, shape ? 0 : x->each[i].ignored, "");
        add_names(t, c, i, shape);
    }
}

static void add_pair_line(struct text *t, const struct compared *c, const struct pair *p)
{
    addf(t, "%lu word%s shared", (unsigned long)p->words, p->words == 1 ? "" : "s");
    add_set(t, p->ignored, " alike");
    addf(t, ": ");
    add_plain(t, c->names[p->a], strlen(c->names[p->a]));
    addf(t, " at $%04X, ", p->at_a);
    add_plain(t, c->names[p->b], strlen(c->names[p->b]));
    addf(t, " at $%04X", p->at_b);
    if (p->longest)
        addf(t, ", %u in one run", p->longest);
    addf(t, "\n");
}

static void add_pairs(struct text *t, const struct compared *c, int ignored)
{
    const struct alike *x = &c->alike;
    for (size_t i = 0; i < x->many_pairs && i < MOST_PAIRS; i++)
        if ((x->pairs[i].ignored != 0) == ignored)
            add_pair_line(t, c, &x->pairs[i]);
}

/* Those with an ignored bit set first. */
static void add_found(struct text *t, const struct compared *c)
{
    const struct alike *x = &c->alike;
    add_groups(t, c, 0, 1);
    add_pairs(t, c, 1);
    add_groups(t, c, 0, 0);
    add_groups(t, c, 1, 0);
    add_pairs(t, c, 0);
    if (x->many_pairs > MOST_PAIRS)
        addf(t, "%lu pairs more\n", (unsigned long)(x->many_pairs - MOST_PAIRS));
    addf(t, "%lu program%s compared%s\n", (unsigned long)x->compared, x->compared == 1 ? "" : "s",
        t->length ? "" : ", nothing is alike");
    if (x->many_common)
        addf(t, "runs that more than %lu programs have, and count for nothing: %lu\n", (unsigned long)most_common(x),
            (unsigned long)x->many_common);
    if (x->mask)
        addf(t, "one run in %lu was looked at\n", (unsigned long)x->mask + 1);
}

static int found_any(const struct alike *x)
{
    return x->many_pairs || next_group(x, 0, 0, 0) < x->many || next_group(x, 0, 0, 1) < x->many ||
           next_group(x, 0, 1, 0) < x->many;
}

static int tell_copies(const struct compared *c)
{
    struct text lines = {0}, page = {0};
    int found = found_any(&c->alike), status = DONE;
    add_found(&lines, c);
    if (found)
        addf(&lines, "%s\n", A_PERSON);
    if (c->to) {
        add_copies_page(&page, c);
        status = write_file(c->to, &page);
    }
    if (status == DONE)
        status = write_file("-", &lines);
    if (status == DONE)
        status = c->left ? UNREADABLE : found ? REFUSED : DONE;
    drop_text(&lines);
    drop_text(&page);
    return status;
}

/* ---- the command */

/* Whether the page would take the place of what is read. Files in folders are known when these are read. */
static int overwrites_any(const struct compared *c)
{
    for (size_t i = 0; c->to && i < c->many; i++)
        if (overwrites(c->to, c->names[i]))
            return 1;
    return c->to && overwrites_paper(c->to, c->paper);
}

static int compare_all(struct compared *c)
{
    int status = UNREADABLE;
    c->shared = shared_folders(c->names, c->many);
    open_alike(&c->alike, c->many);
    c->taken = overwrites_any(c);
    for (size_t i = 0; i < c->many && !c->taken; i++)
        c->left += !compare_one(c, i);
    if (!c->taken) {
        find_alike(&c->alike);
        status = tell_copies(c);
    }
    drop_alike(&c->alike);
    return status;
}

int xm23_desk_copies(int argc, char **argv)
{
    static struct paper p;
    struct compared c = {0};
    int option, status;
    c.kind = REGULAR_FILE;
    while ((option = getopt(argc, argv, "+:Lo:")) != -1) {
        if (option == 'o')
            c.to = optarg;
        else if (option == 'L')
            c.kind = LINKED_FILE;
        else
            return wrong_option("copies", option, NULL);
    }
    if (argc - optind < 2)
        return wrong_words("copies", argc - optind, argv + optind, argc);
    status = read_paper(argv[optind], &p);
    if (status != DONE)
        return status;
    c.paper = &p;
    c.names = argv + optind + 1;
    c.many = (size_t)(argc - optind - 1);
    status = compare_all(&c);
    drop_paper(&p);
    return status;
}
