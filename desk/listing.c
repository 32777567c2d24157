/* xm23 dis: a listing of a program, word by word, which is a source of the same bytes. */
#include <unistd.h>

#include "desk.h"
#include "names.h"
#include "word.h"

/* Blanks up to the comments of a line that began at a place of the text. */
static void add_gap(struct text *t, size_t from)
{
    addf(t, "%*s; ", (int)(24 - (t->length - from)), "");
}

/* A word where both its bytes are named, else a byte: how many. */
static unsigned add_listed(struct text *t, unsigned at, const uint8_t *memory, int both)
{
    size_t from = t->length;
    uint16_t word = (uint16_t)get_word(memory, at & 0xFFFE);
    addf(t, "    ");
    if (both)
        add_statement(t, at, word);
    else
        addf(t, "BYTE $%02X", memory[at]);
    add_gap(t, from);
    addf(t, both ? "%04X %04X" : "%04X %02X", at, both ? word : memory[at]);
    if (both)
        add_remark(t, ", ", at, word);
    addf(t, "\n");
    return both ? 2 : 1;
}

/* ORG before bytes that follow no others, a blank line between two parts; labels on lines of their own. */
static void add_listing(struct text *t, const uint8_t *memory, const uint8_t *set, const struct names *names)
{
    unsigned next = XM23_MEMORY_SIZE;
    for (unsigned pair = 0; pair < XM23_MEMORY_SIZE; pair += 2) {
        unsigned at = pair + !set[pair];
        const struct name *label = label_at(names, at);
        if (!set[pair] && !set[pair + 1])
            continue;
        if (at != next)
            addf(t, "%s    ORG $%04X\n", t->length ? "\n" : "", at);
        if (label && is_only(names, label))
            addf(t, "%.*s\n", (int)label->length, label->at);
        next = at + add_listed(t, at, memory, set[pair] && set[pair + 1]);
    }
}

static void add_end(struct text *t, unsigned start)
{
    size_t from = t->length;
    addf(t, "    END");
    add_gap(t, from);
    addf(t, "start %04X\n", start);
}

static int list(const struct program *p, const char *to)
{
    static struct assembled a;
    static struct names names;
    struct text t = {0};
    struct fault f = {0};
    int status = REFUSED;
    if (overwrites_program(to, p)) {
        status = UNREADABLE;
    } else if (!load_program(p, &a, &f)) {
        say_fault(p->name, &f);
    } else {
        gather_names(&names, NULL, p);
        add_listing(&t, a.memory, a.set, &names);
        free_names(&names);
        add_end(&t, a.pc);
        status = write_file(to, &t);
    }
    drop_text(&t);
    drop_text(&f.why);
    return status;
}

int xm23_desk_dis(int argc, char **argv)
{
    const char *to = "-";
    struct program p = {0};
    int option, status;
    while ((option = getopt(argc, argv, "+:o:")) != -1) {
        if (option != 'o')
            return wrong_option("dis", option, NULL);
        to = optarg;
    }
    if (argc - optind != 1)
        return wrong_words("dis", argc - optind, argv + optind, 1);
    status = take_program(argv[optind], &p);
    if (status == DONE)
        status = list(&p, to);
    drop_program(&p);
    return status;
}
