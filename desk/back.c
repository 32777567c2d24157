/* xm23 back: from the closing state, or from any step, backwards. */
#include <stdio.h>
#include <stdlib.h>
#include <string.h>
#include <unistd.h>

#include "desk.h"
#include "names.h"
#include "walk.h"

enum { SOME_STEPS = 16 };

/* What is asked for, and the run. */
struct backwards {
    struct machine before, m;
    struct walk walk;
    struct names names;
    unsigned long most; /* steps; 0: not said */
    const char *byte;   /* an address or a name; NULL: none */
    unsigned at;        /* what it comes to */
    int asked;          /* from the step of a count on, and not from the last */
    uint32_t count;
    uint32_t past;      /* steps of the run to look back from */
};

/* ---- what is printed */

/* A row, with the label that PC is at or behind at its end. */
static void add_step(struct text *t, const struct step *s, const struct names *names)
{
    struct text what = {0}, left = {0}, place = {0};
    unsigned pc = step_pc(s);
    char word[8] = "";
    if (s->fetched)
        snprintf(word, sizeof word, "%04X", s->word);
    add_what(&what, s);
    add_left(&left, s);
    addf(t, "%-10lu  %04X  %-4s  %-24s  %s", (unsigned long)step_count(s), pc, word, what.at, left.at ? left.at : "");
    if (add_label(&place, names, pc))
        addf(t, "%s; %s", left.at ? "  " : "", place.at);
    while (t->at[t->length - 1] == ' ')
        t->at[--t->length] = 0;
    addf(t, "\n");
    drop_text(&what);
    drop_text(&left);
    drop_text(&place);
}

/* The state before a step: the library goes back to it. */
static void add_state(struct text *t, const struct backwards *b)
{
    static const char *const names[] = {"R0", "R1", "R2", "R3", "R4", "LR", "SP", "PC", "PSW"};
    const uint8_t *record = b->m.record;
    addf(t, "before step %lu:", (unsigned long)get_long(record, XM23_RECORD_COUNT));
    for (unsigned i = 0; i < 9; i++)
        addf(t, " %s %04X", names[i], get_word(record, 2 * i));
    addf(t, " CEX %02X lines ", record[XM23_RECORD_CEX]);
    for (int d = 7; d >= 0; d--)
        addf(t, "%X", XM23_RECORD_WAITING(record, d));
    addf(t, "\n");
}

/* So many steps from a place of the run on, the newest first, and the state before them. */
static int tell_steps(struct backwards *b, const struct paper *p, uint32_t first, uint32_t many)
{
    struct walk *w = &b->walk;
    struct outcome o = {0};
    struct text t = {0};
    int status;
    memcpy(&b->m, &b->before, sizeof b->m);
    run_machine(&b->m, p, first, &o);
    walk_on(w, p, &b->m, many);
    addf(&t, "%-10s  %-4s  %-4s  %-24s  %s\n", "step", "PC", "word", "instruction", "what it left");
    if (first + many < b->past)
        addf(&t, "..          %lu steps left out\n", (unsigned long)(b->past - first - many));
    for (uint32_t i = w->many; i-- > 0;)
        add_step(&t, &w->steps[i], &b->names);
    add_state(&t, b);
    status = write_file("-", &t);
    drop_text(&t);
    return status;
}

/* ---- the steps that are asked for */

/* The address that a word is, base sixteen, a $ before it or not; 0: it is none. */
static int address_of(const char *word, unsigned *at)
{
    const char *digits = word + (*word == '$');
    size_t length = strspn(digits, "0123456789abcdefABCDEF");
    *at = (unsigned)strtoul(digits, NULL, 16);
    return length > 0 && length <= 8 && !digits[length] && *at < XM23_MEMORY_SIZE;
}

/* The byte that a word names: by a name of the sources, else by its address. */
static int find_byte(struct backwards *b, const char *name)
{
    int64_t value = 0;
    int found = named_value(&b->names, b->byte, &value);
    if (found == 2)
        say_at(name, 0, "%s is a name of two sources, with two values: give the address", b->byte);
    else if (found && (value < 0 || value >= XM23_MEMORY_SIZE))
        say_at(name, 0, "%s comes to %lld, which is no address", b->byte, (long long)value);
    else if (found)
        b->at = (unsigned)value;
    else if (!address_of(b->byte, &b->at))
        say_at(name, 0, "%s is no name that a source of the program or of the paper gives", b->byte);
    else
        found = 1;
    return found == 1 && value >= 0 && value < XM23_MEMORY_SIZE;
}

static int tell_none(const struct backwards *b, const char *name, uint32_t looked)
{
    if (!looked)
        say_at(name, 0, "no step was taken");
    else if (b->asked)
        say_at(name, 0, "none of the %lu steps up to step %lu wrote $%04X", (unsigned long)looked,
               (unsigned long)b->count, b->at);
    else
        say_at(name, 0, "none of the last %lu steps wrote $%04X", (unsigned long)looked, b->at);
    return REFUSED;
}

/* The step that wrote the byte, and those behind it; of too many the ones that follow on it. */
static int tell_writer(struct backwards *b, const struct paper *p, const char *name)
{
    uint32_t looked = b->most && b->most < b->past ? (uint32_t)b->most : b->past, first = b->past - looked, found;
    struct outcome o = {0};
    if (!find_byte(b, name))
        return REFUSED;
    memcpy(&b->m, &b->before, sizeof b->m);
    run_machine(&b->m, p, first, &o);
    found = last_writer(&b->walk, p, &b->m, looked, b->at);
    if (!found)
        return tell_none(b, name, looked);
    first += found - 1;
    return tell_steps(b, p, first, b->past - first <= MOST_WALK ? b->past - first : SOME_STEPS);
}

static int tell_back(struct backwards *b, const struct paper *p, const char *name)
{
    uint32_t most = b->most ? (uint32_t)b->most : SOME_STEPS;
    if (b->byte)
        return tell_writer(b, p, name);
    if (!b->past)
        return tell_none(b, name, 0);
    most = most < b->past ? most : b->past;
    return tell_steps(b, p, b->past - most, most);
}

/* ---- the command */

static int back_program(const struct paper *p, const struct program *program, struct backwards *b)
{
    struct outcome o = {0};
    struct fault f = {0};
    uint32_t step = 0;
    int status = REFUSED;
    if (open_program(p, program, &b->before, &f)) {
        memcpy(&b->m, &b->before, sizeof b->m);
        run_machine(&b->m, p, p->steps, &o);
        b->past = o.steps;
        gather_names(&b->names, p, program);
        if (!b->asked || find_step(program->name, &b->before, o.steps, b->count, 0, &step)) {
            b->past = b->asked ? step + 1 : o.steps;
            status = tell_back(b, p, program->name);
        }
        free_names(&b->names);
    } else {
        say_fault(program->name, &f);
    }
    drop_text(&f.why);
    return status;
}

static int back_file(const char *paper, const char *name, struct backwards *b)
{
    static struct paper p;
    struct program program = {0};
    int status = read_paper(paper, &p);
    if (status != DONE)
        return status;
    status = take_program(name, &program);
    if (status == DONE)
        status = back_program(&p, &program, b);
    drop_program(&program);
    drop_paper(&p);
    return status;
}

/* How many steps: 1 to MOST_WALK; 0 where it is none. */
static unsigned long number_of(const char *word)
{
    uint32_t number;
    return step_word(word, &number) && number <= MOST_WALK ? number : 0;
}

/* Whether a word is an address, or could be a name: capital letters and digits, a letter first. */
static int names_byte(const char *word)
{
    unsigned at;
    return address_of(word, &at) ||
           (*word >= 'A' && *word <= 'Z' && !word[strspn(word, "ABCDEFGHIJKLMNOPQRSTUVWXYZ0123456789")]);
}

int xm23_desk_back(int argc, char **argv)
{
    static struct backwards b;
    const char *wrong = NULL;
    int option;
    while ((option = getopt(argc, argv, "+:a:n:w:")) != -1) {
        if (option == 'a')
            wrong = (b.asked = step_word(optarg, &b.count)) ? NULL : NO_STEP;
        else if (option == 'n')
            wrong = (b.most = number_of(optarg)) ? NULL : "is no number of steps, 1 to 1024";
        else if (option == 'w')
            wrong = names_byte(b.byte = optarg) ? NULL : "is no address, base sixteen, 0 to FFFF, and no name";
        if (wrong || option == ':' || option == '?')
            return wrong_option("back", option, wrong);
    }
    if (argc - optind != 2)
        return wrong_words("back", argc - optind, argv + optind, 2);
    return back_file(argv[optind], argv[optind + 1], &b);
}
