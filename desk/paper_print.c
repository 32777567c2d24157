/* xm23 paper: a paper as it was understood, every event and byte written out. */
#include <string.h>
#include <unistd.h>

#include "awarded.h"
#include "desk.h"

/* ---- what stands on one line */

/* A CR at the end of a title is none of the line's ending where another stands behind it. */
static void add_title(struct text *t, const struct paper *p)
{
    size_t length = strlen(p->title);
    addf(t, length ? "title    " : "title");
    add_bytes(t, p->title, length);
    addf(t, length && p->title[length - 1] == '\r' ? "\r\n" : "\n");
}

static uint32_t part_value(const struct paper *p, const struct start_part *part)
{
    uint32_t value = 0;
    for (unsigned i = part->bytes; i-- > 0;)
        value = value << 8 | p->record[part->at + i];
    return value;
}

/* The parts that the paper names. */
static void add_start(struct text *t, const struct paper *p)
{
    unsigned done = 0;
    for (const struct start_part *part = start_parts; part->name; part++) {
        if (!p->start_line[part->part] || done >> part->part & 1)
            continue;
        addf(t, done ? " " : "start    ");
        addf(t, "%s=$%0*lX", part->name, 2 * (int)part->bytes, (unsigned long)part_value(p, part));
        done |= 1u << part->part;
    }
    if (done)
        addf(t, "\n");
}

static void add_uses(struct text *t, const struct paper *p)
{
    if (p->priority_line)
        addf(t, "priority %lu\n", (unsigned long)p->priority);
    for (unsigned d = 0; d < 8; d++)
        if (p->use_line[d])
            addf(t, "use      %u %u\n", d, get_word(p->uses, 2 * d));
}

/* ---- memory */

/* The devices and vectors that have a line, as they are now; their bytes are then written. */
static void add_devices(struct text *t, const struct paper *p, uint8_t *left)
{
    for (unsigned d = 0; d < 8; d++)
        if (p->device_line[d]) {
            addf(t, "device   %u $%02X $%02X\n", d, p->memory[2 * d], p->memory[2 * d + 1]);
            memset(left + 2 * d, 0, 2);
        }
    for (unsigned v = 0; v < 16; v++)
        if (p->vector_line[v]) {
            unsigned at = XM23_VECTORS + 4 * v;
            addf(t, "vector   %u $%04X $%04X\n", v, get_word(p->memory, at), get_word(p->memory, at + 2));
            memset(left + at, 0, 4);
        }
}

/* Sixteen bytes to a line at most. */
static void add_data(struct text *t, const struct paper *p, const uint8_t *left)
{
    unsigned many = 0;
    for (unsigned at = 0; at < XM23_MEMORY_SIZE; at++) {
        int ends = at + 1 == XM23_MEMORY_SIZE || left[at + 1] != DATA || many == 15;
        if (left[at] != DATA)
            continue;
        if (!many)
            addf(t, "bytes    $%04X", at);
        add_byte(t, " $", p->memory[at]);
        many = ends ? 0 : many + 1;
        if (ends)
            addf(t, "\n");
    }
}

static void add_memory(struct text *t, const struct paper *p)
{
    static uint8_t left[XM23_MEMORY_SIZE];
    memcpy(left, p->set, sizeof left);
    add_devices(t, p, left);
    add_data(t, p, left);
    add_spans(t, p->memory, left, SRECORD);
}

/* ---- the paper */

void add_paper(struct text *t, const struct paper *p)
{
    if (p->title)
        add_title(t, p);
    addf(t, "steps    %lu\n", (unsigned long)p->steps);
    add_start(t, p);
    add_memory(t, p);
    add_uses(t, p);
    for (size_t i = 0; i < p->many_events; i++)
        addf(t, "%-8lu %u $%02X\n", (unsigned long)p->events[i].step, p->events[i].device, p->events[i].byte);
    add_award_lines(t, &p->awards);
    if (p->expected)
        addf(t, "expect   %s\n", p->expected);
}

/* A title, which is the first line, may be any bytes: a terminal has them as text. All other lines are text. */
static int print_paper(const struct paper *p, const char *to)
{
    struct text t = {0}, plain = {0};
    size_t title;
    int status;
    add_paper(&t, p);
    title = p->title ? strcspn(t.at, "\n") : 0;
    add_plain(&plain, t.at, title);
    add_bytes(&plain, t.at + title, t.length - title);
    status = write_file(to, strcmp(to, "-") == 0 && isatty(STDOUT_FILENO) ? &plain : &t);
    drop_text(&t);
    drop_text(&plain);
    return status;
}

int xm23_desk_paper(int argc, char **argv)
{
    static struct paper p;
    const char *to = "-";
    int option, status;
    while ((option = getopt(argc, argv, "+:o:")) != -1) {
        if (option != 'o')
            return wrong_option("paper", option, NULL);
        to = optarg;
    }
    if (argc - optind != 1)
        return wrong_words("paper", argc - optind, argv + optind, 1);
    status = read_paper(argv[optind], &p);
    if (status == DONE) {
        status = overwrites_paper(to, &p) ? UNREADABLE : print_paper(&p, to);
        drop_paper(&p);
    }
    return status;
}
