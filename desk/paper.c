/* A paper: read, cut into lines, and judged by the library. */
#include <stdlib.h>
#include <string.h>

#include "desk.h"
#include "program.h"

typedef int taker(struct paper *p, uint32_t line, const char *at, const char *end);

/* Line by line; a CR before the LF, or at the very end, is none of the line. */
static int each_line(struct paper *p, taker *take)
{
    const char *at = p->bytes, *end = p->bytes + p->length;
    int status = DONE;
    for (uint32_t line = 1; at < end && status == DONE; line++) {
        const char *lf = (const char *)memchr(at, '\n', (size_t)(end - at)), *stop = lf ? lf : end;
        const char *last = stop > at && stop[-1] == '\r' ? stop - 1 : stop;
        status = take(p, line, at, last);
        at = lf ? lf + 1 : end;
    }
    return status;
}

/* The sources first, so that their names may stand on any line. */
static int take_lines(struct paper *p)
{
    int status = each_line(p, source_line);
    if (status == DONE)
        status = each_line(p, paper_line);
    if (status == DONE && !p->steps_line) {
        say_at(p->name, 0, "has no line 'steps N'");
        status = REFUSED;
    }
    return status == DONE && !judge_pass(p) ? REFUSED : status;
}

/* The paper's S-records, under what its other lines lay. Without an S9 they get one that says nothing. */
static int lay_srec(struct paper *p)
{
    struct assembled *a = (struct assembled *)room_for(NULL, sizeof *a);
    struct fault f = {0};
    const char *last;
    int ended, good;
    for (last = p->srec.at + p->srec.length - 1; last > p->srec.at && last[-1] != '\n';)
        last--;
    ended = last[1] == '9';
    if (!ended)
        addf(&p->srec, "S9030000FC\n");
    good = load_srec(p->srec.at, p->srec.length, a, &f);
    if (!good)
        say_refusal(p->name, p->srec_lines[f.line - 1], f.refusal, xm23_refusal_text(f.refusal));
    for (unsigned at = 0; good && at < XM23_MEMORY_SIZE; at++)
        if (a->set[at] && !p->set[at])
            p->memory[at] = a->memory[at], p->set[at] = SRECORD;
    if (good && ended && !p->start_line[7]) {
        put_word(p->record, XM23_RECORD_REGISTER(7), a->pc);
        p->start_line[7] = p->srec_lines[p->many_srec - 1];
    }
    free(a);
    drop_text(&f.why);
    return good;
}

/* How many bytes of the S-records their first lines have. */
static size_t length_of(const struct paper *p, size_t lines)
{
    size_t length = 0;
    while (lines-- > 0)
        length += strcspn(p->srec.at + length, "\n") + 1;
    return length;
}

/* Whether the first so many lines of the S-records, of which the last may be S9, lay a byte. */
static int first_lay(const struct paper *p, size_t lines, unsigned at, struct assembled *a)
{
    struct text t = {0};
    struct fault f = {0};
    int good;
    add_bytes(&t, p->srec.at, length_of(p, lines));
    addf(&t, "S9030000FC\n");
    good = load_srec(t.at, t.length, a, &f) && a->set[at];
    drop_text(&t);
    drop_text(&f.why);
    return good;
}

/* Of S-records the first of their lines with which the byte is laid. */
uint32_t laying_line(const struct paper *p, unsigned at)
{
    struct assembled *a;
    size_t below = 0, above = p->many_srec;
    if (!p->set[at] || p->laid[at])
        return p->laid[at];
    a = (struct assembled *)room_for(NULL, sizeof *a);
    while (below + 1 < above) {
        size_t middle = below + (above - below) / 2;
        if (first_lay(p, middle, at, a))
            above = middle;
        else
            below = middle;
    }
    free(a);
    return p->srec_lines[above - 1];
}

/* The line of the first event that shares step and device with an earlier one, whose line goes to `first`. */
static uint32_t twin_line(const struct paper *p, uint32_t *first)
{
    for (size_t i = 1; i < p->many_events; i++)
        for (size_t j = i; j-- > 0 && p->events[j].step == p->events[i].step;)
            if (p->events[j].device == p->events[i].device) {
                *first = p->events[j].line;
                return p->events[i].line;
            }
    return 0;
}

/* The line of the paper that a refusal is about. */
static uint32_t line_at_fault(const struct paper *p, unsigned refusal, uint32_t *first)
{
    if (refusal == XM23_REFUSED_STEPS)
        return p->steps_line;
    if (refusal == XM23_REFUSED_RECORD_BITS)
        return p->start_line[START_PSW] && get_word(p->record, XM23_RECORD_PSW) & 0x1E00 ? p->start_line[START_PSW]
               : p->start_line[START_CEX] && get_word(p->record, XM23_RECORD_CEX) & 0xFF80
                   ? p->start_line[START_CEX]
                   : p->start_line[START_HALTED];
    if (refusal == XM23_REFUSED_EVENTS)
        return p->full_line;
    for (size_t i = 0; refusal == XM23_REFUSED_EVENT_FIELDS && i < p->many_events; i++)
        if (p->events[i].device > 7)
            return p->events[i].line;
    for (size_t i = 1; refusal == XM23_REFUSED_EVENT_ORDER && i < p->many_events; i++)
        if (p->events[i].step < p->events[i - 1].step)
            return p->events[i].line;
    return refusal == XM23_REFUSED_EVENT_TWINS ? twin_line(p, first) : 0;
}

/*
 * What the library says of a run of the paper, without a step: of the number of steps by a record that is refused after
 * it, of record and events by a run of 0 steps.
 */
static unsigned refusal_of(const struct paper *p)
{
    struct machine *m = (struct machine *)room_for(NULL, sizeof *m);
    struct outcome o = {0};
    memset(m->memory, 0, sizeof m->memory);
    memcpy(m->record, p->record, sizeof m->record);
    m->record[XM23_RECORD_ZERO] = 1;
    run_machine(m, p, p->steps, &o);
    if (o.refusal == XM23_REFUSED_RECORD_BITS) {
        m->record[XM23_RECORD_ZERO] = 0;
        run_machine(m, p, 0, &o);
    }
    free(m);
    return o.refusal;
}

static int judge(const struct paper *p)
{
    unsigned refusal = refusal_of(p);
    uint32_t first = 0, line = line_at_fault(p, refusal, &first);
    struct text words = {0};
    if (refusal == XM23_ACCEPTED)
        return 1;
    addf(&words, "%s", xm23_refusal_text(refusal));
    if (first)
        addf(&words, ": lines %lu and %lu", (unsigned long)first, (unsigned long)line);
    say_refusal(p->name, line, refusal, words.at);
    drop_text(&words);
    return 0;
}

/* Those of event lines by themselves, which stand in order, and then with those that other lines make. */
static int judge_events(struct paper *p)
{
    pack_events(p);
    if (!judge(p))
        return 0;
    if (!p->many_made)
        return 1;
    merge_events(p);
    pack_events(p);
    return judge(p);
}

int take_paper(const char *name, char *bytes, size_t length, struct paper *p)
{
    int status;
    memset(p, 0, sizeof *p);
    p->name = name;
    p->bytes = bytes;
    p->length = length;
    status = take_lines(p);
    if (status == DONE && (!p->many_srec || lay_srec(p)) && lay_sources(p) && judge_events(p))
        return DONE;
    drop_paper(p);
    return status == DONE ? REFUSED : status;
}

/* Paper and program in the other order: told besides what is wrong. */
static int tell_swapped(const char *name, int status)
{
    if (status == REFUSED && (ends_in(name, ".s19") || ends_in(name, ".asm")))
        say_at(name, 0, "by its name it is a program: the paper stands before it");
    return status;
}

int read_paper(const char *name, struct paper *p)
{
    struct text why = {0};
    size_t length = 0;
    char *bytes = read_file(name, ANY_FILE, MOST_TEXT, &length, &why);
    if (bytes)
        return tell_swapped(name, take_paper(name, bytes, length, p));
    say_at(name, 0, "%s", why.at);
    drop_text(&why);
    return UNREADABLE;
}

void drop_paper(struct paper *p)
{
    free(p->bytes);
    free(p->title);
    free(p->expected);
    free(p->events);
    free(p->made);
    free(p->event_bytes);
    free(p->srec_lines);
    drop_text(&p->srec);
    drop_sources(p);
    drop_awards(p);
    memset(p, 0, sizeof *p);
}

int digest_paper(const struct paper *p, char *digits)
{
    int good = sha256(p->bytes, p->length, digits);
    for (size_t i = 0; good && i < p->many_sources; i++) {
        digits += SHA256_TEXT - 1;
        *digits++ = ' ';
        good = sha256(p->sources[i].bytes, p->sources[i].length, digits);
    }
    return good;
}

int overwrites_paper(const char *to, const struct paper *p)
{
    for (size_t i = 0; i < p->many_sources; i++)
        if (overwrites(to, p->sources[i].name))
            return 1;
    return overwrites(to, p->name);
}
