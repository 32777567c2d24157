/*
 * A target of libFuzzer: a paper, whose text the string is. Held: it is taken without a word, or refused with one line
 * that may be shown; what is taken is a run that the library takes; printed and read again it is the same paper; its
 * expected line agrees with itself, is read again to the same, and agrees with no shorter, longer or empty one.
 */
#include <string.h>

#include "desk_judge.h"

enum { MOST_RUN = 2000 };

/* The paper's start and memory, without a program. */
static void run_paper(const struct paper *p)
{
    static struct machine m;
    struct text screen = {0};
    struct outcome o = {0};
    o.screen = &screen;
    for (unsigned at = 0; at < XM23_MEMORY_SIZE; at++)
        m.memory[at] = p->set[at] ? p->memory[at] : 0;
    memcpy(m.record, p->record, sizeof m.record);
    run_machine(&m, p, p->steps < MOST_RUN ? p->steps : MOST_RUN, &o);
    must(o.refusal == XM23_ACCEPTED, "a paper that is taken, run", p->bytes, p->length);
    drop_text(&screen);
}

/* A line that the expected one takes: something in place of each *. */
static void add_taken(struct text *t, const char *expected)
{
    for (; *expected; expected++)
        addf(t, "%c", *expected == '*' ? '7' : *expected);
}

static void read_again(const struct paper *p)
{
    static struct paper again;
    struct text t = {0};
    addf(&t, "steps 0\nexpect %s\n", p->expected);
    must(take_paper("again", t.at, t.length, &again) == DONE && strcmp(again.expected, p->expected) == 0,
         "the expected line, read again", p->expected, strlen(p->expected));
    drop_paper(&again);
}

static void hold_expected(const struct paper *p)
{
    struct text t = {0};
    size_t length = strlen(p->expected);
    add_taken(&t, p->expected);
    must(as_expected(p, t.at) == 1, "the expected line", p->expected, length);
    addf(&t, " 0");
    must(as_expected(p, t.at) == 0, "a longer line", p->expected, length);
    *(strchr(t.at, ' ')) = 0;
    must(as_expected(p, t.at) == (p->expected[0] == 'R'), "one field", p->expected, length);
    must(as_expected(p, "") == 0, "an empty line", p->expected, length);
    drop_text(&t);
    read_again(p);
}

/* ---- printed and read again */

static int same_text(const char *a, const char *b)
{
    return a && b ? strcmp(a, b) == 0 : a == b;
}

/* Whether the same parts have a line. */
static int same_lines(const uint32_t *a, const uint32_t *b, size_t many)
{
    size_t i = 0;
    while (i < many && !a[i] == !b[i])
        i++;
    return i == many;
}

static int same_events(const struct paper *a, const struct paper *b)
{
    size_t i = 0;
    while (i < a->many_events && i < b->many_events && a->events[i].step == b->events[i].step &&
           a->events[i].device == b->events[i].device && a->events[i].byte == b->events[i].byte)
        i++;
    return a->many_events == b->many_events && i == a->many_events &&
           memcmp(a->event_bytes, b->event_bytes, XM23_EVENT_SIZE * i) == 0;
}

static int same_awards(const struct awards *a, const struct awards *b)
{
    size_t i = 0;
    while (i < a->many && i < b->many && a->list[i].subject == b->list[i].subject &&
           a->list[i].number == b->list[i].number && a->list[i].at == b->list[i].at &&
           a->list[i].relation == b->list[i].relation && a->list[i].points == b->list[i].points &&
           holds(IS, &a->list[i].wanted, &b->list[i].wanted))
        i++;
    return a->many == b->many && i == a->many && a->pass == b->pass && same_lines(&a->pass_line, &b->pass_line, 1);
}

/* Everything but names, sources and the numbers of lines. */
static int same_paper(const struct paper *a, const struct paper *b)
{
    return same_text(a->title, b->title) && same_text(a->expected, b->expected) &&
           memcmp(a->record, b->record, sizeof a->record) == 0 && memcmp(a->memory, b->memory, sizeof a->memory) == 0 &&
           memcmp(a->set, b->set, sizeof a->set) == 0 && memcmp(a->uses, b->uses, sizeof a->uses) == 0 &&
           a->devices == b->devices && a->steps == b->steps && a->priority == b->priority && same_events(a, b) &&
           same_lines(a->start_line, b->start_line, STARTS) && same_lines(a->device_line, b->device_line, 8) &&
           same_lines(a->vector_line, b->vector_line, 16) && same_lines(a->use_line, b->use_line, 8) &&
           same_lines(&a->priority_line, &b->priority_line, 1) && same_awards(&a->awards, &b->awards);
}

static void print_and_read(const struct paper *p)
{
    static struct paper again;
    struct text t = {0}, twice = {0};
    char *bytes;
    add_paper(&t, p);
    bytes = (char *)room_for(NULL, t.length + 1);
    memcpy(bytes, t.at, t.length + 1);
    must(take_paper("again", bytes, t.length, &again) == DONE && same_paper(p, &again),
         "a paper, printed and read again", t.at, t.length);
    add_paper(&twice, &again);
    must(t.length == twice.length && memcmp(t.at, twice.at, t.length) == 0, "a paper, printed twice", t.at, t.length);
    drop_paper(&again);
    drop_text(&t);
    drop_text(&twice);
}

int LLVMFuzzerTestOneInput(const uint8_t *data, size_t size)
{
    static struct paper p;
    struct text t = {0};
    int status;
    add_bytes(&t, data, size);
    listen_to();
    status = take_paper("a\npaper", t.at, t.length, &p);
    end_listening(status == DONE ? 0 : 2); /* a source that is refused may have a hint */
    if (status != DONE)
        return 0;
    run_paper(&p);
    print_and_read(&p);
    if (p.expected)
        hold_expected(&p);
    drop_paper(&p);
    return 0;
}
