/* Which steps of a run a page has: the last ones that changed something, or those around one that is asked for. */
#include <string.h>

#include "walk.h"

/* ---- steps that change nothing */

/* Whether two machines differ in the step count alone, if in anything. */
static int alike(const struct machine *a, const struct machine *b)
{
    uint8_t x[XM23_RECORD_SIZE], y[XM23_RECORD_SIZE];
    memcpy(x, a->record, sizeof x);
    memcpy(y, b->record, sizeof y);
    memset(x + XM23_RECORD_COUNT, 0, 4);
    memset(y + XM23_RECORD_COUNT, 0, 4);
    return memcmp(x, y, sizeof x) == 0 && memcmp(a->memory, b->memory, sizeof a->memory) == 0;
}

/* Whether a step from here, with no event due, is taken and changes nothing. */
static int stays(const struct machine *m)
{
    static struct machine next;
    uint32_t deepest;
    uint64_t reply;
    uint8_t log[XM23_LOG_SIZE];
    memcpy(&next, m, sizeof next);
    reply = xm23_run(next.memory, sizeof next.memory, next.record, sizeof next.record, NULL, 0, log, sizeof log,
                     &deepest, 1);
    return XM23_RUN_STEPS(reply) == 1 && !XM23_RUN_ADDED(reply) && alike(&next, m);
}

/* The steps of a run as far as its last event that is due. */
static uint32_t eventful(const struct paper *p, const struct machine *before, uint32_t steps)
{
    uint32_t start = get_long(before->record, XM23_RECORD_COUNT), last = 0;
    for (size_t i = 0; i < p->many_events; i++)
        if (p->events[i].step >= start && p->events[i].step - start < steps)
            last = p->events[i].step - start + 1;
    return last;
}

static uint32_t least(uint32_t a, uint32_t b)
{
    return a < b ? a : b;
}

/*
 * Where a step from the closing state changes nothing, and no event is due any more, the machine that has come to that
 * state stays in it: so the first step that finds it so is between one that does not and one that does. Most programs
 * come to it early: it is looked for by leaps that double, and by halves once one has passed it.
 */
uint32_t idle_steps(const struct paper *p, const struct machine *before, const struct machine *after, uint32_t steps)
{
    static struct machine low, middle;
    struct outcome o = {0};
    uint32_t first = eventful(p, before, steps), last = steps, leap = 1024;
    if (!stays(after))
        return 0;
    memcpy(&low, before, sizeof low);
    run_machine(&low, p, first, &o);
    if (alike(&low, after))
        return steps - first;
    while (last - first > 1) {
        uint32_t on = least((last - first) / 2, leap);
        memcpy(&middle, &low, sizeof middle);
        run_machine(&middle, p, on, &o);
        if (alike(&middle, after)) {
            last = first + on;
            leap = steps;
        } else {
            first += on;
            leap = least(2 * leap, steps);
            memcpy(&low, &middle, sizeof low);
        }
    }
    return steps - last;
}

/* ---- parts */

/* Of steps that change nothing the first one is shown, and more where there is room; a table of few has none. */
struct part closing_part(uint32_t steps, uint32_t idle)
{
    struct part t = {0};
    uint32_t busy = idle ? steps - idle + 1 : steps, end = busy > MOST_WALK ? busy : least(steps, MOST_WALK);
    t.first = end - least(end, MOST_WALK);
    t.many = t.look = end - t.first;
    t.told = busy - t.first - (idle && busy - t.first > 1);
    t.idle = idle;
    t.behind = steps - end;
    return t;
}

/* As many before the step as from it on, where the run has them. */
struct part part_around(uint32_t steps, uint32_t step)
{
    struct part t = {0};
    uint32_t end = least(steps, step + MOST_WALK / 2);
    end = least(steps, end < MOST_WALK ? MOST_WALK : end);
    t.first = end - least(end, MOST_WALK);
    t.many = end - t.first;
    t.look = step - t.first;
    t.told = least(t.many, t.look < FEW_STEPS / 2 ? FEW_STEPS : t.look + FEW_STEPS / 2);
    t.behind = steps - end;
    t.asked = 1;
    return t;
}

/* ---- a step that is asked for */

int step_word(const char *word, uint32_t *count)
{
    uint64_t value = 0;
    size_t i = 0;
    for (; i < 10 && word[i] >= '0' && word[i] <= '9'; i++)
        value = 10 * value + (unsigned)(word[i] - '0');
    *count = (uint32_t)value;
    return i > 0 && !word[i] && value <= UINT32_MAX;
}

int find_step(const char *name, const struct machine *before, uint32_t steps, uint32_t count, int end, uint32_t *step)
{
    uint32_t start = get_long(before->record, XM23_RECORD_COUNT);
    *step = count - start;
    if (count >= start && *step < steps + (end != 0))
        return 1;
    if (steps)
        say_at(name, 0, "step %lu is %s: the run has the steps %lu to %lu", (unsigned long)count,
               count < start ? "before the start" : "beyond the end", (unsigned long)start,
               (unsigned long)start + steps - 1);
    else
        say_at(name, 0, "step %lu: no step was taken", (unsigned long)count);
    return 0;
}
