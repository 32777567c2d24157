/* A run and what it is awarded. */
#include <string.h>

#include "awarded.h"

struct closing closing_of(const struct machine *after, const struct outcome *o, const struct verdict *v)
{
    struct closing c = {after->memory, after->record, o->reason, o->deepest, o->shown, 0, 0};
    if (v) {
        c.sound = is_sound(v);
        c.undisturbed = is_undisturbed(v);
    }
    return c;
}

void award_run(const struct paper *p, const struct machine *before, struct awarded *w)
{
    struct closing c;
    memset(w, 0, sizeof *w);
    memcpy(&w->after, before, sizeof w->after);
    w->o.shown = w->shown;
    run_machine(&w->after, p, p->steps, &w->o);
    if (asks_verdict(&p->awards))
        w->verdict = judge_run(p, before);
    c = closing_of(&w->after, &w->o, w->verdict);
    w->met = judge_awards(&p->awards, &c);
}

void drop_awarded(struct awarded *w)
{
    for (unsigned d = 0; d < DEVICES; d++)
        drop_text(&w->shown[d]);
    drop_verdict(w->verdict);
    w->verdict = NULL;
}
