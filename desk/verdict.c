/* What xm23_judge finds of a run, in words. Nothing is judged here: a finding names steps, and the run is taken again
 * as far as these for the values that stood there. */
#include <stdlib.h>
#include <string.h>

#include "sound.h"

const uint8_t *finding_of(const struct verdict *v, unsigned kind)
{
    return v->findings + XM23_FINDING_SIZE * kind;
}

/* ---- the run once more */

/* A finding beside the run: the machine after the step that opened the frame, and before the step that is told. */
struct scene {
    const uint8_t *finding;
    struct machine held, found;
    unsigned act; /* of the trace: what opened the frame; XM23_KIND_EVENT, which opens none, where nothing did */
};

static uint32_t steps_to(const struct machine *m, uint32_t count)
{
    return count - get_long(m->record, XM23_RECORD_COUNT);
}

/* How the next step enters a handler: XM23_KIND_ACCEPT and so on. */
static unsigned next_entry(struct machine *m, const struct paper *p)
{
    uint8_t act[XM23_TRACE_SIZE] = {0};
    uint32_t entries = XM23_KIND(XM23_KIND_ACCEPT) | XM23_KIND(XM23_KIND_CHAIN) | XM23_KIND(XM23_KIND_TRAP) |
                       XM23_KIND(XM23_KIND_FAULT);
    xm23_trace(m->memory, sizeof m->memory, m->record, sizeof m->record, p->event_bytes,
               XM23_EVENT_SIZE * p->many_events, act, sizeof act, entries, 1);
    return act[XM23_TRACE_KIND];
}

static int by_handler(const uint8_t *finding)
{
    return finding[XM23_FINDING_VECTOR] != XM23_NO_VECTOR;
}

static void set_scene(struct scene *s, const struct paper *p, const struct machine *before, const uint8_t *finding)
{
    struct outcome o = {0};
    uint32_t step = get_long(finding, XM23_FINDING_STEP);
    s->finding = finding;
    s->act = XM23_KIND_EVENT;
    memcpy(&s->held, before, sizeof s->held);
    if (by_handler(finding)) {
        run_machine(&s->held, p, steps_to(before, get_long(finding, XM23_FINDING_OPENED)), &o);
        s->act = next_entry(&s->held, p);
    }
    memcpy(&s->found, &s->held, sizeof s->found);
    if (step > get_long(s->held.record, XM23_RECORD_COUNT))
        run_machine(&s->found, p, steps_to(&s->held, step), &o);
}

/* ---- who ran */

/* More than one handler ran in the frame: what the pull finds changed may be any one's of them. */
static int shared_frame(const struct scene *s)
{
    return s->finding[XM23_FINDING_VECTOR] != s->finding[XM23_FINDING_RUNNING];
}

static int is_chained(const struct scene *s)
{
    return s->act == XM23_KIND_CHAIN || shared_frame(s);
}

/* A handler that was chained onto a frame of the application, which are those of SVC. */
static void add_chained(struct text *t, const struct scene *s)
{
    addf(t, "device %u, chained", s->finding[XM23_FINDING_RUNNING]);
    if (shared_frame(s))
        addf(t, " after that of device %u", s->finding[XM23_FINDING_VECTOR]);
    addf(t, " onto a frame of SVC");
}

/* One in a frame of its own, or chained onto another's. */
static void add_entered(struct text *t, const struct scene *s, const char *comma)
{
    const char *what = s->act == XM23_KIND_FAULT ? "fault" : s->act == XM23_KIND_TRAP ? "SVC" : "device";
    if (shared_frame(s))
        addf(t, "device %u, chained onto the frame of ", s->finding[XM23_FINDING_RUNNING]);
    addf(t, "%s %u%s entered", what, s->finding[XM23_FINDING_VECTOR], shared_frame(s) ? "" : comma);
}

/* `handler of device 1 entered at step 50`, with a comma where the sentence goes on behind one. */
static void add_handler(struct text *t, const struct scene *s, const char *comma)
{
    addf(t, "handler of ");
    if (s->act == XM23_KIND_CHAIN)
        add_chained(t, s);
    else
        add_entered(t, s, comma);
    addf(t, " at step %lu", (unsigned long)get_long(s->finding, XM23_FINDING_OPENED));
}

static void add_where(struct text *t, const struct scene *s)
{
    addf(t, " at step %lu, PC $%04X, in the ", (unsigned long)get_long(s->finding, XM23_FINDING_STEP),
        get_word(s->finding, XM23_FINDING_ADDRESS));
    if (by_handler(s->finding))
        add_handler(t, s, "");
    else
        addf(t, "application");
}

/* ---- a sentence for each kind */

static void add_start(struct text *t, const struct scene *s)
{
    static const char *const words[] = {"asleep", "halted", "with a line waiting"};
    unsigned detail = s->finding[XM23_FINDING_DETAIL], many = 0;
    addf(t, "the run starts, at step %lu, ", (unsigned long)get_long(s->finding, XM23_FINDING_STEP));
    for (unsigned i = 0; i < 3; i++)
        if (detail >> i & 1)
            addf(t, "%s%s", many++ ? " and " : "", words[i]);
}

static void add_fault(struct text *t, const struct scene *s)
{
    unsigned vector = s->finding[XM23_FINDING_DETAIL];
    if (vector == XM23_NO_VECTOR)
        addf(t, "a fault that halts");
    else
        addf(t, "fault %u", vector);
    add_where(t, s);
    if (vector != XM23_NO_VECTOR)
        addf(t, ": %s", fault_name(vector));
}

static void add_open(struct text *t, const struct scene *s, const struct verdict *v)
{
    addf(t, "the ");
    add_handler(t, s, "");
    addf(t, "%s never returned; the run ended after %lu steps", is_chained(s) ? "," : "", (unsigned long)v->steps);
}

/* R0 to R4 and SP that differ, as the finding says: what is held at the entry, and what is found at the return. */
static unsigned add_registers(struct text *t, const struct scene *s)
{
    static const struct {
        const char *name;
        unsigned at;
    } all[] = {{"R0", 0}, {"R1", 2}, {"R2", 4}, {"R3", 6}, {"R4", 8}, {"SP", XM23_RECORD_REGISTER(6)}};
    unsigned detail = s->finding[XM23_FINDING_DETAIL], many = 0;
    for (unsigned i = 0; i < 6; i++)
        if (detail >> i & 1)
            addf(t, "%s%s was $%04X, is $%04X", many++ ? "; " : "", all[i].name, get_word(s->held.record, all[i].at),
                get_word(s->found.record, all[i].at));
    return many;
}

/* The same of the frame's bytes, which are from where SP was at the entry. */
static unsigned add_frame_bytes(struct text *t, const struct scene *s, unsigned many)
{
    static const char *const words[] = {"CEX", "PSW", "LR", "PC"};
    unsigned sp = get_word(s->held.record, XM23_RECORD_REGISTER(6)) & 0xFFFE;
    for (unsigned i = 0; i < 8; i++) {
        unsigned at = (sp + i) & 0xFFFF, was = s->held.memory[at], is = s->found.memory[at];
        if (was != is)
            addf(t, "%sthe frame's byte $%04X (%s) was $%02X, is $%02X", many++ ? "; " : "", at, words[i / 2], was, is);
    }
    return many;
}

/* A frame that lies in device registers may be changed by the events of the step itself, which has no values here. */
static void add_changed(struct text *t, const struct scene *s)
{
    unsigned many;
    add_handler(t, s, ",");
    addf(t, ", returned at step %lu: ", (unsigned long)get_long(s->finding, XM23_FINDING_STEP));
    many = add_registers(t, s);
    if (s->finding[XM23_FINDING_DETAIL] & 0x40)
        many = add_frame_bytes(t, s, many);
    if (!many)
        addf(t, "a byte of its frame is another");
    if (shared_frame(s))
        addf(t, " (by it, or by a handler before it in that frame)");
}

/* What the application did: the first byte of a register or of a handler's, or SLP. */
static void add_application_act(struct text *t, const struct scene *s, unsigned kind)
{
    unsigned at = get_word(s->finding, XM23_FINDING_ADDRESS);
    if (kind == XM23_FOUND_SLEEP)
        addf(t, "the application set SLP");
    else if (kind == XM23_FOUND_DEVICE)
        addf(t, "the application read $%04X, a register of device %u", at, at / 2);
    else
        addf(t, "the application read $%04X, which a handler or its entry wrote last", at);
    addf(t, ", at step %lu, PC $%04X", (unsigned long)get_long(s->finding, XM23_FINDING_STEP),
        get_word(s->found.record, XM23_RECORD_REGISTER(7)));
}

static void add_words(struct text *t, const struct verdict *v, const struct scene *s, unsigned kind)
{
    switch (kind) {
    case XM23_FOUND_START: add_start(t, s); break;
    case XM23_FOUND_FAULT: add_fault(t, s); break;
    case XM23_FOUND_RETURN:
        addf(t, "a return with no frame open");
        add_where(t, s);
        break;
    case XM23_FOUND_SVC:
        addf(t, "SVC %u", s->finding[XM23_FINDING_DETAIL]);
        add_where(t, s);
        break;
    case XM23_FOUND_OPEN: add_open(t, s, v); break;
    case XM23_FOUND_CHANGED: add_changed(t, s); break;
    default: add_application_act(t, s, kind);
    }
}

/* ---- the verdict */

/* A handler that never returned is found at the close, whatever step opened its frame. */
static uint64_t found_at(const struct verdict *v, unsigned kind)
{
    return kind == XM23_FOUND_OPEN ? UINT64_MAX : get_long(finding_of(v, kind), XM23_FINDING_STEP);
}

/* The kinds that are found, by the steps that tell them; of one step the lower kind first. */
static void by_step(struct verdict *v, uint32_t kinds)
{
    for (unsigned kind = 0; kind < KINDS; kind++) {
        unsigned i = v->many;
        if (!(kinds >> kind & 1))
            continue;
        for (; i && found_at(v, v->kinds[i - 1]) > found_at(v, kind); i--)
            v->kinds[i] = v->kinds[i - 1];
        v->kinds[i] = kind;
        v->many++;
    }
}

struct verdict *judge_run(const struct paper *p, const struct machine *before)
{
    static struct scene s;
    struct verdict *v = (struct verdict *)room_for(NULL, sizeof *v);
    uint64_t reply;
    memset(v, 0, sizeof *v);
    memcpy(&s.found, before, sizeof s.found);
    reply = xm23_judge(s.found.memory, sizeof s.found.memory, s.found.record, sizeof s.found.record, p->event_bytes,
                       XM23_EVENT_SIZE * p->many_events, v->writers, sizeof v->writers, v->findings, sizeof v->findings,
                       p->steps);
    v->refusal = XM23_JUDGE_REFUSAL(reply);
    v->reason = XM23_JUDGE_REASON(reply);
    v->steps = XM23_JUDGE_STEPS(reply);
    by_step(v, XM23_JUDGE_KINDS(reply));
    for (unsigned i = 0; i < v->many; i++) {
        set_scene(&s, p, before, finding_of(v, v->kinds[i]));
        add_words(&v->words[v->kinds[i]], v, &s, v->kinds[i]);
        v->acts[v->kinds[i]] = (uint8_t)s.act;
    }
    return v;
}

void drop_verdict(struct verdict *v)
{
    for (unsigned i = 0; v && i < KINDS; i++)
        drop_text(&v->words[i]);
    free(v);
}

void add_sound(struct text *t)
{
    addf(t, "sound: the program ended as it would have with no events");
}

void add_deep(struct text *t, const struct verdict *v)
{
    addf(t, "%u frames of devices are open together: the run was judged no further than its first %lu steps",
        (unsigned)XM23_MAX_FRAMES, (unsigned long)v->steps);
}

/* ---- whether a run was either of the two */

/* Of a run that is judged no further nothing is said. */
static int none_found(const struct verdict *v, unsigned first, unsigned last)
{
    for (unsigned i = 0; i < v->many; i++)
        if (v->kinds[i] >= first && v->kinds[i] <= last)
            return 0;
    return !v->refusal && v->reason != XM23_REASON_DEEP;
}

int is_sound(const struct verdict *v)
{
    return none_found(v, XM23_FOUND_START, XM23_FOUND_CHANGED);
}

int is_undisturbed(const struct verdict *v)
{
    return none_found(v, XM23_FOUND_SLEEP, XM23_FOUND_FOREIGN);
}

/* ---- in short */

static void add_changes(struct text *t, unsigned detail)
{
    static const char *const words[] = {"R0", "R1", "R2", "R3", "R4", "SP", "frame"};
    unsigned many = 0;
    for (unsigned i = 0; i < 7; i++)
        if (detail >> i & 1)
            addf(t, "%s%s", many++ ? " " : "", words[i]);
    addf(t, " changed");
}

/* What a handler is for: one that was chained is a device's. */
static const char *handler_word(const struct verdict *v, unsigned kind)
{
    const uint8_t *f = finding_of(v, kind);
    unsigned act = f[XM23_FINDING_VECTOR] == f[XM23_FINDING_RUNNING] ? v->acts[kind] : XM23_KIND_CHAIN;
    return act == XM23_KIND_FAULT ? "fault" : act == XM23_KIND_TRAP ? "SVC" : "device";
}

static void add_short(struct text *t, const struct verdict *v, unsigned kind)
{
    const uint8_t *f = finding_of(v, kind);
    static const char *const words[] = {"start not calm", "fault", "return with no frame", "SVC in a handler",
                                        "never returned", "", "SLP set", "device register read", "handler's byte read"};
    unsigned detail = f[XM23_FINDING_DETAIL], runs = f[XM23_FINDING_RUNNING];
    if (kind == XM23_FOUND_CHANGED)
        add_changes(t, detail);
    else if (kind == XM23_FOUND_FAULT && detail != XM23_NO_VECTOR)
        addf(t, "fault %u", detail);
    else
        addf(t, "%s", words[kind]);
    if (kind >= XM23_FOUND_DEVICE)
        addf(t, " $%04X", get_word(f, XM23_FINDING_ADDRESS));
    if (runs != XM23_NO_VECTOR)
        addf(t, ", %s %u", handler_word(v, kind), runs);
    addf(t, ", step %lu", (unsigned long)get_long(f, XM23_FINDING_STEP));
}

/* The first that is found of the kinds from `first` to `last`. */
static void add_cell(struct text *t, const struct verdict *v, unsigned first, unsigned last, const char *none)
{
    for (unsigned i = 0; i < v->many; i++)
        if (v->kinds[i] >= first && v->kinds[i] <= last) {
            add_short(t, v, v->kinds[i]);
            return;
        }
    addf(t, "%s", none);
}

void add_handlers(struct text *t, const struct verdict *v)
{
    add_cell(t, v, XM23_FOUND_START, XM23_FOUND_CHANGED, "sound");
}

void add_application(struct text *t, const struct verdict *v)
{
    add_cell(t, v, XM23_FOUND_SLEEP, XM23_FOUND_FOREIGN, "undisturbed");
}
