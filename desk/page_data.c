/* The walk of a page as data for desk/walk.js: journal, memory, texts, frames, names and screen. */
#include <stdlib.h>
#include <string.h>

#include "page.h"

#define MOST_NAMES 512     /* that who asks for a byte may use */
#define SCREEN_BEFORE 2048 /* bytes of screen text from before the walk */

static void add_base64(struct text *t, const uint8_t *bytes, size_t length)
{
    static const char digits[] = "ABCDEFGHIJKLMNOPQRSTUVWXYZabcdefghijklmnopqrstuvwxyz0123456789+/";
    for (size_t i = 0; i < length; i += 3) {
        size_t many = length - i < 3 ? length - i : 3;
        unsigned group = (unsigned)bytes[i] << 16 | (many > 1 ? bytes[i + 1] << 8 : 0) | (many > 2 ? bytes[i + 2] : 0);
        char four[4] = {digits[group >> 18], digits[group >> 12 & 63], digits[group >> 6 & 63], digits[group & 63]};
        memset(four + many + 1, '=', 3 - many);
        add_bytes(t, four, 4);
    }
}

/* Memory behind the walk, stretches of zeros left out: where each stretch begins, and its bytes. */
static void add_memory_data(struct text *t, const uint8_t *memory)
{
    unsigned at = 0, end, many = 0;
    addf(t, "\"memory\":[");
    while (at < XM23_MEMORY_SIZE) {
        unsigned zeros = 0;
        for (end = at; end < XM23_MEMORY_SIZE && zeros < 24; end++)
            zeros = memory[end] ? 0 : zeros + 1;
        if (end - zeros > at) {
            addf(t, "%s[%u,\"", many++ ? "," : "", at);
            add_base64(t, memory + at, end - zeros - at);
            addf(t, "\"]");
        }
        for (at = end; at < XM23_MEMORY_SIZE && !memory[at];)
            at++;
    }
    addf(t, "],\n");
}

/* Texts, each once: where a text stands in the list. */
struct texts {
    struct text list;
    char *known[2 * MOST_WALK];
    unsigned place[2 * MOST_WALK], many;
};

static unsigned place_of(struct texts *all, const char *text)
{
    unsigned hash = 5381, slot;
    for (const char *c = text; *c; c++)
        hash = 33 * hash + (unsigned char)*c;
    slot = hash % (2 * MOST_WALK);
    while (all->known[slot] && strcmp(all->known[slot], text) != 0)
        slot = (slot + 1) % (2 * MOST_WALK);
    if (!all->known[slot]) {
        all->known[slot] = (char *)room_for(NULL, strlen(text) + 1);
        memcpy(all->known[slot], text, strlen(text) + 1);
        all->place[slot] = all->many++;
        addf(&all->list, "%s\"%s\"", all->many > 1 ? "," : "", text);
    }
    return all->place[slot];
}

static void add_steps_data(struct text *t, const struct walk *w)
{
    static struct texts all;
    memset(&all, 0, sizeof all);
    addf(t, "\"steps\":[");
    for (uint32_t i = 0; i < w->many; i++) {
        const struct step *s = &w->steps[i];
        struct text what = {0};
        if (s->fetched)
            addf(&what, "%04X ", s->word);
        add_what(&what, s);
        addf(t, "%s[%u,%u,%u", i ? "," : "", place_of(&all, what.at), s->stored, s->frame);
        if (stores_device(s))
            addf(t, ",%u", s->at);
        addf(t, "]");
        drop_text(&what);
    }
    addf(t, "],\n\"what\":[%s],\n", all.list.at ? all.list.at : "");
    for (unsigned i = 0; i < 2 * MOST_WALK; i++)
        free(all.known[i]);
    drop_text(&all.list);
}

static void add_frames_data(struct text *t, const struct walk *w)
{
    addf(t, "\"frames\":[null");
    for (unsigned f = 1; f <= w->many_frames; f++) {
        addf(t, ",[%u,%u,%u,\"", w->frames[f].older, w->frames[f].sp, w->frames[f].step);
        add_act(t, w->frames[f].kind, w->frames[f].number);
        addf(t, "\"]");
    }
    addf(t, "],\n");
}

/* Names for who asks for a byte, and of each PC of the walk the label that it is at or behind, each once. */
static void add_names_data(struct text *t, const struct walk *w, const struct names *names)
{
    static uint8_t told[XM23_MEMORY_SIZE];
    unsigned many = 0;
    memset(told, 0, sizeof told);
    addf(t, "\"names\":{");
    for (size_t i = 0; i < names->many && many < MOST_NAMES; i++)
        if (names->each[i].value >= 0 && names->each[i].value < XM23_MEMORY_SIZE) {
            addf(t, "%s\"", many++ ? "," : "");
            add_name_letters(t, &names->each[i]);
            addf(t, "\":%u", (unsigned)names->each[i].value);
        }
    addf(t, "},\n\"places\":{");
    many = 0;
    for (uint32_t i = 0; i < w->many; i++) {
        unsigned pc = step_pc(&w->steps[i]);
        if (told[pc] || !names->label[pc])
            continue;
        told[pc] = 1;
        addf(t, "%s\"%04X\":\"", many++ ? "," : "", pc);
        add_label(t, names, pc);
        addf(t, "\"");
    }
    addf(t, "},\n");
}

/* The screen: its last bytes from before the walk, how many there were before these, and those of the walk by step. */
static void add_screen_data(struct text *t, const struct walk *w, const struct text *screen)
{
    size_t before = w->before, kept = before < SCREEN_BEFORE ? before : SCREEN_BEFORE;
    addf(t, "\"shown\":%lu,\"screen\":\"", (unsigned long)(before - kept));
    if (kept)
        add_base64(t, (const uint8_t *)screen->at + before - kept, kept);
    addf(t, "\",\"log\":[");
    for (uint32_t i = 0; i < w->shown; i++) {
        const uint8_t *record = w->log + XM23_LOG_SIZE * i;
        unsigned long step = get_long(record, XM23_LOG_STEP) - step_count(&w->steps[0]);
        addf(t, "%s[%lu,%u,%u]", i ? "," : "", step, record[XM23_LOG_DEVICE], record[XM23_LOG_BYTE]);
    }
    addf(t, "]");
}

void add_walk_data(struct text *t, const struct walk *w, const struct names *names, const struct text *screen)
{
    const struct part *p = &w->part;
    addf(t, "<script type=\"application/json\" id=\"data\">{\n\"journal\":\"");
    add_base64(t, w->journal, XM23_JOURNAL_SIZE * (size_t)w->many);
    addf(t, "\",\n\"close\":\"");
    add_base64(t, w->end.record, sizeof w->end.record);
    addf(t, "\",\n\"at\":%lu,\"behind\":%lu,\n", (unsigned long)(p->asked ? p->look + 1 : w->many),
        (unsigned long)p->behind);
    add_memory_data(t, w->end.memory);
    add_steps_data(t, w);
    add_frames_data(t, w);
    add_names_data(t, w, names);
    add_screen_data(t, w, screen);
    addf(t, "}\n</script>\n<script>\n%s</script>\n", walk_js);
}
