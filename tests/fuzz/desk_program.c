/*
 * A target of libFuzzer: a program as it is handed in. The first byte says whether the rest is S-records, a source, or
 * files of a folder, cut at bytes 255. Held: it is loaded, or refused with a sentence and one line that may be shown;
 * what is loaded is in memory under a paper, with its PC; a listing may be shown, on a terminal and on a page, and ends
 * in so many lines; no two files of a folder that is loaded have a byte, and its PC is that of one of them.
 */
#include <string.h>

#include "desk_judge.h"

static void hold_loaded(const struct program *program, const struct assembled *a)
{
    static const char text[] = "steps 0\nwords $0100 1\n";
    static struct machine m;
    static struct paper p;
    struct fault f = {0};
    struct text t = {0};
    unsigned others = 0;
    add_bytes(&t, text, sizeof text - 1);
    must(take_paper("a paper", t.at, t.length, &p) == DONE, "the paper", text, sizeof text - 1);
    must(open_program(&p, program, &m, &f), "a program under a paper", program->name, strlen(program->name));
    must(get_word(m.record, XM23_RECORD_REGISTER(7)) == a->pc, "its PC", program->name, strlen(program->name));
    for (unsigned at = 0; at < XM23_MEMORY_SIZE; at++)
        others += m.memory[at] != (p.set[at] ? p.memory[at] : a->set[at] ? a->memory[at] : 0);
    must(!others, "its memory", program->name, strlen(program->name));
    drop_paper(&p);
}

static void hold_listing(const struct handed *h, const struct assembled *a, size_t most)
{
    struct text lines = {0}, plain = {0}, html = {0};
    add_source_listing(&lines, h->bytes, h->length, a, most);
    add_plain_lines(&plain, lines.at, lines.length);
    add_html_lines(&html, lines.at, lines.length);
    must(may_be_shown(plain.at, plain.length, "\n\t"), "a listing", plain.at, plain.length);
    must(may_be_shown(html.at, html.length, "\n\t") && !strpbrk(html.at, "<>\""), "a page's", html.at, html.length);
    must(plain.at[plain.length - 1] == '\n', "its last line", plain.at, plain.length);
    drop_text(&lines);
    drop_text(&plain);
    drop_text(&html);
}

static void hold_source(const struct handed *h, const struct assembled *a)
{
    uint16_t value = 0;
    must(source_value(h->bytes, h->length, "($10+#4)", &value) == XM23_ACCEPTED && value == 20, "a value", h->bytes,
         h->length);
    hold_listing(h, a, 0);
    hold_listing(h, a, 8);
}

/* Each file by itself is a part of the whole, and no byte is in two. */
static void hold_folder(const struct program *p, const struct assembled *all)
{
    static struct assembled one;
    static unsigned many[XM23_MEMORY_SIZE];
    struct fault f = {0};
    unsigned wrong = 0, starts = 0;
    memset(many, 0, sizeof many);
    for (unsigned i = 0; i < p->many; i++) {
        must(load_file(&p->files[i], &one, &f), "a file of a folder", p->files[i].bytes, p->files[i].length);
        starts += one.pc == all->pc;
        for (unsigned at = 0; at < XM23_MEMORY_SIZE; at++) {
            many[at] += one.set[at];
            wrong += one.set[at] && one.memory[at] != all->memory[at];
        }
    }
    for (unsigned at = 0; at < XM23_MEMORY_SIZE; at++)
        wrong += many[at] != all->set[at];
    must(!wrong && starts, "a folder", p->name, strlen(p->name));
}

/* The bytes as one file, or cut into those of a folder. */
static void cut(struct program *p, const uint8_t *data, size_t size, unsigned kind)
{
    static const char *const names[MOST_FILES] = {"a\n.asm", "b.s19", "c.ASM", "d.asm",      "e.S19",
                                                  "f.asm",   "g.s19", "h.asm", "program.asm"};
    for (unsigned i = 0; i < (p->folder ? MOST_FILES : 1); i++) {
        const uint8_t *end = p->folder && size && i + 1 < MOST_FILES ? (const uint8_t *)memchr(data, 255, size) : NULL;
        size_t length = end ? (size_t)(end - data) : size;
        struct text t = {0};
        add_bytes(&t, data, length);
        add_file(p, p->folder ? names[i] : kind & 1 ? "a\nsource.asm" : "a\nprogram.s19", t.at, t.length);
        if (!end)
            return;
        data += length + 1;
        size -= length + 1;
    }
}

int LLVMFuzzerTestOneInput(const uint8_t *data, size_t size)
{
    static struct assembled a;
    static struct program p;
    struct fault f = {0};
    unsigned kind = size ? data[0] : 0;
    p.name = kind & 1 ? "a\nsource.asm" : "a\nprogram.s19";
    p.folder = kind >> 1 & 1;
    cut(&p, data + (size > 0), size - (size > 0), kind);
    if (!load_program(&p, &a, &f)) {
        must((f.refusal || p.folder) && f.why.length, "a refusal", p.name, strlen(p.name));
        listen_to();
        say_fault(p.name, &f);
        end_listening(f.hint[0] ? 2 : 1);
    } else {
        hold_loaded(&p, &a);
        if (p.folder)
            hold_folder(&p, &a);
        else if (is_source(p.name))
            hold_source(&p.files[0], &a);
    }
    drop_text(&f.why);
    drop_program(&p);
    return 0;
}
