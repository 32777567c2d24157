/*
 * A target of libFuzzer: the page of a program, or of one of its steps. The string has a name, a title and a program,
 * S-records of random words or a source. Held: the page has 400,000 bytes at most; it is HTML of few tags, each closed
 * in its order, with texts that may be shown and no other byte; its script and style are the desk's own, its data
 * numbers and texts without a tag; the name as text and as a cell gives its bytes back.
 */
#include <stdio.h>
#include <stdlib.h>
#include <string.h>
#include <unistd.h>

#include "desk_judge.h"

/* ---- a judge of pages */

struct page {
    const char *at, *end;
    char open[32][16];
    unsigned depth;
};

static int starts(const struct page *p, const char *with)
{
    return (size_t)(p->end - p->at) >= strlen(with) && memcmp(p->at, with, strlen(with)) == 0;
}

static int pass(struct page *p, const char *over)
{
    if (!starts(p, over))
        return 0;
    p->at += strlen(over);
    return 1;
}

/* Text up to the next tag: & only as &#N;, no > and no quote. */
static int text(struct page *p)
{
    const char *from = p->at;
    for (; p->at < p->end && *p->at != '<'; p->at++) {
        if (*p->at == '>' || (*p->at == '&' && (p->at[1] != '#' || p->at[2 + strspn(p->at + 2, "0123456789")] != ';')))
            return 0;
    }
    return may_be_shown(from, (size_t)(p->at - from), "\n\t");
}

#define LETTERS "abcdefghijklmnopqrstuvwxyz"

/* A tag's words: name="value", or a name alone; 2 where the tag is closed at once, as those of a picture are. */
static int attributes(struct page *p)
{
    while (pass(p, " ")) {
        p->at += strspn(p->at, LETTERS "ABCDEFGHIJKLMNOPQRSTUVWXYZ0123456789-");
        if (pass(p, "=\"")) {
            size_t length = strcspn(p->at, "\"<>&\n\t");
            if (!may_be_shown(p->at, length, ""))
                return 0;
            p->at += length;
            if (!pass(p, "\""))
                return 0;
        }
    }
    return pass(p, "/>") ? 2 : pass(p, ">");
}

static int is_void(const char *name)
{
    return !strcmp(name, "meta") || !strcmp(name, "br") || !strcmp(name, "input");
}

/* What stands in a style or a script: the desk's own, or data in which no tag can begin. */
static int inside(struct page *p, const char *name, int data)
{
    size_t length;
    if (strcmp(name, "style") == 0)
        return pass(p, "\n") && pass(p, page_css);
    if (strcmp(name, "script") != 0)
        return 1;
    if (!data)
        return pass(p, "\n") && pass(p, walk_js);
    length = strcspn(p->at, "<>&");
    if (!may_be_shown(p->at, length, "\n"))
        return 0;
    p->at += length;
    return 1;
}

static int tag(struct page *p)
{
    char name[16] = {0};
    size_t length;
    int ended, closing = pass(p, "</"), data = starts(p, "<script type=\"application/json\" id=\"data\">");
    if (!closing && !pass(p, "<"))
        return 0;
    length = strspn(p->at, LETTERS "123456789");
    if (!length || length > 15)
        return 0;
    memcpy(name, p->at, length);
    p->at += length;
    if (closing)
        return p->depth > 0 && strcmp(p->open[--p->depth], name) == 0 && pass(p, ">");
    ended = attributes(p);
    if (!ended || p->depth == 32)
        return 0;
    if (!is_void(name) && ended == 1)
        memcpy(p->open[p->depth++], name, sizeof name);
    return inside(p, name, data);
}

static void hold_page(const struct text *t)
{
    struct page p = {t->at, t->at + t->length, {{0}}, 0};
    int good = t->length <= 400000 && pass(&p, "<!DOCTYPE html>");
    while (good && p.at < p.end)
        good = *p.at == '<' ? tag(&p) : text(&p);
    must(good && p.depth == 0, "a page", p.at, (size_t)(p.end - p.at) < 200 ? (size_t)(p.end - p.at) : 200);
}

/* ---- a name as text and as a cell */

static void hold_name(const char *name, size_t length)
{
    struct text plain = {0}, cell = {0}, back = {0};
    size_t quote;
    add_bytes(&plain, "", 0);
    add_bytes(&back, "", 0);
    add_plain(&plain, name, length);
    add_undone(&back, plain.at, plain.length);
    must(may_be_shown(plain.at, plain.length, "") && back.length == length && !memcmp(back.at, name, length), "a name",
         name, length);
    add_csv(&cell, name, length);
    quote = cell.at[0] == '"';
    must(!strchr("=+-@\t\r", cell.at[quote]) || !cell.at[quote], "a cell", cell.at, cell.length);
    must(quote || !strpbrk(cell.at, ",\""), "a cell without quotes", cell.at, cell.length);
    drop_text(&plain);
    drop_text(&cell);
    drop_text(&back);
}

/* ---- the string */

struct string {
    const uint8_t *at;
    size_t left;
};

static uint8_t next(struct string *s)
{
    if (!s->left)
        return 0;
    s->left--;
    return *s->at++;
}

/* Some of its bytes; zeros and line feeds, which no name of a file or title can hold, left out. */
static void take(struct string *s, struct text *t, size_t most)
{
    size_t many = next(s) % most;
    add_bytes(t, "", 0);
    for (size_t i = 0; i < many && s->left; i++) {
        uint8_t byte = next(s);
        if (byte && byte != '\n')
            add_bytes(t, &byte, 1);
    }
}

static void write_paper(struct text *t, const struct text *title, unsigned kind)
{
    addf(t, "steps %u\nstart SP=$0800\ndevice 0 $11\ndevice 2 $10\n", kind & 2 ? 1500u : 90u);
    for (unsigned v = 0; v < 16; v++)
        addf(t, "vector %u $%X $%X\n", v, v % 4 << 5, v % 2 ? 0x2000u : 0x1004u);
    addf(t, "5 0 1\n9 0 2\n70 0 3\ntitle ");
    add_bytes(t, title->at, title->length);
    addf(t, "\n%s", kind & 4 ? "expect 0 90 * * * * * * 0800 * * * * 1\n" : kind & 8 ? "expect R11\n" : "");
    if (kind & 16)
        addf(t, "award 3 sound\naward 2 R0 >= 2\naward 1 screen 2 = \"<&\\x22\\x00\"\naward 1 bytes $1000 != 1 2\n"
                "pass 4\n");
}

/* A source as it is; else words from $1000 on, which show and store something by and by. */
static void add_program(struct text *t, struct string *s, unsigned kind)
{
    static uint8_t memory[XM23_MEMORY_SIZE], lines[XM23_SREC_LENGTH(2048)];
    size_t many = s->left < 2048 ? s->left : 2048;
    if (kind & 1) {
        add_bytes(t, s->at, s->left);
        return;
    }
    memcpy(memory + 0x1000, s->at, many);
    many = XM23_WRITTEN(
        xm23_write_srec(memory, sizeof memory, 0x1000, (uint32_t)many, 0x1000, lines, sizeof lines));
    add_bytes(t, lines, many);
}

static void put_file(const char *path, const struct text *t)
{
    FILE *file = fopen(path, "wb");
    must(file && fwrite(t->at, 1, t->length, file) == t->length && fclose(file) == 0, "a file", path, strlen(path));
}

int LLVMFuzzerTestOneInput(const uint8_t *data, size_t size)
{
    static struct marked m;
    static struct paper p;
    struct string s = {data, size};
    struct sitting sitting = {0};
    struct text name = {0}, title = {0}, paper = {0}, program = {0}, path = {0}, page = {0};
    unsigned kind = next(&s);
    sitting.asked = kind >> 6 & 1;
    sitting.around = sitting.asked ? 6u * next(&s) : 0;
    take(&s, &name, 64);
    take(&s, &title, 64);
    write_paper(&paper, &title, kind);
    add_program(&program, &s, kind);
    hold_name(name.at, name.length);
    must(take_paper("a\npaper", paper.at, paper.length, &p) == DONE, "the paper", title.at, title.length);
    sitting.paper = &p;
    addf(&path, "%s/page-%ld.%s", getenv("XM23_FOUND"), (long)getpid(), kind & 1 ? "asm" : "s19");
    put_file(path.at, &program);
    must(mark_program(&sitting, path.at, &m), "a file", path.at, path.length);
    unlink(path.at);
    m.row.name = name.at;
    add_page(&page, &sitting, &m);
    hold_page(&page);
    drop_marked(&m);
    drop_paper(&p);
    drop_text(&name);
    drop_text(&title);
    drop_text(&program);
    drop_text(&path);
    drop_text(&page);
    return 0;
}
