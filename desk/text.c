/* A text that grows, the forms in which bytes of strangers are shown, and messages. */
#include <stdarg.h>
#include <stdio.h>
#include <stdlib.h>
#include <string.h>

#include "text.h"
#include "desk.h"

#define MOST_NAME 1000 /* bytes of a name or a title on a page */
#define MOST_WORD 40   /* bytes of a word in a message */

void *room_for(void *old, size_t bytes)
{
    void *new = realloc(old, bytes ? bytes : 1);
    if (!new) {
        fputs("xm23: no memory is left\n", stderr);
        exit(UNREADABLE);
    }
    return new;
}

/* Room for `more` bytes and a 0 behind them. */
static void widen(struct text *t, size_t more)
{
    if (t->room - t->length > more)
        return;
    t->room = 2 * t->room + more + 64;
    t->at = (char *)room_for(t->at, t->room);
}

void add_bytes(struct text *t, const void *bytes, size_t length)
{
    widen(t, length);
    if (length)
        memcpy(t->at + t->length, bytes, length);
    t->length += length;
    t->at[t->length] = 0;
}

/* Into the room that there is, and once more where it was not enough. */
static void add_list(struct text *t, const char *format, va_list list)
{
    va_list again;
    int length;
    va_copy(again, list);
    widen(t, 128);
    length = vsnprintf(t->at + t->length, t->room - t->length, format, list);
    if (length >= 0 && (size_t)length >= t->room - t->length) {
        widen(t, (size_t)length);
        vsnprintf(t->at + t->length, t->room - t->length, format, again);
    }
    va_end(again);
    t->length += length > 0 ? (size_t)length : 0;
}

void addf(struct text *t, const char *format, ...)
{
    va_list list;
    va_start(list, format);
    add_list(t, format, list);
    va_end(list);
}

/*
 * Characters that are not shown as they are, in order: controls, the backslash, those that have no shape of their own
 * or turn, join or break what stands around them, surrogates, those of private use, and all from where nothing is
 * assigned but tags and private use.
 */
static const struct {
    uint32_t first, last;
} hidden[] = {
    {0, 0x1F}, {'\\', '\\'}, {0x7F, 0x9F}, {0xAD, 0xAD}, {0x34F, 0x34F}, {0x600, 0x605}, {0x61C, 0x61C},
    {0x6DD, 0x6DD}, {0x70F, 0x70F}, {0x890, 0x891}, {0x8E2, 0x8E2}, {0x115F, 0x1160}, {0x17B4, 0x17B5},
    {0x180B, 0x180F}, {0x200B, 0x200F}, {0x2028, 0x202E}, {0x2060, 0x206F}, {0x3164, 0x3164}, {0xD800, 0xF8FF},
    {0xFDD0, 0xFDEF}, {0xFE00, 0xFE0F}, {0xFEFF, 0xFEFF}, {0xFFA0, 0xFFA0}, {0xFFF0, 0xFFFB}, {0xFFFE, 0xFFFF},
    {0x110BD, 0x110BD}, {0x110CD, 0x110CD}, {0x13430, 0x1343F}, {0x1BCA0, 0x1BCA3}, {0x1D173, 0x1D17A},
    {0x1FFFE, 0x1FFFF}, {0x2FFFE, 0x2FFFF}, {0x3FFFE, UINT32_MAX},
};

static int is_hidden(uint32_t code)
{
    size_t i = 0;
    while (hidden[i].last < code)
        i++;
    return hidden[i].first <= code;
}

/* The character that the first bytes are in UTF-8, and how many they are; 0 where they are none. */
static size_t decoded(const unsigned char *at, size_t length, uint32_t *code)
{
    static const uint32_t least[] = {0, 0, 0x80, 0x800, 0x10000};
    size_t size = at[0] < 0x80 ? 1 : at[0] < 0xC0 ? 0 : at[0] < 0xE0 ? 2 : at[0] < 0xF0 ? 3 : at[0] < 0xF8 ? 4 : 0;
    if (!size || size > length)
        return 0;
    *code = size == 1 ? at[0] : at[0] & 0x7Fu >> size;
    for (size_t i = 1; i < size; i++) {
        if (at[i] >> 6 != 2)
            return 0;
        *code = *code << 6 | (at[i] & 63u);
    }
    return *code < least[size] ? 0 : size;
}

/* How many of the first bytes are a character that is shown as it is, one of `kept` too. */
static size_t shown(const char *bytes, size_t length, const char *kept)
{
    uint32_t code = 0;
    size_t size = decoded((const unsigned char *)bytes, length, &code);
    if (size == 1 && code && strchr(kept, (int)code))
        return 1;
    return size && !is_hidden(code) ? size : 0;
}

void add_byte(struct text *t, const char *mark, unsigned byte)
{
    static const char digits[] = "0123456789ABCDEF";
    char both[2] = {digits[byte >> 4 & 15], digits[byte & 15]};
    add_bytes(t, mark, strlen(mark));
    add_bytes(t, both, 2);
}

/* Every text of strangers comes through here. What is no character that is shown is \xHH, byte by byte. */
static void add_shown(struct text *t, const char *bytes, size_t length, const char *kept, const char *coded)
{
    for (size_t i = 0, size; i < length; i += size ? size : 1) {
        size = shown(bytes + i, length - i, kept);
        if (!size)
            add_byte(t, "\\x", (unsigned char)bytes[i]);
        else if (strchr(coded, bytes[i]))
            addf(t, "&#%u;", (unsigned char)bytes[i]);
        else
            add_bytes(t, bytes + i, size);
    }
}

#define KEPT "\n\t"      /* in a text of many lines */
#define CODED "<>&\""    /* in HTML */

void add_plain(struct text *t, const char *bytes, size_t length)
{
    add_shown(t, bytes, length, "", "");
}

void add_plain_lines(struct text *t, const char *bytes, size_t length)
{
    add_shown(t, bytes, length, KEPT, "");
}

void add_html(struct text *t, const char *bytes, size_t length)
{
    add_shown(t, bytes, length, "", CODED);
}

void add_html_lines(struct text *t, const char *bytes, size_t length)
{
    add_shown(t, bytes, length, KEPT, CODED);
}

void add_name(struct text *t, const char *name)
{
    size_t length = strlen(name);
    add_html(t, name, length < MOST_NAME ? length : MOST_NAME);
    if (length > MOST_NAME)
        addf(t, " ..");
}

/* Whether a spreadsheet takes a cell for a formula by its first character, in either width; or it begins as one that
 * is kept from it. */
static int like_formula(const char *bytes, size_t length)
{
    static const char wide[][4] = {"\xEF\xBC\x9D", "\xEF\xBC\x8B", "\xEF\xBC\x8D", "\xEF\xBC\xA0"};
    for (size_t i = 0; i < 4; i++)
        if (length >= 3 && memcmp(bytes, wide[i], 3) == 0)
            return 1;
    return length && memchr("=+-@\t\r'", bytes[0], 7);
}

void add_csv(struct text *t, const char *bytes, size_t length)
{
    struct text cell = {0};
    int quoted;
    addf(&cell, "%s", like_formula(bytes, length) ? "'" : "");
    add_plain(&cell, bytes, length);
    quoted = strpbrk(cell.at, ",\"") != NULL;
    addf(t, "%s", quoted ? "\"" : "");
    for (size_t i = 0; i < cell.length; i++)
        if (cell.at[i] == ';')
            add_byte(t, "\\x", ';'); /* some spreadsheets split a row there too */
        else
            add_bytes(t, cell.at[i] == '"' ? "\"\"" : cell.at + i, cell.at[i] == '"' ? 2 : 1);
    addf(t, "%s", quoted ? "\"" : "");
    drop_text(&cell);
}

void drop_text(struct text *t)
{
    free(t->at);
    memset(t, 0, sizeof *t);
}

/* One line on standard error, whatever is in it, by one write. */
static void tell(struct text *t)
{
    struct text line = {0};
    add_plain(&line, t->at, t->length);
    addf(&line, "\n");
    fwrite(line.at, 1, line.length, stderr);
    drop_text(&line);
    drop_text(t);
}

int ends_in(const char *name, const char *end)
{
    size_t length = strlen(name), letters = strlen(end);
    return length >= letters && strcmp(name + length - letters, end) == 0;
}

int has_order_mark(const char *bytes, size_t length)
{
    return (length >= 3 && memcmp(bytes, "\xEF\xBB\xBF", 3) == 0) ||
           (length >= 2 && (memcmp(bytes, "\xFF\xFE", 2) == 0 || memcmp(bytes, "\xFE\xFF", 2) == 0));
}

void say_text(const char *format, ...)
{
    struct text t = {0};
    va_list list;
    addf(&t, "xm23: ");
    va_start(list, format);
    add_list(&t, format, list);
    va_end(list);
    tell(&t);
}

void add_at(struct text *t, const char *name, uint32_t line)
{
    addf(t, "%s:", *name ? name : "''");
    if (line)
        addf(t, "%lu:", (unsigned long)line);
    addf(t, " ");
}

void say_at(const char *name, uint32_t line, const char *format, ...)
{
    struct text t = {0};
    va_list list;
    add_at(&t, name, line);
    va_start(list, format);
    add_list(&t, format, list);
    va_end(list);
    tell(&t);
}

void say_of(const char *name, uint32_t line, const char *word, size_t length, const char *what)
{
    struct text t = {0};
    add_at(&t, name, line);
    addf(&t, "'");
    add_bytes(&t, word, length < MOST_WORD ? length : MOST_WORD);
    addf(&t, "%s' %s", length < MOST_WORD ? "" : "..", what);
    tell(&t);
}
