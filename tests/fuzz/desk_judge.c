/* What the targets of the desk share: messages are caught, and every text is held to what may be shown. */
#include <stdio.h>
#include <stdlib.h>
#include <string.h>

#include "desk_judge.h"

void must(int holds, const char *what, const char *text, size_t length)
{
    if (holds)
        return;
    fprintf(stderr, "%s: a difference\n", what);
    fwrite(text, 1, length, stderr);
    fputs("\n", stderr);
    abort();
}

/* ---- texts: a judge of its own */

/* A character's code and its bytes; 0 bytes where it is none of UTF-8. */
static size_t one_character(const unsigned char *at, size_t length, unsigned long *code)
{
    static const struct {
        unsigned long first, last;
        unsigned mark, mask;
    } sizes[] = {
        {0, 0x7F, 0, 0x80}, {0x80, 0x7FF, 0xC0, 0xE0}, {0x800, 0xFFFF, 0xE0, 0xF0}, {0x10000, 0x10FFFF, 0xF0, 0xF8}};
    for (size_t size = 1; size <= 4 && size <= length; size++) {
        if ((at[0] & sizes[size - 1].mask) != sizes[size - 1].mark)
            continue;
        *code = at[0] & ~sizes[size - 1].mask & 0xFF;
        for (size_t i = 1; i < size; i++)
            *code = (at[i] & 0xC0) == 0x80 ? *code * 64 + (at[i] & 63) : 0x200000;
        return *code >= sizes[size - 1].first && *code <= sizes[size - 1].last ? size : 0;
    }
    return 0;
}

static int unfit(unsigned long code)
{
    return code < 32 || (code >= 0x7F && code < 0xA0) || code == 0xAD || code == 0x61C || code == 0x180E ||
           (code >= 0x200B && code <= 0x200F) || (code >= 0x2028 && code <= 0x202E) ||
           (code >= 0x2060 && code <= 0x206F) || (code >= 0xD800 && code <= 0xF8FF) || code == 0xFEFF ||
           (code >= 0xFFF9 && code <= 0xFFFB) || code >= 0xE0000;
}

/* Whether a text may be shown: characters alone, a backslash only before x and two digits. */
int may_be_shown(const char *text, size_t length, const char *kept)
{
    for (size_t i = 0, size; i < length; i += size) {
        unsigned long code = 0;
        size = one_character((const unsigned char *)text + i, length - i, &code);
        if (!size || (unfit(code) && !(code && code < 32 && strchr(kept, (int)code))))
            return 0;
        if (code == '\\' && (length - i < 4 || text[i + 1] != 'x' || strspn(text + i + 2, "0123456789ABCDEF") < 2))
            return 0;
    }
    return 1;
}

/* The bytes that a text stands for. */
void add_undone(struct text *t, const char *text, size_t length)
{
    for (size_t i = 0; i < length; i++) {
        char digits[3] = {0}, byte;
        if (text[i] != '\\') {
            add_bytes(t, text + i, 1);
            continue;
        }
        memcpy(digits, text + i + 2, 2);
        byte = (char)strtoul(digits, NULL, 16);
        add_bytes(t, &byte, 1);
        i += 3;
    }
}

/* ---- messages */

static char *said;
static size_t said_length;
static FILE *heard;

void listen_to(void)
{
    heard = stderr;
    stderr = open_memstream(&said, &said_length);
    if (!stderr)
        abort();
}

/* What was said since: nothing, or one line or more, at most so many, that may be shown. */
void end_listening(int most)
{
    int lines = 0;
    fclose(stderr);
    stderr = heard;
    for (size_t i = 0; i < said_length; i++)
        lines += said[i] == '\n';
    must(most ? said_length > 1 && said[said_length - 1] == '\n' && may_be_shown(said, said_length, "\n")
              : said_length == 0, "a message", said, said_length);
    must((lines > 0) == (most > 0) && lines <= most, "its lines", said, said_length);
    free(said);
}
