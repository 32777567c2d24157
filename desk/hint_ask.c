/* What hints stand on: lines of a source and their words, and questions to the library about them. */
#include <stdio.h>
#include <string.h>

#include "hint_ask.h"
#include "xm23.h"

static uint8_t memory[XM23_MEMORY_SIZE];

static uint64_t assembled(const struct text *t)
{
    return xm23_assemble(memory, sizeof memory, (const uint8_t *)t->at, t->length);
}

/* ---- lines and words */

size_t line_start(const char *source, size_t length, uint32_t number)
{
    size_t at = 0;
    for (uint32_t i = 1; i < number && at < length; i++) {
        const char *lf = (const char *)memchr(source + at, '\n', length - at);
        at = lf ? (size_t)(lf - source) + 1 : length;
    }
    return at;
}

/* How many bytes the line that starts at a place has, without its end. */
static size_t line_length(const char *source, size_t length, size_t at)
{
    const char *lf = (const char *)memchr(source + at, '\n', length - at);
    size_t end = lf ? (size_t)(lf - source) : length;
    return end - at - (lf && end > at && source[end - 1] == '\r');
}

int faulty_line(const char *source, size_t length, uint32_t number, char *line)
{
    size_t at = line_start(source, length, number), many = at < length ? line_length(source, length, at) : 0;
    const char *comment = (const char *)memchr(source + at, ';', many);
    if (comment)
        many = (size_t)(comment - source) - at;
    if (many > MOST_LINE || memchr(source + at, 0, many))
        return 0;
    memcpy(line, source + at, many);
    line[many] = 0;
    return 1;
}

static int in_run(char c)
{
    return (c >= '0' && c <= '9') || (c >= 'A' && c <= 'Z') || (c >= 'a' && c <= 'z') || c == '_';
}

int next_run(const char *line, size_t from, struct span *w)
{
    while (line[from] && !in_run(line[from]))
        from++;
    w->at = from;
    while (in_run(line[from]))
        from++;
    w->length = from - w->at;
    return w->length != 0;
}

int is_run(const char *line, const struct span *w, const char *word)
{
    return w->length == strlen(word) && memcmp(line + w->at, word, w->length) == 0;
}

int is_marked(const char *line, const struct span *w)
{
    char before = w->at ? line[w->at - 1] : ' ';
    if (before == '-' && w->at > 1)
        before = line[w->at - 2] == '#' ? '#' : ' ';
    return before == '#' || before == '$' || before == '.' || before == '\'';
}

/* ---- what the library says */

int line_fits(const char *line)
{
    struct text t = {0};
    uint64_t reply;
    addf(&t, "%s\nEND\n", line);
    reply = assembled(&t);
    drop_text(&t);
    return XM23_REFUSAL(reply) != XM23_REFUSED_SOURCE_FORM || XM23_ASSEMBLE_LINE(reply) != 1;
}

/* A line of a word between two texts. */
static int fits_in(const char *before, const char *line, const struct span *w, const char *after)
{
    char probe[2 * MOST_LINE];
    return snprintf(probe, sizeof probe, "%s%.*s%s", before, (int)w->length, line + w->at, after) < MOST_LINE &&
           line_fits(probe);
}

int is_name(const char *line, const struct span *w)
{
    return fits_in("", line, w, " EQU #0");
}

int is_register(const char *line, const struct span *w)
{
    return fits_in("SXT ", line, w, "");
}

int put_part(char *to, const char *line, const struct span *part, const char *with)
{
    return snprintf(to, MOST_LINE + 1, "%.*s%s%s", (int)part->at, line, with, line + part->at + part->length) <=
           MOST_LINE;
}

/* ---- a statement */

/* The text between two places, without blanks around it. */
static struct span trimmed(const char *line, size_t from, size_t to)
{
    struct span s;
    while (from < to && strchr(" \t", line[from]))
        from++;
    while (to > from && strchr(" \t", line[to - 1]))
        to--;
    s.at = from;
    s.length = to - from;
    return s;
}

/* What stands behind the statement's word, cut at commas outside brackets. */
static void cut_operands(const char *line, size_t from, struct parts *p)
{
    size_t at = from;
    int depth = 0;
    for (; line[at] && p->many < 3; at++) {
        depth += line[at] == '(' ? 1 : line[at] == ')' ? -1 : 0;
        if (line[at] == ',' && depth <= 0) {
            p->operands[p->many++] = trimmed(line, from, at);
            from = at + 1;
        }
    }
    if (trimmed(line, from, strlen(line)).length)
        p->operands[p->many++] = trimmed(line, from, strlen(line));
}

void cut_line(const char *line, struct parts *p)
{
    struct span next;
    size_t from;
    memset(p, 0, sizeof *p);
    if (!next_run(line, 0, &p->word))
        return;
    if (next_run(line, p->word.at + p->word.length, &next) && is_name(line, &p->word)) {
        p->label = p->word;
        p->word = next;
    }
    from = p->word.at + p->word.length;
    if (line[from] == '.' && next_run(line, from, &next) && next.at == from + 1)
        from = next.at + next.length;
    cut_operands(line, from, p);
}

/* ---- a source */

/* The first word of a line and the one behind it, from where the line starts; its bytes up to its comment. */
static size_t first_words(const char *source, size_t length, size_t at, struct span words[2])
{
    size_t many = line_length(source, length, at);
    const char *comment = (const char *)memchr(source + at, ';', many);
    size_t end = comment ? (size_t)(comment - source) : at + many;
    for (unsigned i = 0; i < 2; i++) {
        while (at < end && !in_run(source[at]))
            at++;
        words[i].at = at;
        while (at < end && in_run(source[at]))
            at++;
        words[i].length = at - words[i].at;
    }
    return end;
}

static int is_end(const char *source, const struct span words[2])
{
    return is_run(source, &words[0], "END") || is_run(source, &words[1], "END");
}

/* Of an accepted form: the line of END is the first with that word. */
static size_t end_start(const char *source, size_t length)
{
    struct span words[2];
    size_t at = 0;
    while (at < length) {
        first_words(source, length, at, words);
        if (is_end(source, words))
            return at;
        at = line_start(source + at, length - at, 2) + at;
    }
    return length;
}

uint32_t giving_line(const char *source, size_t length, uint32_t from, const char *name, size_t letters)
{
    size_t at = line_start(source, length, from);
    for (uint32_t number = from; at < length; number++) {
        struct span words[2];
        first_words(source, length, at, words);
        if (words[0].length == letters && memcmp(source + words[0].at, name, letters) == 0)
            return number;
        if (is_end(source, words))
            return 0;
        at = line_start(source + at, length - at, 2) + at;
    }
    return 0;
}

/* The source with the numbered line replaced, and a line put before END; the number of that. */
static uint32_t changed(struct text *t, const char *source, size_t length, uint32_t number, const char *with,
                        const char *last)
{
    size_t from = line_start(source, length, number), to = line_start(source, length, number + 1);
    size_t end = end_start(source, length);
    uint32_t lines = 1;
    add_bytes(t, source, from);
    addf(t, "%s\n", with);
    if (end > to)
        add_bytes(t, source + to, end - to);
    for (size_t i = 0; i < t->length; i++)
        lines += t->at[i] == '\n';
    addf(t, "%s\n", last);
    add_bytes(t, source + end, length - end);
    return lines;
}

int at_fault_with(const char *source, size_t length, uint32_t number, const char *with, unsigned refusal)
{
    struct text t = {0};
    uint64_t reply;
    changed(&t, source, length, number, with, "");
    reply = assembled(&t);
    drop_text(&t);
    return XM23_REFUSAL(reply) == refusal && XM23_ASSEMBLE_LINE(reply) == number;
}

int leaves_bits(const char *source, size_t length, uint32_t number, const char *with, const char *value)
{
    char last[2 * MOST_LINE];
    struct text t = {0};
    uint64_t reply;
    uint32_t line;
    snprintf(last, sizeof last, HINT_NAME " EQU %s", value);
    line = changed(&t, source, length, number, with, last);
    reply = assembled(&t);
    drop_text(&t);
    return XM23_REFUSAL(reply) == XM23_REFUSED_SOURCE_VALUE && XM23_ASSEMBLE_LINE(reply) == line;
}
