/*
 * Hints for a line that fits no statement (17). First its words, one by one, by a table of what no line has: letters
 * that are not upper case, a colon, a number without its mark. Then its form: what is tried is told where the line
 * fits with it.
 */
#include <stdio.h>
#include <string.h>

#include "hint_ask.h"

enum { MOST_TOLD = 3 };

void add_column(struct text *t, size_t at)
{
    addf(t, "%scolumn %lu: ", t->length ? "; " : "", (unsigned long)at + 1);
}

/* ---- words */

/* What 003 writes in one word, and how that is written: x stands for the suffix, Rx for the operand. */
static const struct {
    const char *word, *operand, *written;
} emulated[] = {
    {"ADC", "Rx", "ADDCx #0,Rx"}, {"CALL", "NAME", "BL Rx"}, {"CLC", "", "CLRCC C"}, {"CLN", "", "CLRCC N"},
    {"CLS", "", "CLRCC S"}, {"CLV", "", "CLRCC V"}, {"CLZ", "", "CLRCC Z"}, {"CLR", "Rx", "MOVLZ #0,Rx"},
    {"DADC", "Rx", "DADDx #0,Rx"}, {"DEC", "Rx", "SUBx #1,Rx"}, {"DECD", "Rx", "SUBx #2,Rx"},
    {"INC", "Rx", "ADDx #1,Rx"}, {"INCD", "Rx", "ADDx #2,Rx"}, {"JUMP", "Rx", "MOV Rx,PC"}, {"NOP", "", "MOV R0,R0"},
    {"PULL", "Rx", "LD SP+,Rx"}, {"PUSH", "Rx", "ST Rx,-SP"}, {"RET", "", "MOV LR,PC"}, {"RLC", "Rx", "ADDCx Rx,Rx"},
    {"SBC", "Rx", "SUBCx #0,Rx"}, {"SEC", "", "SETCC C"}, {"SEN", "", "SETCC N"}, {"SEV", "", "SETCC V"},
    {"SEZ", "", "SETCC Z"}, {"SLA", "Rx", "ADDx Rx,Rx"}, {"TST", "Rx", "CMPx #0,Rx"},
};

/* A line as it is told of: as it is, and with its letters in upper case. */
struct shown {
    const char *line;
    char upper[MOST_LINE + 1];
    int small; /* small letters have been told */
};

static void show(struct shown *s, const char *line)
{
    size_t at = 0;
    memset(s, 0, sizeof *s);
    s->line = line;
    for (; line[at]; at++)
        s->upper[at] = line[at] >= 'a' && line[at] <= 'z' ? (char)(line[at] - 'a' + 'A') : line[at];
}

/* The column of a part of the line, and the part in quotes. */
static void add_part(struct text *t, const char *line, size_t at, size_t length)
{
    add_column(t, at);
    addf(t, "'%.*s' ", (int)length, line + at);
}

/* Whether a word has letters of these alone, in upper case. */
static int all_of(const struct shown *s, size_t at, size_t length, const char *letters)
{
    return strspn(s->upper + at, letters) >= length;
}

static char before(const struct shown *s, const struct span *w)
{
    return w->at ? s->line[w->at - 1] : ' ';
}

#define CAPITALS "ABCDEFGHIJKLMNOPQRSTUVWXYZ"
#define TEN "0123456789"
#define SIXTEEN TEN "ABCDEF"

/* A character in quotes, which no line has. */
static int is_character(const struct shown *s, const struct span *w)
{
    return before(s, w) == '\'' && w->length == 1 && s->line[w->at + 1] == '\'';
}

/* The first word of a line that has small letters. */
static int small_letters(struct text *t, struct shown *s, const struct span *w)
{
    if (s->small || is_character(s, w) || (strchr(TEN, s->line[w->at]) && !is_marked(s->line, w)) ||
        memcmp(s->line + w->at, s->upper + w->at, w->length) == 0)
        return 0;
    s->small = 1;
    add_part(t, s->line, w->at, w->length);
    addf(t, "is written %.*s: letters are upper case outside comments", (int)w->length, s->upper + w->at);
    return 0;
}

static int colon(struct text *t, struct shown *s, const struct span *w)
{
    size_t length = w->length + strspn(s->line + w->at + w->length, " \t");
    if (s->line[w->at + length] != ':')
        return 0;
    add_part(t, s->line, w->at, length + 1);
    addf(t, "is written %.*s, without a colon", (int)w->length, s->upper + w->at);
    return 1;
}

static int underscore(struct text *t, struct shown *s, const struct span *w)
{
    if (!memchr(s->line + w->at, '_', w->length))
        return 0;
    add_part(t, s->line, w->at, w->length);
    addf(t, "has an underscore: names are letters and digits");
    return 1;
}

static int character(struct text *t, struct shown *s, const struct span *w)
{
    if (!is_character(s, w))
        return 0;
    add_column(t, w->at - 1);
    addf(t, "'%c' is written by its number, $%02X", s->line[w->at], (unsigned)s->line[w->at]);
    return 1;
}

static int suffix(struct text *t, struct shown *s, const struct span *w)
{
    if (before(s, w) != '.' || is_run(s->upper, w, "B") || is_run(s->upper, w, "W"))
        return 0;
    add_part(t, s->line, w->at - 1, w->length + 1);
    addf(t, "is no suffix: .B is a byte, .W a word");
    return 1;
}

/* A number with digits that its mark does not take. */
static int other_mark(struct text *t, struct shown *s, const struct span *w)
{
    size_t skip = w->length > 2 && strncmp(s->upper + w->at, "0X", 2) == 0 ? 2 : 0;
    int ten = before(s, w) == '#', digits = all_of(s, w->at + skip, w->length - skip, SIXTEEN);
    if ((!ten && before(s, w) != '$') || all_of(s, w->at, w->length, ten ? TEN : SIXTEEN))
        return 0;
    add_part(t, s->line, w->at - 1, w->length + 1);
    addf(t, "is no number of base %s", ten ? "ten" : "sixteen");
    if (digits)
        addf(t, ": $%.*s is base sixteen", (int)(w->length - skip), s->upper + w->at + skip);
    return 1;
}

/* A number without its mark; a word that begins with a digit and is no number. */
static int no_mark(struct text *t, struct shown *s, const struct span *w)
{
    size_t skip = w->length > 2 && strncmp(s->upper + w->at, "0X", 2) == 0 ? 2 : 0, length = w->length - skip;
    const char *digits = s->upper + w->at + skip;
    if (is_marked(s->line, w) || !strchr(TEN, s->line[w->at]))
        return 0;
    add_part(t, s->line, w->at, w->length);
    if (!all_of(s, w->at + skip, length, SIXTEEN))
        addf(t, "is no name and no number: names begin with a letter, numbers with # or $");
    else if (skip || !all_of(s, w->at, w->length, TEN))
        addf(t, "has no mark: $%.*s is base sixteen", (int)length, digits);
    else
        addf(t, "has no mark: #%.*s is base ten, $%.*s base sixteen", (int)length, digits, (int)length, digits);
    return 1;
}

/* A form of the table with its suffix and operand. */
static void add_written(struct text *t, const char *form, const char *with, const char *operand)
{
    for (; *form; form++)
        if (strncmp(form, "Rx", 2) == 0)
            addf(t, "%s", operand), form++;
        else if (*form == 'x')
            addf(t, "%s", with);
        else
            add_bytes(t, form, 1);
}

/* One word of 003's for another statement, with the suffix and operand of the line where it then fits. */
static int one_word(struct text *t, struct shown *s, const struct span *w)
{
    size_t i = 0, at = w->at + w->length;
    char with[3] = "", operand[MOST_LINE + 1];
    struct text written = {0};
    while (i < sizeof emulated / sizeof *emulated && !is_run(s->upper, w, emulated[i].word))
        i++;
    if (i == sizeof emulated / sizeof *emulated || is_marked(s->line, w))
        return 0;
    if (s->upper[at] == '.' && s->upper[at + 1]) {
        snprintf(with, sizeof with, "%.2s", s->upper + at);
        at += 2;
    }
    at += strspn(s->upper + at, " \t");
    snprintf(operand, sizeof operand, "%.*s", (int)strcspn(s->upper + at, " \t"), s->upper + at);
    add_written(&written, emulated[i].written, with, operand);
    if (!line_fits(written.at) || !*operand != !*emulated[i].operand) {
        with[0] = 0;
        snprintf(operand, sizeof operand, "%s", emulated[i].operand);
        written.length = 0;
        add_written(&written, emulated[i].written, with, operand);
    }
    add_column(t, w->at);
    addf(t, "%s%s%s%s is written %s", emulated[i].word, with, *operand ? " " : "", operand, written.at);
    drop_text(&written);
    return 1;
}

/* The table: what is told of a word, the first that is so; small letters besides. */
static int (*const checks[])(struct text *, struct shown *, const struct span *) = {
    small_letters, colon, underscore, character, suffix, other_mark, no_mark, one_word,
};

/* A byte that stands in no line, but in a comment. */
static int no_sign(struct text *t, const char *line, size_t at)
{
    if (!line[at])
        return 0;
    add_column(t, at);
    if (line[at] > ' ' && line[at] < 127)
        addf(t, "'%c' stands in no line but in a comment", line[at]);
    else
        addf(t, "a byte $%02X stands in no line but in a comment", (unsigned)(unsigned char)line[at]);
    return 1;
}

static int strange_byte(struct text *t, const char *line)
{
    return no_sign(t, line, strspn(line, CAPITALS TEN "abcdefghijklmnopqrstuvwxyz_:'#$,()+-*/. \t"));
}

/* Where they say nothing of a word beside them. */
static int lone_mark(struct text *t, const char *line)
{
    return no_sign(t, line, strcspn(line, ":'"));
}

static int hint_words(struct text *t, const char *line)
{
    struct shown s;
    struct span w = {0, 0};
    int told = 0;
    show(&s, line);
    while (told < MOST_TOLD && next_run(line, w.at + w.length, &w))
        for (size_t i = 0; i < sizeof checks / sizeof *checks; i++)
            if (checks[i](t, &s, &w)) {
                told++;
                break;
            }
    return told || s.small;
}

/* ---- the form */

/* A word of the language where a name would stand. */
static int reserved(struct text *t, const char *line)
{
    char tried[MOST_LINE + 1];
    struct span w, next;
    if (!next_run(line, 0, &w) || !next_run(line, w.at + w.length, &next) || is_marked(line, &w) || is_name(line, &w) ||
        strchr(TEN, line[w.at]) || strspn(line + w.at, CAPITALS TEN) < w.length ||
        !put_part(tried, line, &w, HINT_NAME) || !line_fits(tried))
        return 0;
    add_part(t, line, w.at, w.length);
    addf(t, "is a word of the language, and no name");
    return 1;
}

static int brackets(struct text *t, const char *line)
{
    size_t open[MOST_LINE], depth = 0;
    for (size_t at = 0; line[at]; at++) {
        if (line[at] == '(')
            open[depth++] = at;
        if (depth > 16 || (line[at] == ')' && depth-- == 0)) {
            add_column(t, at);
            addf(t, depth == 17 ? "brackets stand at most 16 deep" : "this bracket closes none");
            return 1;
        }
    }
    if (!depth)
        return 0;
    add_column(t, open[depth - 1]);
    addf(t, "this bracket is not closed");
    return 1;
}

/* A comma for the blanks before a word. */
static int comma(struct text *t, const char *line)
{
    char tried[MOST_LINE + 1];
    for (size_t at = 1; line[at]; at++) {
        struct span blanks = {at, strspn(line + at, " \t")};
        if (!blanks.length || !put_part(tried, line, &blanks, ",") || !line_fits(tried))
            continue;
        add_column(t, at + blanks.length);
        addf(t, "a comma is missing here");
        return 1;
    }
    return 0;
}

/* The line is one without its last words; a name alone is not taken for the line. */
static int too_much(struct text *t, const char *line)
{
    char tried[MOST_LINE + 1];
    struct parts p;
    cut_line(line, &p);
    for (size_t at = strlen(line); at > p.word.at + p.word.length; at--) {
        size_t rest = at - 1 + strspn(line + at - 1, " \t,");
        if (!strchr(" \t,", line[at - 1]) || !line[rest])
            continue;
        snprintf(tried, sizeof tried, "%.*s", (int)at - 1, line);
        if (!line_fits(tried))
            continue;
        add_part(t, line, rest, strcspn(line + rest, " \t"));
        addf(t, "is too much: a comment begins with ;");
        return 1;
    }
    return 0;
}

static int nameless(struct text *t, const char *line)
{
    char tried[2 * MOST_LINE];
    struct span w;
    if (!next_run(line, 0, &w) || snprintf(tried, sizeof tried, HINT_NAME " %s", line) > MOST_LINE || !line_fits(tried))
        return 0;
    add_column(t, w.at);
    addf(t, "%.*s needs a name before it", (int)w.length, line + w.at);
    return 1;
}

/* An operand in brackets. */
static int bare(struct text *t, const char *line)
{
    char tried[MOST_LINE + 1], with[MOST_LINE + 3];
    struct parts p;
    cut_line(line, &p);
    for (unsigned i = 0; i < p.many; i++) {
        struct span *o = &p.operands[i];
        snprintf(with, sizeof with, "(%.*s)", (int)o->length, line + o->at);
        if (!strpbrk(with, "+-*/") || !put_part(tried, line, o, with) || !line_fits(tried))
            continue;
        add_column(t, o->at);
        addf(t, "an expression stands in brackets: %s", with);
        return 1;
    }
    return 0;
}

/* MOV of a number. */
static int moves_number(struct text *t, const char *line)
{
    char tried[MOST_LINE + 1];
    struct parts p;
    cut_line(line, &p);
    if (!is_run(line, &p.word, "MOV") || !put_part(tried, line, &p.word, "MOVLZ") || !line_fits(tried))
        return 0;
    add_column(t, p.word.at);
    addf(t, "MOV takes registers alone: MOVLZ loads a byte, MOVH then the high one");
    return 1;
}

/* What fits in the place of one operand. Letters of flags may be a name too. */
static int operand(struct text *t, const char *line)
{
    static const struct {
        const char *with, *says;
    } kinds[] = {{"R0", "a register"}, {"#0", "a number, a name or an expression in brackets"},
                 {"EQ", "a condition"}, {"C", "a list of flags"}};
    enum { FLAGS = 3 };
    char tried[MOST_LINE + 1];
    struct parts p;
    cut_line(line, &p);
    for (unsigned i = 0; i < p.many; i++) {
        unsigned many = 0;
        for (size_t k = 0; k < sizeof kinds / sizeof *kinds; k++) {
            if ((many && k == FLAGS) || !put_part(tried, line, &p.operands[i], kinds[k].with) || !line_fits(tried))
                continue;
            if (!many)
                add_column(t, p.operands[i].at);
            addf(t, "%s%s", many++ ? " or " : "here stands ", kinds[k].says);
        }
        if (many)
            return 1;
    }
    return 0;
}

/* A statement with operands that fit it, a name before it where it needs one; none where the word begins none. */
static int example(const char *line, const struct span *w, char *to)
{
    static const char *const shapes[] = {"",   " #0",        " R0",       " R0,R0",   " #0,R0",
                                         " C", " EQ,#0,#0", " R0,#0,R0", " R0,R0,#0"};
    enum { SHAPES = sizeof shapes / sizeof *shapes };
    if (is_name(line, w) || w->length > 32)
        return 0;
    for (size_t i = 0; i < 2 * SHAPES; i++) {
        snprintf(to, MOST_LINE + 1, "%s%.*s%s", i < SHAPES ? "" : "A ", (int)w->length, line + w->at,
                 shapes[i % SHAPES]);
        if (line_fits(to))
            return 1;
    }
    return 0;
}

static int statement(struct text *t, const char *line)
{
    char written[MOST_LINE + 1];
    struct parts p;
    struct span *w;
    cut_line(line, &p);
    w = p.label.length && !is_name(line, &p.word) && !example(line, &p.word, written) ? &p.label : &p.word;
    if (!w->length)
        return 0;
    add_column(t, w->at);
    if (example(line, w, written))
        addf(t, "%.*s is written as in %s", (int)w->length, line + w->at, written);
    else
        addf(t, "'%.*s' begins no statement", (int)w->length, line + w->at);
    return 1;
}

/* The table: the first that is so is told. */
static int (*const forms[])(struct text *, const char *) = {
    strange_byte, reserved, too_much, hint_words, lone_mark, brackets,
    nameless, comma, bare, moves_number, operand, statement,
};

void hint_form(struct text *t, const char *source, size_t length, uint32_t number)
{
    char line[MOST_LINE + 1];
    if (line_start(source, length, number) >= length) {
        addf(t, "END is missing, which every source ends with");
        return;
    }
    if (!faulty_line(source, length, number, line) || line_fits(line))
        return;
    for (size_t i = 0; i < sizeof forms / sizeof *forms && !forms[i](t, line); i++)
        continue;
}
