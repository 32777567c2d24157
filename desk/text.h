/*
 * text.h - a text that grows; bytes of strangers made printable; messages.
 *
 * Where there is no room the program ends with status 3.
 */
#ifndef TEXT_H
#define TEXT_H

#include <stddef.h>
#include <stdint.h>

struct text {
    char *at;
    size_t length, room;
};

void *room_for(void *old, size_t bytes);
void add_bytes(struct text *t, const void *bytes, size_t length);
void addf(struct text *t, const char *format, ...); /* as printf has it */
void add_byte(struct text *t, const char *mark, unsigned byte); /* the mark and two digits of base sixteen */
void drop_text(struct text *t);

/*
 * Bytes of strangers, whatever they are, as text: those of no printable character, and a backslash, as \xHH. Each takes
 * the bytes as they came: what has gone through one goes through no other.
 */
void add_plain(struct text *t, const char *bytes, size_t length);
void add_html(struct text *t, const char *bytes, size_t length);
void add_name(struct text *t, const char *name);                  /* for HTML, of a long one the first bytes */
void add_csv(struct text *t, const char *bytes, size_t length);   /* one cell; ' before what could be a formula */
void add_plain_lines(struct text *t, const char *bytes, size_t length); /* line feeds and tabs stay */
void add_html_lines(struct text *t, const char *bytes, size_t length);

int ends_in(const char *name, const char *end); /* a name, in these letters */
int has_order_mark(const char *bytes, size_t length); /* whether a text begins with that of UTF-8 or of UTF-16 */

void add_at(struct text *t, const char *name, uint32_t line); /* `name:line: `; line 0: `name: `; no name: '' */

/* Prints `xm23: ` or a place and the text as one line on standard error, as add_plain has it; say_of begins it with a
 * word in quotes, of a long one the first bytes. */
void say_text(const char *format, ...);
void say_at(const char *name, uint32_t line, const char *format, ...);
void say_of(const char *name, uint32_t line, const char *word, size_t length, const char *what);

#endif
