/*
 * source.h - what the assembler takes.
 */
#ifndef SOURCE_H
#define SOURCE_H

#include "program.h"

int is_source(const char *name);
int assemble_source(const char *source, size_t length, struct assembled *a, struct fault *f);

/* Of an accepted source: the bytes that it states; its names; which line states a byte; what a number, name or
 * expression comes to, or the refusal; a listing of its lines, or of so many at most, which then leaves out bytes on
 * which a later line stands. */
struct name {
    const char *at; /* in the source */
    size_t length;
    int64_t value;
    uint32_t line;
    uint8_t kind; /* XM23_PLACE_EQU; of any other it is a label, the place of its line */
};

void find_stated(const char *source, size_t length, struct assembled *a); /* `set`, and the place where it starts */
size_t source_names(const char *source, size_t length, struct name **names); /* how many, in the order of their lines */
uint32_t line_stating(const char *source, size_t length, unsigned at); /* the last that states a byte; 0: none does */
unsigned source_value(const char *source, size_t length, const char *value, uint16_t *word);
void add_source_listing(struct text *t, const char *source, size_t length, const struct assembled *a, size_t most);

#endif
