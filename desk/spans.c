/* Bytes as S-records, span by span. */
#include "program.h"

/* The first address from one on whose byte is of the kind, or is not. */
static unsigned next_place(const uint8_t *set, unsigned at, unsigned kind, int of_it)
{
    while (at < XM23_MEMORY_SIZE && (set[at] == kind) != of_it)
        at++;
    return at;
}

/* A text of one span at a time; of each the S9 line, the last of a text, is taken off. */
void add_spans(struct text *t, const uint8_t *memory, const uint8_t *set, unsigned kind)
{
    static uint8_t lines[XM23_SREC_LENGTH(XM23_MEMORY_SIZE)];
    unsigned at = next_place(set, 0, kind, 1), end;
    while (at < XM23_MEMORY_SIZE) {
        uint64_t reply;
        end = next_place(set, at, kind, 0);
        reply = xm23_write_srec(memory, XM23_MEMORY_SIZE, (uint16_t)at, end - at, 0, lines, sizeof lines);
        add_bytes(t, lines, XM23_WRITTEN(reply) - XM23_SREC_LENGTH(0));
        at = next_place(set, end, kind, 1);
    }
}

void add_srec(struct text *t, const struct assembled *a)
{
    uint8_t line[XM23_SREC_LENGTH(0)];
    add_spans(t, a->memory, a->set, 1);
    xm23_write_srec(a->memory, sizeof a->memory, 0, 0, a->pc, line, sizeof line);
    add_bytes(t, line, sizeof line);
}
