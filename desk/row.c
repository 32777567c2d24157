/* A row as bytes: what a worker tells of its program, and what the marking keeps of it until all are there. */
#include <string.h>

#include "marking.h"

enum { TEXTS = 6 };

struct head {
    uint64_t number;
    uint64_t met;
    uint64_t lengths[TEXTS]; /* of line, says, screen, handlers, application and prints, which follow */
    uint32_t steps, deepest;
    int32_t agrees, problem;
    char digest[SHA256_TEXT], page[SHA256_TEXT];
};

void drop_row(struct row *r)
{
    drop_text(&r->line);
    drop_text(&r->says);
    drop_text(&r->screen);
    drop_text(&r->handlers);
    drop_text(&r->application);
    drop_text(&r->prints);
}

void pack_row(struct text *t, size_t number, const struct row *r)
{
    const struct text *texts[TEXTS] = {&r->line, &r->says, &r->screen, &r->handlers, &r->application, &r->prints};
    struct head h;
    memset(&h, 0, sizeof h);
    h.number = number;
    h.met = r->met;
    h.steps = r->steps;
    h.deepest = r->deepest;
    h.agrees = r->agrees;
    h.problem = r->problem;
    memcpy(h.digest, r->digest, sizeof h.digest);
    memcpy(h.page, r->page, sizeof h.page);
    for (unsigned i = 0; i < TEXTS; i++)
        h.lengths[i] = texts[i]->length;
    add_bytes(t, &h, sizeof h);
    for (unsigned i = 0; i < TEXTS; i++)
        add_bytes(t, texts[i]->length ? texts[i]->at : "", texts[i]->length);
}

/* A digest, or none, and a 0 behind it. */
static int is_digest(const char *digits)
{
    size_t length = strnlen(digits, SHA256_TEXT);
    return (length == 0 || length == SHA256_TEXT - 1) && strspn(digits, "0123456789abcdef") == length;
}

int unpack_row(const char *bytes, size_t length, size_t number, struct row *r)
{
    struct text *texts[TEXTS] = {&r->line, &r->says, &r->screen, &r->handlers, &r->application, &r->prints};
    struct head h;
    memset(r, 0, sizeof *r);
    if (length < sizeof h)
        return 0;
    memcpy(&h, bytes, sizeof h);
    bytes += sizeof h;
    length -= sizeof h;
    if (h.number != number || h.agrees < -1 || h.agrees > 1 || !is_digest(h.digest) || !is_digest(h.page))
        return 0;
    for (unsigned i = 0; i < TEXTS; i++) {
        if (h.lengths[i] > length)
            return 0;
        length -= (size_t)h.lengths[i];
    }
    for (unsigned i = 0; i < TEXTS; bytes += h.lengths[i], i++)
        add_bytes(texts[i], bytes, (size_t)h.lengths[i]);
    r->met = h.met;
    r->steps = h.steps;
    r->deepest = h.deepest;
    r->agrees = h.agrees;
    r->problem = h.problem;
    memcpy(r->digest, h.digest, sizeof r->digest);
    memcpy(r->page, h.page, sizeof r->page);
    return length == 0;
}
