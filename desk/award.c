/* Awards: what is found at the close beside what is wanted, and the points. */
#include <string.h>

#include "award.h"
#include "xm23.h"

/* ---- the comparison */

static int same_bytes(const struct value *found, const struct value *wanted)
{
    return found->length == wanted->length && memcmp(found->bytes, wanted->bytes, wanted->length) == 0;
}

static int has_bytes(const struct value *found, const struct value *wanted)
{
    for (size_t at = 0; at + wanted->length <= found->length; at++)
        if (memcmp(found->bytes + at, wanted->bytes, wanted->length) == 0)
            return 1;
    return 0;
}

int holds(enum relation relation, const struct value *found, const struct value *wanted)
{
    int bytes = found->bytes != NULL;
    if (bytes != (wanted->bytes != NULL))
        return 0;
    switch (relation) {
    case IS: return bytes ? same_bytes(found, wanted) : found->number == wanted->number;
    case IS_NOT: return bytes ? !same_bytes(found, wanted) : found->number != wanted->number;
    case AT_MOST: return !bytes && found->number <= wanted->number;
    case AT_LEAST: return !bytes && found->number >= wanted->number;
    case HAS: return bytes && has_bytes(found, wanted);
    default: return 0;
    }
}

/* ---- what is found */

static struct value number(uint32_t is)
{
    struct value v = {is, NULL, 0};
    return v;
}

/* The low byte first; behind the last comes the first. */
static struct value word_from(const uint8_t *bytes, unsigned at, unsigned next)
{
    return number(bytes[at] | (uint32_t)bytes[next] << 8);
}

static struct value bytes_from(const uint8_t *bytes, size_t length)
{
    struct value v = {0, bytes ? bytes : (const uint8_t *)"", length};
    return v;
}

/* Of the bytes from an address on as many as are wanted, but none behind the last. */
static struct value memory_bytes(const struct award *a, const uint8_t *memory)
{
    size_t left = XM23_MEMORY_SIZE - (a->at & 0xFFFF);
    return bytes_from(memory + (a->at & 0xFFFF), a->wanted.length < left ? a->wanted.length : left);
}

static struct value in_record(const uint8_t *record, unsigned at)
{
    return word_from(record, at, at + 1);
}

struct value value_found(const struct award *a, const struct closing *c)
{
    const struct text *shown = &c->shown[a->number & 7];
    switch (a->subject) {
    case OF_REGISTER: return in_record(c->record, XM23_RECORD_REGISTER(a->number & 7));
    case OF_PSW: return in_record(c->record, XM23_RECORD_PSW);
    case OF_CEX: return in_record(c->record, XM23_RECORD_CEX);
    case OF_BYTE: return number(c->memory[a->at & 0xFFFF]);
    case OF_WORD: return word_from(c->memory, a->at & 0xFFFF, (a->at + 1) & 0xFFFF);
    case OF_BYTES: return memory_bytes(a, c->memory);
    case OF_SCREEN: return bytes_from((const uint8_t *)shown->at, shown->length);
    case OF_REASON: return number(c->reason);
    case OF_DEPTH: return number(c->deepest);
    case OF_SOUND: return number(c->sound != 0);
    default: return number(c->undisturbed != 0);
    }
}

/* ---- the points */

uint64_t judge_awards(const struct awards *a, const struct closing *c)
{
    uint64_t met = 0;
    for (size_t i = 0; i < a->many; i++) {
        struct value found = value_found(&a->list[i], c);
        if (holds(a->list[i].relation, &found, &a->list[i].wanted))
            met |= (uint64_t)1 << i;
    }
    return met;
}

uint32_t points_of(const struct awards *a, size_t i, uint64_t met)
{
    return met >> i & 1 ? a->list[i].points : 0;
}

uint32_t total_of(const struct awards *a, uint64_t met)
{
    uint32_t total = 0;
    for (size_t i = 0; i < a->many; i++)
        total += points_of(a, i, met);
    return total;
}

uint32_t most_of(const struct awards *a)
{
    return total_of(a, UINT64_MAX);
}

int passes(const struct awards *a, uint64_t met)
{
    return a->pass_line ? total_of(a, met) >= a->pass : -1;
}

int asks_verdict(const struct awards *a)
{
    for (size_t i = 0; i < a->many; i++)
        if (a->list[i].subject == OF_SOUND || a->list[i].subject == OF_UNDISTURBED)
            return 1;
    return 0;
}
