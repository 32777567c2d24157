/*
 * A target of libFuzzer: xm23_load_srec beside a loader in C, written from 02 and compiled with the fuzzer's counters.
 * The string is a text of S-records. Held: both give one reply and leave one memory; what is loaded, written from its
 * first byte on and loaded again, gives the same memory and PC.
 */
#include <inttypes.h>
#include <stdio.h>
#include <stdlib.h>
#include <string.h>

#include "xm23.h"

int LLVMFuzzerTestOneInput(const uint8_t *data, size_t size);

/* ---- the judge: one line after the other, on a copy that is kept only where all lines pass */

/* A line's bytes after the type, and how many; a line that is no record has none. */
struct line {
    uint8_t bytes[256];
    size_t many;
};

static int digit(uint8_t c)
{
    if (c >= '0' && c <= '9')
        return c - '0';
    if (c >= 'A' && c <= 'F')
        return c - 'A' + 10;
    return c >= 'a' && c <= 'f' ? c - 'a' + 10 : -1;
}

static void read_line(struct line *line, const uint8_t *text, size_t length)
{
    size_t i;
    line->many = 0;
    if (length < 4 || length > 4 + 2 * 255 || length % 2 || text[0] != 'S' || !strchr("019", text[1]) || !text[1])
        return;
    for (i = 2; i < length; i += 2) {
        int high = digit(text[i]), low = digit(text[i + 1]);
        if (high < 0 || low < 0)
            return;
        line->bytes[i / 2 - 1] = (uint8_t)(16 * high + low);
    }
    if (line->bytes[0] >= 3 && length == 4 + 2 * (size_t)line->bytes[0] && (text[1] != '9' || line->bytes[0] == 3))
        line->many = line->bytes[0] + 1u;
}

/* Judges a line and stores an S1's data; a refusal, or 0. */
static unsigned judge(const struct line *line, uint8_t type, int last, uint8_t *memory)
{
    unsigned sum = 0, address;
    size_t i, data;
    if (line->many == 0 || (type == '9' && !last))
        return XM23_REFUSED_SREC_FORM;
    for (i = 0; i < line->many; i++)
        sum += line->bytes[i];
    if (sum % 256 != 255)
        return XM23_REFUSED_SREC_CHECKSUM;
    address = 256u * line->bytes[1] + line->bytes[2];
    data = line->many - 4;
    if (type == '1' && address + data > XM23_MEMORY_SIZE)
        return XM23_REFUSED_SREC_ROOM;
    if (type == '1')
        memcpy(memory + address, line->bytes + 3, data);
    return XM23_ACCEPTED;
}

static uint64_t refused(unsigned refusal, uint16_t pc, uint64_t line)
{
    return refusal | (uint64_t)pc << 16 | line << 32;
}

static uint64_t load(uint8_t *memory, const uint8_t *text, size_t length, uint16_t pc)
{
    static uint8_t copy[XM23_MEMORY_SIZE];
    uint64_t number = 0;
    size_t at = 0;
    memcpy(copy, memory, sizeof copy);
    while (at < length) {
        const uint8_t *lf = (const uint8_t *)memchr(text + at, '\n', length - at);
        size_t stop = lf ? (size_t)(lf - text) : length, next = lf ? stop + 1 : stop;
        size_t end = lf && stop > at && text[stop - 1] == '\r' ? stop - 1 : stop;
        struct line line;
        unsigned refusal;
        number++;
        read_line(&line, text + at, end - at);
        refusal = judge(&line, end - at > 1 ? text[at + 1] : 0, next == length, copy);
        if (refusal)
            return refused(refusal, pc, number);
        if (text[at + 1] == '9') {
            memcpy(memory, copy, sizeof copy);
            return (uint64_t)(256u * line.bytes[1] + line.bytes[2]) << 16;
        }
        at = next;
    }
    return refused(XM23_REFUSED_SREC_FORM, pc, number + 1);
}

/* ---- beside the library */

static void must(int holds, const char *what, uint64_t got, uint64_t expected)
{
    if (!holds) {
        printf("%s: reply %016" PRIX64 ", judge %016" PRIX64 "\n", what, got, expected);
        fflush(stdout);
        abort();
    }
}

int LLVMFuzzerTestOneInput(const uint8_t *data, size_t size)
{
    static uint8_t ours[XM23_MEMORY_SIZE], theirs[XM23_MEMORY_SIZE], again[XM23_MEMORY_SIZE];
    static uint8_t text[XM23_SREC_LENGTH(XM23_MEMORY_SIZE)];
    uint64_t reply, right, written;
    memset(ours, 0xEE, sizeof ours);
    memset(theirs, 0xEE, sizeof theirs);
    right = load(theirs, data, size, 0x1234);
    reply = xm23_load_srec(ours, sizeof ours, data, size, 0x1234);
#ifdef WRONG
    if (XM23_REFUSAL(reply) == XM23_REFUSED_SREC_CHECKSUM)
        reply ^= 1;
#endif
    must(reply == right, "load", reply, right);
    must(memcmp(ours, theirs, sizeof ours) == 0, "memory", reply, right);
    if (XM23_REFUSAL(reply))
        return 0;
    written = xm23_write_srec(ours, sizeof ours, 0, XM23_MEMORY_SIZE, XM23_LOAD_PC(reply), text, sizeof text);
    must(XM23_WRITTEN(written) == sizeof text, "write", written, sizeof text);
    must(xm23_load_srec(again, sizeof again, text, sizeof text, 0) == reply, "again", written, reply);
    must(memcmp(ours, again, sizeof ours) == 0, "memory again", reply, right);
    return 0;
}
