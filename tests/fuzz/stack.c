/*
 * A target of libFuzzer: xm23_stack beside a judge in C that tries every choice of devices, compiled with the fuzzer's
 * counters. The string is devices, priority (from 240 on one of 32 bits), a byte for lengths (even: 64 and 16), vectors
 * and uses; what it lacks is zero.
 */
#include <inttypes.h>
#include <stdio.h>
#include <stdlib.h>
#include <string.h>

#include "xm23.h"

int LLVMFuzzerTestOneInput(const uint8_t *data, size_t size);

struct call {
    uint8_t vectors[96], uses[32], devices;
    size_t vectors_len, uses_len;
    uint32_t priority;
};

static uint32_t two(const uint8_t *bytes)
{
    return bytes[0] | (uint32_t)bytes[1] << 8;
}

/* What a choice takes; 0 where two of its priorities are one, or one is not above p. */
static uint32_t total(const struct call *c, unsigned choice)
{
    uint32_t sum = 0;
    unsigned d, seen = 0;
    for (d = 0; d < 8; d++) {
        unsigned level = two(c->vectors + 4 * d) >> 5 & 7;
        if (!(choice >> d & 1))
            continue;
        if (level <= c->priority || seen >> level & 1)
            return 0;
        seen |= 1u << level;
        sum += 8 + two(c->uses + 2 * d);
    }
    return sum;
}

static uint32_t judge(const struct call *c)
{
    uint32_t most = 0;
    unsigned choice, d;
    if (c->vectors_len != 64 || c->uses_len != 16 || c->priority > 7)
        return XM23_REFUSED_STACK;
    for (d = 0; d < 8; d++)
        if (two(c->uses + 2 * d) > 1024)
            return XM23_REFUSED_STACK;
    for (choice = 0; choice < 256; choice++)
        if (!(choice & ~(unsigned)c->devices) && total(c, choice) > most)
            most = total(c, choice);
    return most << 8;
}

int LLVMFuzzerTestOneInput(const uint8_t *data, size_t size)
{
    static struct call c;
    uint8_t bytes[3 + 64 + 16] = {0};
    uint32_t reply, right;
    memcpy(bytes, data, size < sizeof bytes ? size : sizeof bytes);
    memset(&c, 0, sizeof c);
    memcpy(c.vectors, bytes + 3, 64);
    memcpy(c.uses, bytes + 67, 16);
    c.devices = bytes[0];
    c.priority = bytes[1] < 240 ? bytes[1] : 1u << (bytes[1] % 32);
    c.vectors_len = bytes[2] % 2 ? bytes[2] % 96 : 64;
    c.uses_len = bytes[2] % 4 == 3 ? bytes[2] % 32 : 16;
    right = judge(&c);
    reply = xm23_stack(c.vectors, c.vectors_len, c.devices, c.uses, c.uses_len, c.priority);
#ifdef WRONG
    if (c.devices == 0x42)
        reply ^= 0x100;
#endif
    if (reply != right) {
        printf("stack: reply %08" PRIX32 ", judge %08" PRIX32 "\n", reply, right);
        fflush(stdout);
        abort();
    }
    return 0;
}
