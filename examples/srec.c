/*
 * Loads a text of S-records into an empty memory, or writes a span of a memory as S-records:
 *
 *     srec load < TEXT > MEMORY
 *     srec write START LENGTH PC < MEMORY > TEXT        numbers in base sixteen
 *
 * MEMORY is 65,536 bytes. Load prints the PC on standard error. The exit status is 1 where the library refuses, with
 * the line at fault on standard error, and 2 where the arguments or the input are no good.
 */
#include <inttypes.h>
#include <stdio.h>
#include <stdlib.h>
#include <string.h>

#include "xm23.h"

static uint8_t memory[XM23_MEMORY_SIZE], text[XM23_SREC_LENGTH(XM23_MEMORY_SIZE)];

/* All of standard input in a buffer that grows; NULL where there is no room. */
static uint8_t *whole_input(size_t *length)
{
    size_t room = 65536;
    uint8_t *input = NULL;
    *length = 0;
    do {
        uint8_t *more = (uint8_t *)realloc(input, room *= 2);
        if (!more) {
            free(input);
            return NULL;
        }
        input = more;
        *length += fread(input + *length, 1, room - *length, stdin);
    } while (*length == room);
    return input;
}

static int load(void)
{
    size_t length;
    uint8_t *input = whole_input(&length);
    uint64_t reply;
    if (!input)
        return 2;
    reply = xm23_load_srec(memory, sizeof memory, input, length, 0);
    free(input);
    if (XM23_REFUSAL(reply)) {
        fprintf(stderr, "line %" PRIu32 ": %s\n", XM23_LOAD_LINE(reply), xm23_refusal_text(XM23_REFUSAL(reply)));
        return 1;
    }
    fprintf(stderr, "PC %04X\n", (unsigned)XM23_LOAD_PC(reply));
    return fwrite(memory, 1, sizeof memory, stdout) == sizeof memory ? 0 : 2;
}

/* A number in base sixteen, at most `most`, or -1. */
static long number(const char *digits, unsigned long most)
{
    char *end;
    unsigned long value = strtoul(digits, &end, 16);
    return *digits && !*end && value <= most ? (long)value : -1;
}

static int write_span(char **numbers)
{
    long start = number(numbers[0], 0xFFFF), length = number(numbers[1], 0x10000), pc = number(numbers[2], 0xFFFF);
    uint64_t reply;
    if (start < 0 || length < 0 || pc < 0 || fread(memory, 1, sizeof memory, stdin) != sizeof memory)
        return 2;
    reply = xm23_write_srec(memory, sizeof memory, (uint16_t)start, (uint32_t)length, (uint16_t)pc, text, sizeof text);
    if (XM23_REFUSAL(reply)) {
        fprintf(stderr, "%s\n", xm23_refusal_text(XM23_REFUSAL(reply)));
        return 1;
    }
    return fwrite(text, 1, XM23_WRITTEN(reply), stdout) == XM23_WRITTEN(reply) ? 0 : 2;
}

int main(int argc, char **argv)
{
    int status = 2;
    if (argc == 2 && strcmp(argv[1], "load") == 0)
        status = load();
    else if (argc == 5 && strcmp(argv[1], "write") == 0)
        status = write_span(argv + 2);
    if (status == 2)
        fprintf(stderr, "usage: srec load < TEXT > MEMORY, or srec write START LENGTH PC < MEMORY > TEXT\n");
    return status;
}
