/*
 * Keeps several machines open, over libxm23.a: each is advanced by slices of steps in turn, and in the end one line is
 * printed for each, the line of print_state. The first slice is handed all events; a later one only those still to come.
 * What the output devices show is read from a short log after each slice; a slice that the log has no room for goes on
 * in the next turn. With SCREEN set in the environment, the bytes that a machine's devices showed are printed below its
 * line. The depth, the line's last field, is of the whole run, where a slice gives its own: the sheet is asked for it.
 *
 *   host SLICE INPUT..      SLICE is how many steps at a time, an INPUT a file as print_state reads it
 */

#include <stdio.h>
#include <stdlib.h>
#include <string.h>

#include "xm23.h"

#define HEAD (4 + XM23_RECORD_SIZE)
#define LEAST (HEAD + XM23_MEMORY_SIZE)
#define MOST (LEAST + XM23_EVENT_SIZE * (XM23_MAX_EVENTS + 1))
#define RECORDS 32 /* of the log; a host that wants no turn cut short lends as many as a slice has steps */

/* An open machine: the input as it was read, the record and the memory, which are advanced, and how far it has come. */
struct machine {
    const char *name;
    uint8_t input[MOST];
    size_t length;
    uint8_t record[XM23_RECORD_SIZE], memory[XM23_MEMORY_SIZE];
    size_t passed; /* bytes of events, from the list's beginning on, that are passed over */
    uint32_t steps;
    unsigned refusal, reason;
    uint8_t *shown; /* device and byte, two bytes each */
    size_t shown_len;
};

static uint32_t two(const uint8_t *at)
{
    return at[0] | (uint32_t)at[1] << 8;
}

/* Reads an input. One that is too short has no machine; more than 4,096 events are refused by the call. */
static struct machine *open_machine(const char *name)
{
    struct machine *m = (struct machine *)calloc(1, sizeof *m);
    FILE *file = fopen(name, "rb");
    if (!m || !file) {
        perror(name);
        exit(1);
    }
    m->name = name;
    m->length = fread(m->input, 1, sizeof m->input, file);
    fclose(file);
    if (m->length < HEAD)
        m->refusal = XM23_REFUSED_RECORD;
    else if (m->length < LEAST)
        m->refusal = XM23_REFUSED_MEMORY;
    memcpy(m->record, m->input + 4, sizeof m->record);
    memcpy(m->memory, m->input + HEAD, sizeof m->memory);
    return m;
}

static uint32_t four(const uint8_t *at)
{
    return two(at) | two(at + 2) << 16;
}

/* The n of the input. */
static uint32_t asked(const struct machine *m)
{
    return four(m->input);
}

/* A run that is too long as a whole is handed to the call as a whole, to be refused. */
static int too_long(const struct machine *m)
{
    uint32_t count = four(m->record + XM23_RECORD_COUNT);
    return asked(m) > XM23_MAX_STEPS || UINT32_MAX - count < asked(m) - m->steps;
}

/* Keeps what the records of the log say. */
static void keep(struct machine *m, const uint8_t *log, uint32_t records)
{
    uint8_t *all = (uint8_t *)realloc(m->shown, m->shown_len + 2 * records + 1);
    uint32_t i;
    if (!all) {
        perror(m->name);
        exit(1);
    }
    m->shown = all;
    for (i = 0; i < records; i++) {
        all[m->shown_len++] = log[XM23_LOG_SIZE * i + XM23_LOG_DEVICE];
        all[m->shown_len++] = log[XM23_LOG_SIZE * i + XM23_LOG_BYTE];
    }
}

/*
 * Leaves out the events of steps before the machine's: handed over or not, they do nothing, and what is left of an
 * accepted list is accepted (crates/passed_over). Only after an accepted call: it has judged the whole list.
 */
static void pass_over(struct machine *m)
{
    uint32_t count = four(m->record + XM23_RECORD_COUNT);
    while (LEAST + m->passed < m->length && four(m->input + LEAST + m->passed + XM23_EVENT_STEP) < count)
        m->passed += XM23_EVENT_SIZE;
}

/* The machine's call, with the events still to come. The depth that it gives is the slice's own. */
static uint64_t run(struct machine *m, uint64_t n)
{
    uint8_t log[XM23_LOG_SIZE * RECORDS];
    uint32_t deepest = 0;
    uint64_t reply = xm23_run(m->memory, sizeof m->memory, m->record, sizeof m->record, m->input + LEAST + m->passed,
                              m->length - LEAST - m->passed, log, sizeof log, &deepest, n);
    keep(m, log, XM23_RUN_ADDED(reply));
    if (!XM23_RUN_REFUSAL(reply))
        pass_over(m);
    return reply;
}

/* Advances a machine by a slice. Gives whether it has more to do. */
static int advance(struct machine *m, uint32_t slice)
{
    uint32_t left = asked(m) - m->steps;
    uint64_t reply;
    if (m->refusal || m->reason == XM23_REASON_HALTED)
        return 0;
    reply = run(m, left < slice || too_long(m) ? left : slice);
    m->refusal = XM23_RUN_REFUSAL(reply);
    m->reason = XM23_RUN_REASON(reply);
    m->steps += XM23_RUN_STEPS(reply);
    return !m->refusal && m->reason != XM23_REASON_HALTED && m->steps < asked(m);
}

/* What a device showed; a byte that is no character as [0A]. */
static void print_shown(const struct machine *m, unsigned device)
{
    size_t i;
    int any = 0;
    for (i = 0; i < m->shown_len; i += 2) {
        unsigned byte = m->shown[i + 1];
        if (m->shown[i] != device)
            continue;
        if (!any)
            printf("  device %u: ", device);
        any = 1;
        if (byte >= ' ' && byte <= '~')
            putchar((int)byte);
        else
            printf("[%02X]", byte);
    }
    if (any)
        putchar('\n');
}

/* The depth of the whole run: the last field of the sheet's line, which runs the input as it was read. */
static const char *depth(const struct machine *m, char line[XM23_LINE_SIZE])
{
    uint32_t reply = xm23_sheet(m->input, m->length, (uint8_t *)line, XM23_LINE_SIZE);
    const char *last;
    line[XM23_LINE_LENGTH(reply) - 1] = '\0'; /* its LF */
    last = strrchr(line, ' ');
    return last ? last + 1 : line; /* of a refused run the line is one word */
}

static void print_line(const struct machine *m)
{
    const uint8_t *record = m->record;
    char line[XM23_LINE_SIZE];
    int i;
    if (m->refusal) {
        printf("R%u\n", m->refusal);
        fprintf(stderr, "%s: refused: %s\n", m->name, xm23_refusal_text(m->refusal));
        return;
    }
    printf("%u %u", m->reason, (unsigned)m->steps);
    for (i = 0; i < 8; i++)
        printf(" %04X", (unsigned)two(record + XM23_RECORD_REGISTER(i)));
    printf(" %04X %02X ", (unsigned)two(record + XM23_RECORD_PSW), record[XM23_RECORD_CEX]);
    for (i = 7; i >= 0; i--)
        printf("%X", XM23_RECORD_WAITING(record, i));
    printf(" %s\n", depth(m, line));
}

int main(int argc, char **argv)
{
    uint32_t slice = argc > 2 ? (uint32_t)strtoul(argv[1], NULL, 10) : 0;
    struct machine **open;
    int machines = argc - 2, i, busy = 1;
    if (slice == 0) {
        fprintf(stderr, "host SLICE INPUT..\n");
        return 2;
    }
    open = (struct machine **)calloc((size_t)machines, sizeof *open);
    if (!open)
        return 1;
    for (i = 0; i < machines; i++)
        open[i] = open_machine(argv[2 + i]);
    while (busy)
        for (busy = 0, i = 0; i < machines; i++)
            busy |= advance(open[i], slice);
    for (i = 0; i < machines; i++) {
        unsigned device;
        print_line(open[i]);
        for (device = 0; getenv("SCREEN") && device < 8; device++)
            print_shown(open[i], device);
        free(open[i]->shown);
        free(open[i]);
    }
    free(open);
    return 0;
}
