/*
 * Walks back from a wrong byte to the step that wrote it, over libxm23.a:
 *
 *     back PROGRAM STEPS ADDRESS        ADDRESS in base sixteen
 *
 * PROGRAM is a file of S-records. It is run for STEPS steps from the PC of its S9, every register 0 and no events, with
 * a journal of the last 1,024 steps; then one step at a time is gone back, the newest first, until one that wrote the
 * byte is undone: a store of this or of another value, or an entry that pushed over it. Of a device byte, which loads
 * and events change too, it is the step at which it changed. Printed are the byte, the step count before the step, its
 * PC and its instruction.
 *
 * Status: 0; 1 where no step that is kept wrote the byte, or the library refuses; 2 where an argument or the file is no
 * good.
 */
#include <stdio.h>
#include <stdlib.h>
#include <string.h>

#include "xm23.h"

#define DEVICES 16

/* A machine, what is kept of its steps, and where it came from. */
struct desk {
    uint8_t memory[XM23_MEMORY_SIZE], record[XM23_RECORD_SIZE], journal[XM23_MAX_JOURNAL];
    uint32_t kept, place;
};

/* A step that has been undone: the machine before it, and the record that it left in the journal. */
struct step {
    uint8_t after[XM23_RECORD_SIZE];
    const uint8_t *before, *kept;
    uint8_t byte, was;
};

static struct desk desk;

static unsigned two(const uint8_t *at)
{
    return at[0] | (unsigned)at[1] << 8;
}

static unsigned long four(const uint8_t *at)
{
    return two(at) | (unsigned long)two(at + 2) << 16;
}

/* A number of a base, at most `most`, or -1. */
static long number(const char *digits, int base, long most)
{
    char *end;
    long value = strtol(digits, &end, base);
    return *digits && !*end && value >= 0 && value <= most ? value : -1;
}

/* All of a file in a buffer that grows; NULL where it cannot be read. */
static uint8_t *whole_file(const char *name, size_t *length)
{
    FILE *file = fopen(name, "rb");
    size_t room = 65536;
    uint8_t *all = NULL, *more;
    *length = 0;
    if (!file)
        return NULL;
    while ((more = (uint8_t *)realloc(all, room *= 2)) != NULL) {
        all = more;
        *length += fread(all + *length, 1, room - *length, file);
        if (*length < room)
            break;
    }
    if (!more || ferror(file)) {
        free(all);
        all = NULL;
    }
    fclose(file);
    return all;
}

static int refused(const char *name, unsigned refusal)
{
    fprintf(stderr, "%s: R%u: %s\n", name, refusal, xm23_refusal_text(refusal));
    return 1;
}

/* Loads the program, and runs it with a journal and a log long enough. */
static int run(const char *name, uint64_t n)
{
    size_t length;
    uint8_t *text = whole_file(name, &length), *log;
    uint32_t deepest = 0;
    uint64_t reply;
    if (!text) {
        perror(name);
        return 2;
    }
    reply = xm23_load_srec(desk.memory, sizeof desk.memory, text, length, 0);
    free(text);
    if (XM23_REFUSAL(reply))
        return refused(name, XM23_REFUSAL(reply));
    desk.record[XM23_RECORD_REGISTER(7)] = (uint8_t)XM23_LOAD_PC(reply);
    desk.record[XM23_RECORD_REGISTER(7) + 1] = (uint8_t)(XM23_LOAD_PC(reply) >> 8);
    log = (uint8_t *)malloc(XM23_LOG_SIZE * n + 1);
    if (!log) {
        perror(name);
        return 2;
    }
    reply = xm23_run_journal(desk.memory, sizeof desk.memory, desk.record, sizeof desk.record, NULL, 0, log,
                             XM23_LOG_SIZE * n, &deepest, desk.journal, sizeof desk.journal, &desk.kept, &desk.place,
                             n);
    free(log);
    return XM23_RUN_REFUSAL(reply) ? refused(name, XM23_RUN_REFUSAL(reply)) : 0;
}

/* Whether a step entered a handler and so pushed a frame: SP is 8 lower and stands at the address kept, LR is #FFFF. */
static int pushed(const struct step *s)
{
    unsigned before = two(s->before + XM23_RECORD_REGISTER(6)), after = two(s->after + XM23_RECORD_REGISTER(6));
    return ((before - after) & 0xFFFF) == 8 && (after & 0xFFFE) == two(s->kept + XM23_JOURNAL_ADDRESS) &&
           two(s->after + XM23_RECORD_REGISTER(5)) == 0xFFFF;
}

/* How many bytes a step's instruction stored; 0 where it is no ST or STR. */
static unsigned stored(const struct step *s)
{
    unsigned pc = two(s->before + XM23_RECORD_REGISTER(7));
    uint64_t instruction = xm23_decode((uint16_t)two(desk.memory + (pc & 0xFFFE)));
    if (XM23_FORMAT(instruction) == XM23_FORMAT_ST)
        return XM23_FIELD(instruction, 4) == XM23_BYTE_FORM ? 1 : 2;
    if (XM23_FORMAT(instruction) == XM23_FORMAT_STR)
        return XM23_FIELD(instruction, 1) == XM23_BYTE_FORM ? 1 : 2;
    return 0;
}

/* Whether a step wrote the byte. The journal has where it pushed or stored, 0 for a step that did neither. */
static int wrote(const struct step *s, unsigned address)
{
    unsigned at = two(s->kept + XM23_JOURNAL_ADDRESS), bytes = pushed(s) ? 8 : at ? stored(s) : 0;
    return ((address - at) & 0xFFFF) < bytes || (address < DEVICES && s->byte != s->was);
}

/* Undoes the newest step. */
static unsigned undo(struct step *s, unsigned address)
{
    memcpy(s->after, desk.record, sizeof s->after);
    s->byte = desk.memory[address];
    if (xm23_back(desk.memory, sizeof desk.memory, desk.record, sizeof desk.record, desk.journal, sizeof desk.journal,
                  &desk.kept, &desk.place, 1) != XM23_ACCEPTED)
        return 0;
    s->before = desk.record;
    s->kept = desk.journal + XM23_JOURNAL_SIZE * desk.place;
    s->was = desk.memory[address];
    return 1;
}

static void print_step(const struct step *s)
{
    static const char *const names[] = {
        "illegal", "BL",    "BEQ",   "BNE",   "BC",    "BNC",    "BN",  "BGE",   "BLT",   "BRA",  "ADD",
        "ADDC",    "SUB",   "SUBC",  "DADD",  "CMP",   "XOR",    "AND", "OR",    "BIT",   "BIC",  "BIS",
        "MOV",     "SWAP",  "SRA",   "RRC",   "COMP",  "SWPB",   "SXT", "SETPRI", "SVC",  "SETCC", "CLRCC",
        "CEX",     "LD",    "ST",    "MOVL",  "MOVLZ", "MOVLS",  "MOVH", "LDR",  "STR"};
    unsigned pc = two(s->before + XM23_RECORD_REGISTER(7)), word = two(desk.memory + (pc & 0xFFFE));
    printf("step %lu, PC #%04X: ", four(s->before + XM23_RECORD_COUNT), pc);
    if (pc & 1)
        printf("no instruction, fault 9");
    else
        printf("#%04X %s%s", word, names[XM23_RANGE_OPERATION(xm23_range((uint16_t)word))], stored(s) == 1 ? ".B" : "");
    printf("%s, #%02X became #%02X\n", pushed(s) ? ", entry pushed a frame" : "", s->was, s->byte);
}

int main(int argc, char **argv)
{
    long n = argc == 4 ? number(argv[2], 10, XM23_MAX_STEPS) : -1;
    long address = argc == 4 ? number(argv[3], 16, 0xFFFF) : -1;
    struct step s;
    uint32_t kept;
    int status;
    if (n < 0 || address < 0) {
        fprintf(stderr, "usage: back PROGRAM STEPS ADDRESS\n");
        return 2;
    }
    status = run(argv[1], (uint64_t)n);
    if (status)
        return status;
    printf("#%04lX is #%02X after %lu steps\n", address, desk.memory[address], four(desk.record + XM23_RECORD_COUNT));
    kept = desk.kept;
    while (undo(&s, (unsigned)address))
        if (wrote(&s, (unsigned)address)) {
            print_step(&s);
            return 0;
        }
    printf("none of the last %lu steps wrote it\n", (unsigned long)kept);
    return 1;
}
