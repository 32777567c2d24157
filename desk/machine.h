/*
 * machine.h - the one place that runs a machine.
 */
#ifndef MACHINE_H
#define MACHINE_H

#include "paper.h"

struct machine {
    uint8_t memory[XM23_MEMORY_SIZE], record[XM23_RECORD_SIZE];
};

enum { DEVICES = 8 };

/* How a run ended. `screen` takes what the output devices showed, in order, `shown` what each of the eight did; NULL
 * where nobody asks. */
struct outcome {
    unsigned refusal, reason;
    uint32_t steps, deepest;
    struct text *screen, *shown;
};

void run_machine(struct machine *m, const struct paper *p, uint64_t n, struct outcome *o);

unsigned get_word(const uint8_t *bytes, unsigned at);
uint32_t get_long(const uint8_t *bytes, unsigned at);
void put_word(uint8_t *bytes, unsigned at, unsigned value);
unsigned word_at(const uint8_t *memory, unsigned at); /* as the machine reads it: bit 0 dropped */

#endif
