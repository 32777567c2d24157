/* host.h - what the files of this host share: checks that are counted, and what a call is lent. */
#ifndef HOST_H
#define HOST_H

#include <limits.h>
#include <string.h>

#include "xm23.h"

void same(const char *what, uint64_t got, uint64_t expected);

/* What a run is lent: a byte more than is right, so that a length can be too large by one; and what it was before. */
extern uint8_t memory[XM23_MEMORY_SIZE + 1], record[XM23_RECORD_SIZE + 1];
extern uint8_t events[XM23_EVENT_SIZE * (XM23_MAX_EVENTS + 1)];
extern uint8_t memory_before[sizeof memory], record_before[sizeof record], events_before[sizeof events];
extern uint8_t screen[XM23_LOG_SIZE * 4], log_before[sizeof screen];
extern size_t memory_len, record_len, events_len, log_len;
extern uint32_t deepest;

void put_two(uint8_t *at, unsigned value);
unsigned two(const uint8_t *at);
void put_event(size_t i, uint32_t step, unsigned device, unsigned data);

/* The example of 01's sheet: memory all zero, PC odd at priority 7, no events. */
void example(void);

/* A trap whose handler, at #2000, puts SP back to R4, lowers its priority and traps again. */
void nest(void);

/* The calls, each in the file of its name. */
void instruction_calls(void);
void range_calls(void);
void run_calls(void);
void journal_calls(void);
void judge_calls(void);
void trace_calls(void);
void srec_calls(void);
void stack_calls(void);
void assemble_calls(void);
void places_calls(void);
void text_calls(void);
void sheet_calls(void);

#endif
