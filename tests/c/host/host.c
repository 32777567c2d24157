/* Calls every function of xm23.h, accepted and refused, and prints how many checks passed. C99 and C++. */
#include "host.h"

#include <inttypes.h>
#include <stdio.h>

static unsigned passed, failed;

void same(const char *what, uint64_t got, uint64_t expected)
{
    if (got == expected) {
        passed++;
    } else {
        failed++;
        printf("%s: got %016" PRIX64 ", expected %016" PRIX64 "\n", what, got, expected);
    }
}

uint8_t memory[XM23_MEMORY_SIZE + 1], record[XM23_RECORD_SIZE + 1];
uint8_t events[XM23_EVENT_SIZE * (XM23_MAX_EVENTS + 1)];
uint8_t memory_before[sizeof memory], record_before[sizeof record], events_before[sizeof events];
uint8_t screen[XM23_LOG_SIZE * 4], log_before[sizeof screen];
size_t memory_len, record_len, events_len, log_len;
uint32_t deepest;

void put_two(uint8_t *at, unsigned value)
{
    at[0] = (uint8_t)value;
    at[1] = (uint8_t)(value >> 8);
}

unsigned two(const uint8_t *at)
{
    return at[0] | (unsigned)at[1] << 8;
}

void put_event(size_t i, uint32_t step, unsigned device, unsigned data)
{
    uint8_t *at = events + XM23_EVENT_SIZE * i;
    put_two(at + XM23_EVENT_STEP, step & 0xFFFF);
    put_two(at + XM23_EVENT_STEP + 2, step >> 16);
    at[XM23_EVENT_DEVICE] = (uint8_t)device;
    at[XM23_EVENT_DATA] = (uint8_t)data;
    put_two(at + XM23_EVENT_ZERO, 0);
}

void example(void)
{
    memset(memory, 0, sizeof memory);
    memset(record, 0, sizeof record);
    memset(events, 0, sizeof events);
    memory_len = XM23_MEMORY_SIZE;
    record_len = XM23_RECORD_SIZE;
    events_len = 0;
    memset(screen, 0x5A, sizeof screen);
    log_len = 0;
    deepest = 0xABCD1234;
    put_two(record + XM23_RECORD_REGISTER(7), 0x0801);
    put_two(record + XM23_RECORD_REGISTER(6), 0x0800);
    put_two(record + XM23_RECORD_PSW, 0x60E0);
}

void nest(void)
{
    example();
    put_two(record + XM23_RECORD_REGISTER(4), 0x0800);
    put_two(record + XM23_RECORD_REGISTER(7), 0x1000);
    put_two(record + XM23_RECORD_PSW, 0);
    put_two(memory + 0x1000, 0x4DAB);            /* SVC #11 */
    put_two(memory + 0x2000, 0x4C26);            /* MOV R4,SP */
    put_two(memory + 0x2002, 0x4D80);            /* SETPRI #0 */
    put_two(memory + 0x2004, 0x4DAB);            /* SVC #11 */
    put_two(memory + XM23_VECTORS + 44, 0x0020); /* vector 11: priority 1 */
    put_two(memory + XM23_VECTORS + 46, 0x2000);
}

int main(void)
{
    instruction_calls();
    range_calls();
    run_calls();
    journal_calls();
    judge_calls();
    trace_calls();
    srec_calls();
    stack_calls();
    assemble_calls();
    places_calls();
    text_calls();
    sheet_calls();
    printf("%u passed, %u failed\n", passed, failed);
    return failed != 0;
}
