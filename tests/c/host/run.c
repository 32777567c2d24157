/* Runs: xm23_run, accepted and refused, its log and its depth. */
#include "host.h"

static uint64_t run(uint64_t n)
{
    memcpy(memory_before, memory, sizeof memory);
    memcpy(record_before, record, sizeof record);
    memcpy(events_before, events, sizeof events);
    memcpy(log_before, screen, sizeof screen);
    return xm23_run(memory, memory_len, record, record_len, events, events_len, screen, log_len, &deepest, n);
}

/* The run is refused with the number alone, and every buffer and the depth are as they were. */
static void turned_back(const char *what, uint64_t n, unsigned refusal)
{
    uint32_t given = deepest;
    uint64_t reply = run(n);
    same(what, deepest, given);
    same(what, XM23_RUN_REFUSAL(reply), refusal);
    same(what, reply, refusal);
    same(what, (uint64_t)memcmp(memory, memory_before, sizeof memory), 0);
    same(what, (uint64_t)memcmp(record, record_before, sizeof record), 0);
    same(what, (uint64_t)memcmp(events, events_before, sizeof events), 0);
    same(what, (uint64_t)memcmp(screen, log_before, sizeof screen), 0);
}

/* The run goes so far and adds so many records; the rest of the log is as it was. */
static void ran_logging(const char *what, uint64_t n, unsigned reason, uint32_t steps, uint32_t added)
{
    uint64_t reply = run(n);
    size_t used = XM23_LOG_SIZE * added;
    same(what, XM23_RUN_REFUSAL(reply), XM23_ACCEPTED);
    same(what, XM23_RUN_REASON(reply), reason);
    same(what, XM23_RUN_STEPS(reply), steps);
    same(what, XM23_RUN_ADDED(reply), added);
    same(what, (uint64_t)memcmp(events, events_before, sizeof events), 0);
    same(what, (uint64_t)memcmp(screen + used, log_before + used, sizeof screen - used), 0);
    same(what, deepest <= steps, 1);
}

static void ran(const char *what, uint64_t n, unsigned reason, uint32_t steps)
{
    ran_logging(what, n, reason, steps, 0);
}

static void accepted_runs(void)
{
    static const uint8_t counts[] = {0x21, 0x43, 0x65, 0x87};
    unsigned d;
    example();
    ran("example", 1, XM23_REASON_DONE, 1);
    same("depth", deepest, 1);
    same("LR", two(record + XM23_RECORD_REGISTER(5)), 0xFFFF);
    same("SP", two(record + XM23_RECORD_REGISTER(6)), 0x07F8);
    same("PC", two(record + XM23_RECORD_REGISTER(7)), 0);
    same("PSW", two(record + XM23_RECORD_PSW), 0xE100);
    same("FLT", two(record + XM23_RECORD_PSW) & XM23_PSW_FLT, XM23_PSW_FLT);
    same("previous priority", XM23_PSW_PREVIOUS(two(record + XM23_RECORD_PSW)), 7);
    same("step count", two(record + XM23_RECORD_COUNT), 1);
    same("pushed PC", two(memory + 0x07FE), 0x0801);

    /* LD R0,R1 of an odd word: fault 9, with the address after the instruction. LD.B there loads the byte. */
    example();
    put_two(record + XM23_RECORD_REGISTER(0), 0x0101);
    put_two(record + XM23_RECORD_REGISTER(7), 0x1000);
    put_two(memory + 0x0100, 0x1234);
    put_two(memory + 0x1000, 0x5801);
    ran("odd word", 1, XM23_REASON_DONE, 1);
    same("odd word, R1", two(record + XM23_RECORD_REGISTER(1)), 0);
    same("odd word, PSW", two(record + XM23_RECORD_PSW), 0xE100);
    same("odd word, pushed PC", two(memory + 0x07FE), 0x1002);
    example();
    put_two(record + XM23_RECORD_REGISTER(0), 0x0101);
    put_two(record + XM23_RECORD_REGISTER(7), 0x1000);
    put_two(memory + 0x0100, 0x1234);
    put_two(memory + 0x1000, 0x5841);
    ran("odd byte", 1, XM23_REASON_DONE, 1);
    same("odd byte, R1", two(record + XM23_RECORD_REGISTER(1)), 0x12);
    same("odd byte, PC", two(record + XM23_RECORD_REGISTER(7)), 0x1002);

    /* An event on an input device, with a line that waits below priority 7. */
    example();
    put_two(record + XM23_RECORD_REGISTER(7), 0x1000);
    put_two(memory + 0x1000, 0x3FFF);
    memory[4] = 0x13;
    put_event(0, 1, 2, 0x55);
    events_len = XM23_EVENT_SIZE;
    ran("event", 3, XM23_REASON_DONE, 3);
    same("status and data", two(memory + 4), 0x5517);
    for (d = 0; d < 8; d++)
        same("line", XM23_RECORD_WAITING(record, d), d == 2);

    /* Twenty events of one device, of which its line counts fifteen; every nibble in its place. */
    example();
    put_two(record + XM23_RECORD_REGISTER(7), 0x1000);
    put_two(memory + 0x1000, 0x3FFF);
    memory[4] = 0x11;
    memcpy(record + XM23_RECORD_LINES, counts, sizeof counts);
    for (d = 0; d < 20; d++)
        put_event(d, d, 2, 0);
    events_len = 20 * XM23_EVENT_SIZE;
    ran("twenty events", 20, XM23_REASON_DONE, 20);
    for (d = 0; d < 8; d++)
        same("waiting", XM23_RECORD_WAITING(record, d), d == 2 ? 15 : d + 1);
    same("byte 20", record[XM23_RECORD_ZERO], 0);

    /* A second fault halts, and a halted machine takes no step. */
    example();
    record[XM23_RECORD_PSW + 1] |= XM23_PSW_FLT >> 8;
    ran("halts", 9, XM23_REASON_HALTED, 1);
    same("halted", record[XM23_RECORD_HALTED], 1);
    ran("halted", 9, XM23_REASON_HALTED, 0);
    ran("halted, no step", 0, XM23_REASON_HALTED, 0);
}

/* How deep a run went: of that call alone, the greatest and not the last, hundreds of thousands too. */
static void depths(void)
{
    nest();
    ran("no step", 0, XM23_REASON_DONE, 0);
    same("no step, depth", deepest, 0);
    ran("a trap", 1, XM23_REASON_DONE, 1);
    same("a trap, depth", deepest, 1);
    ran("two more", 6, XM23_REASON_DONE, 6);
    same("of this run alone", deepest, 2);
    nest();
    ran("a million steps", XM23_MAX_STEPS, XM23_REASON_DONE, XM23_MAX_STEPS);
    same("a million steps, depth", deepest, 333334);

    /* The handler returns: the greatest and not the last. The next call returns with none of its own open. */
    nest();
    put_two(memory + 0x2000, 0x4C2F); /* MOV LR,PC */
    put_two(memory + 0x1002, 0x3FFF); /* BRA to itself */
    ran("a trap and its return", 3, XM23_REASON_DONE, 3);
    same("closed again", deepest, 1);
    put_two(record + XM23_RECORD_REGISTER(7), 0xFFFF);
    put_two(record + XM23_RECORD_REGISTER(6), 0x07F8);
    ran("a return with none open", 1, XM23_REASON_DONE, 1);
    same("a return with none open, depth", deepest, 0);

    /* A fault that halts opens none. */
    example();
    record[XM23_RECORD_PSW + 1] |= XM23_PSW_FLT >> 8;
    ran("halts", 9, XM23_REASON_HALTED, 1);
    same("halts, depth", deepest, 0);

    /* Any number goes in, and comes back where the run is refused. */
    example();
    deepest = UINT32_MAX;
    turned_back("refused, depth", XM23_MAX_STEPS + 1, XM23_REFUSED_STEPS);
    same("as it was", deepest, UINT32_MAX);
}

/* A record of the log: its step, device and byte, and two bytes of 0. */
static void logged(const char *what, size_t i, uint32_t step, unsigned device, unsigned byte)
{
    const uint8_t *at = screen + XM23_LOG_SIZE * i;
    same(what, two(at + XM23_LOG_STEP) | (uint32_t)two(at + XM23_LOG_STEP + 2) << 16, step);
    same(what, at[XM23_LOG_DEVICE], device);
    same(what, at[XM23_LOG_BYTE], byte);
    same(what, two(at + XM23_LOG_ZERO), 0);
}

/* A program that shows the characters from A on, one every third step, on device 2 from step count 65,536 on. */
static void typewriter(void)
{
    example();
    put_two(record + XM23_RECORD_REGISTER(0), 4);
    put_two(record + XM23_RECORD_REGISTER(1), 'A');
    put_two(record + XM23_RECORD_REGISTER(7), 0x1000);
    put_two(record + XM23_RECORD_COUNT + 2, 1);
    put_two(memory + 0x1000, 0xC0C8); /* STR.B R1,R0,$1 */
    put_two(memory + 0x1002, 0x4089); /* ADD $1,R1 */
    put_two(memory + 0x1004, 0x3FFD); /* BRA to the store */
    memory[4] = 0x10;                 /* device 2: output, ENA */
}

static void logs(void)
{
    typewriter();
    log_len = 3 * XM23_LOG_SIZE;
    ran_logging("three characters", 7, XM23_REASON_DONE, 7, 3);
    logged("the first", 0, 65536, 2, 'A');
    logged("the second", 1, 65539, 2, 'B');
    logged("the third", 2, 65542, 2, 'C');
    same("data", memory[5], 'C');

    /* The log is full; the run goes on to the step that would show the fourth. */
    typewriter();
    log_len = 3 * XM23_LOG_SIZE;
    put_event(0, 65545, 2, 0);
    events_len = XM23_EVENT_SIZE;
    ran_logging("no room for the fourth", 30, XM23_REASON_LOG, 9, 3);
    same("step count", two(record + XM23_RECORD_COUNT), 9);
    same("PC", two(record + XM23_RECORD_REGISTER(7)), 0x1000);
    same("no event is applied", two(memory + 4), 'C' * 256 + 0x10);
    ran_logging("with a fresh log", 1, XM23_REASON_DONE, 1, 1);
    logged("the fourth", 0, 65545, 2, 'D');
    same("the event, and the store", two(memory + 4), 'D' * 256 + 0x10);

    /* No log at all, n 0, a device that is not enabled, an input device. */
    typewriter();
    ran_logging("no log", 5, XM23_REASON_LOG, 0, 0);
    ran_logging("no log and no step", 0, XM23_REASON_DONE, 0, 0);
    memory[4] = 0x00;
    ran_logging("ENA clear", 5, XM23_REASON_DONE, 5, 0);
    typewriter();
    memory[4] = 0x12;
    ran_logging("an input device", 5, XM23_REASON_DONE, 5, 0);

    /* Refusal 9 comes last, and whatever n is. */
    typewriter();
    for (log_len = 1; log_len < 8; log_len++)
        turned_back("half a log record", 5, XM23_REFUSED_LOG);
    log_len = 9;
    turned_back("no step asked for", 0, XM23_REFUSED_LOG);
    events_len = 2 * XM23_EVENT_SIZE;
    turned_back("twins and the log", 5, XM23_REFUSED_EVENT_TWINS);
    put_event(1, 1, 0, 0);
    turned_back("the log alone", 5, XM23_REFUSED_LOG);
}

/* The far side of each rule that still passes. */
static void near_misses(void)
{
    size_t i;
    example();
    ran("n 0", 0, XM23_REASON_DONE, 0);
    same("nothing done", (uint64_t)memcmp(record, record_before, sizeof record), 0);
    memset(record + XM23_RECORD_COUNT, 0xFF, 4);
    ran("highest count, n 0", 0, XM23_REASON_DONE, 0);
    record[XM23_RECORD_COUNT] = 0xFE;
    ran("highest sum", 1, XM23_REASON_DONE, 1);
    example();
    put_two(record + XM23_RECORD_REGISTER(7), 0x1000);
    put_two(memory + 0x1000, 0x3FFF);
    ran("n 1,000,000", XM23_MAX_STEPS, XM23_REASON_DONE, XM23_MAX_STEPS);
    for (i = 0; i < XM23_MAX_EVENTS; i++)
        put_event(i, (uint32_t)(i / 8), (unsigned)(7 - i % 8), 0);
    events_len = XM23_EVENT_SIZE * XM23_MAX_EVENTS;
    ran("4,096 events", 1, XM23_REASON_DONE, 1);
    put_two(record + XM23_RECORD_PSW, 0xE1FF);
    put_two(record + XM23_RECORD_CEX, 0x007F);
    memset(record + XM23_RECORD_LINES, 0xFF, 4);
    ran("every bit in use", 1, XM23_REASON_DONE, 1);
}

/* Each refusal, in the order of the numbers. */
static void refused_runs(void)
{
    static const unsigned zero_bits[] = {16 * 8 + 9,  16 * 8 + 10, 16 * 8 + 11, 16 * 8 + 12, 18 * 8 + 7, 18 * 8 + 8,
                                         18 * 8 + 15, 20 * 8,      20 * 8 + 7,  21 * 8 + 1,  21 * 8 + 7, 30 * 8,
                                         30 * 8 + 5,  31 * 8 + 7};
    size_t i;
    example();
    memory_len = XM23_MEMORY_SIZE - 1;
    turned_back("memory too short", 1, XM23_REFUSED_MEMORY);
    memory_len = XM23_MEMORY_SIZE + 1;
    turned_back("memory too long", 1, XM23_REFUSED_MEMORY);
    example();
    turned_back("n 1,000,001", XM23_MAX_STEPS + 1, XM23_REFUSED_STEPS);
    turned_back("n 2^32", (uint64_t)1 << 32, XM23_REFUSED_STEPS);
    turned_back("n 2^64 - 1", UINT64_MAX, XM23_REFUSED_STEPS);
    memset(record + XM23_RECORD_COUNT, 0xFF, 4);
    turned_back("sum", 1, XM23_REFUSED_STEPS);
    record[XM23_RECORD_HALTED] = 1;
    turned_back("sum, halted", 1, XM23_REFUSED_STEPS);
    example();
    record_len = XM23_RECORD_SIZE - 1;
    turned_back("record too short", 1, XM23_REFUSED_RECORD);
    record_len = XM23_RECORD_SIZE + 1;
    turned_back("record too long", 1, XM23_REFUSED_RECORD);
    for (i = 0; i < sizeof zero_bits / sizeof *zero_bits; i++) {
        example();
        record[zero_bits[i] / 8] |= (uint8_t)(1u << zero_bits[i] % 8);
        turned_back("zero bit", 1, XM23_REFUSED_RECORD_BITS);
    }
    example();
    events_len = 7;
    turned_back("half an event", 1, XM23_REFUSED_EVENTS);
    events_len = XM23_EVENT_SIZE * (XM23_MAX_EVENTS + 1);
    turned_back("4,097 events", 1, XM23_REFUSED_EVENTS);
    example();
    events_len = 2 * XM23_EVENT_SIZE;
    put_event(1, 0, 8, 0);
    turned_back("device 8", 1, XM23_REFUSED_EVENT_FIELDS);
    put_event(1, 0, 7, 0);
    events[XM23_EVENT_SIZE + XM23_EVENT_ZERO + 1] = 1;
    turned_back("byte 7", 1, XM23_REFUSED_EVENT_FIELDS);
    put_event(0, 5, 0, 0);
    turned_back("byte 7 and the order", 1, XM23_REFUSED_EVENT_FIELDS);
    put_event(1, 4, 0, 0);
    turned_back("order", 1, XM23_REFUSED_EVENT_ORDER);
    put_event(1, 5, 1, 0);
    ran("equal steps", 1, XM23_REASON_DONE, 1);
    events_len = 3 * XM23_EVENT_SIZE;
    put_event(2, 5, 0, 1);
    turned_back("one device twice on a step", 1, XM23_REFUSED_EVENT_TWINS);
    turned_back("the same, no step asked for", 0, XM23_REFUSED_EVENT_TWINS);
    put_event(1, 4, 1, 0);
    turned_back("twins and the order", 1, XM23_REFUSED_EVENT_ORDER);
    put_event(1, 5, 1, 0);
    put_event(2, 6, 0, 0);
    ran("the step after", 1, XM23_REASON_DONE, 1);
}

/* No bytes: no list of events, and a memory and a record that are not there. */
static void nothing_lent(void)
{
    example();
    same("no events",
         XM23_RUN_STEPS(xm23_run(memory, memory_len, record, record_len, NULL, 0, NULL, 0, &deepest, 1)), 1);
    same("its depth", deepest, 1);
    same("no record", xm23_run(memory, memory_len, NULL, 0, NULL, 0, NULL, 0, &deepest, 1), XM23_REFUSED_RECORD);
    same("nothing", xm23_run(NULL, 0, NULL, 0, NULL, 0, NULL, 0, &deepest, UINT64_MAX), XM23_REFUSED_MEMORY);
    same("as it was", deepest, 1);
}

void run_calls(void)
{
    accepted_runs();
    near_misses();
    refused_runs();
    logs();
    depths();
    nothing_lent();
}
