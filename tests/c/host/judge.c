/* Judged runs: xm23_judge. */
#include "host.h"

static uint8_t writers[XM23_WRITERS_SIZE + 1], writers_before[sizeof writers];
static uint8_t findings[XM23_FINDINGS_SIZE + 1], findings_before[sizeof findings];
static size_t writers_len, findings_len;

/* A loop that loads R2 from #0200; device 1, an input, enabled, with a handler of two words at #0140; an event at step
 * 1. Buffers that are not clear. */
static void watched(unsigned first)
{
    example();
    put_two(record + XM23_RECORD_PSW, 0);
    put_two(record + XM23_RECORD_REGISTER(0), 7);
    put_two(record + XM23_RECORD_REGISTER(1), 0x0200);
    put_two(record + XM23_RECORD_REGISTER(7), 0x0100);
    memory[2] = 0x13;
    put_two(memory + 0x0100, 0x580A); /* LD R1,R2 */
    put_two(memory + 0x0102, 0x3FFE); /* BRA to the load */
    put_two(memory + 0x0140, first);
    put_two(memory + 0x0142, 0x4C2F); /* MOV LR,PC */
    put_two(memory + XM23_VECTORS + 4, 0x0040);
    put_two(memory + XM23_VECTORS + 6, 0x0140);
    put_event(0, 1, 1, 9);
    events_len = XM23_EVENT_SIZE;
    memset(writers, 0x77, sizeof writers);
    memset(findings, 0x88, sizeof findings);
    writers_len = XM23_WRITERS_SIZE;
    findings_len = XM23_FINDINGS_SIZE;
}

static uint64_t judge(uint64_t n)
{
    memcpy(memory_before, memory, sizeof memory);
    memcpy(record_before, record, sizeof record);
    memcpy(events_before, events, sizeof events);
    memcpy(writers_before, writers, sizeof writers);
    memcpy(findings_before, findings, sizeof findings);
    return xm23_judge(memory, memory_len, record, record_len, events, events_len, writers, writers_len, findings,
                      findings_len, n);
}

/* The run is judged: all its steps are done, and these kinds are found. */
static void judged(const char *what, uint64_t n, uint32_t kinds)
{
    uint64_t reply = judge(n);
    unsigned k;
    same(what, XM23_JUDGE_REFUSAL(reply), XM23_ACCEPTED);
    same(what, XM23_JUDGE_REASON(reply), XM23_REASON_DONE);
    same(what, XM23_JUDGE_STEPS(reply), n);
    same(what, XM23_JUDGE_KINDS(reply), kinds);
    for (k = XM23_FOUND_START; k <= XM23_FOUND_FOREIGN; k++) {
        same(what, XM23_JUDGE_FOUND(reply, k), kinds >> k & 1);
        same(what, findings[XM23_FINDING_SIZE * k + XM23_FINDING_FOUND], kinds >> k & 1);
    }
    same(what, (uint64_t)memcmp(events, events_before, sizeof events), 0);
    same(what, writers[XM23_WRITERS_SIZE], 0x77);
    same(what, findings[XM23_FINDINGS_SIZE], 0x88);
}

static void found(const char *what, unsigned kind, uint32_t step, unsigned detail, unsigned address, unsigned vector)
{
    const uint8_t *f = findings + XM23_FINDING_SIZE * kind;
    same(what, two(f + XM23_FINDING_STEP) | (uint64_t)two(f + XM23_FINDING_STEP + 2) << 16, step);
    same(what, f[XM23_FINDING_DETAIL], detail);
    same(what, two(f + XM23_FINDING_ADDRESS), address);
    same(what, f[XM23_FINDING_VECTOR], vector);
    same(what, f[XM23_FINDING_RUNNING], vector);
    same(what, two(f + XM23_FINDING_OPENED), vector == XM23_NO_VECTOR ? 0 : 1);
    same(what, two(f + XM23_FINDING_ZERO), 0);
}

static void judgements(void)
{
    static const uint8_t none[XM23_FINDINGS_SIZE] = {0};
    watched(0x4C00); /* MOV R0,R0 */
    judged("sound", 9, 0);
    same("no finding", (uint64_t)memcmp(findings, none, sizeof none), 0);
    same("the frame", writers[0x07F8], XM23_WROTE_OTHER);
    same("above it", writers[0x0800], XM23_WROTE_NONE);
    same("PC goes on", two(record + XM23_RECORD_REGISTER(7)), 0x0102);

    watched(0x4C03); /* MOV R0,R3 */
    judged("R3 is lost", 9, 1u << XM23_FOUND_CHANGED);
    found("R3 is lost", XM23_FOUND_CHANGED, 4, 1 << 3, 0xFFFF, 1);

    watched(0x5C01); /* ST R0,R1 */
    judged("the handler's byte is read", 9, 1u << XM23_FOUND_FOREIGN);
    found("the handler's byte is read", XM23_FOUND_FOREIGN, 6, 0, 0x0200, XM23_NO_VECTOR);
    same("its mark", writers[0x0200], XM23_WROTE_OTHER);

    watched(0x3FFF); /* BRA to itself */
    judged("never returned", 9, 1u << XM23_FOUND_OPEN);
    found("never returned", XM23_FOUND_OPEN, 1, 0, 0, 1);

    watched(0x4DAA); /* SVC #10, whose vector's priority is 0 */
    judged("a fault in the handler", 3, 1u << XM23_FOUND_FAULT | 1u << XM23_FOUND_OPEN);
    found("a fault in the handler", XM23_FOUND_FAULT, 2, 10, 0x0140, 1);

    watched(0x4DAB); /* SVC #11 */
    put_two(memory + XM23_VECTORS + 44, 0x0060);
    put_two(memory + XM23_VECTORS + 46, 0x0142);
    judged("SVC in the handler", 9, 1u << XM23_FOUND_SVC);
    found("SVC in the handler", XM23_FOUND_SVC, 2, 11, 0x0140, 1);

    watched(0x4C00);
    put_two(record + XM23_RECORD_REGISTER(1), 3);
    put_two(memory + 0x0100, 0x5848); /* LD.B R1,R0 */
    judged("a device register", 1, 1u << XM23_FOUND_DEVICE);
    found("a device register", XM23_FOUND_DEVICE, 0, 0, 3, XM23_NO_VECTOR);

    watched(0x4C00);
    put_two(record + XM23_RECORD_REGISTER(7), 0xFFFF);
    judged("a return too many", 1, 1u << XM23_FOUND_RETURN);
    found("a return too many", XM23_FOUND_RETURN, 0, 0, 0xFFFF, XM23_NO_VECTOR);

    watched(0x4C00);
    put_two(record + XM23_RECORD_PSW, 0x0008);
    judged("asleep", 0, 1u << XM23_FOUND_START);
    found("asleep", XM23_FOUND_START, 0, 1, 0x0100, XM23_NO_VECTOR);
    judged("asleep", 1, 1u << XM23_FOUND_START | 1u << XM23_FOUND_SLEEP);
    found("asleep", XM23_FOUND_SLEEP, 0, 0, 0x0100, XM23_NO_VECTOR);

    /* Halted: no step. */
    watched(0x4C00);
    record[XM23_RECORD_HALTED] = 1;
    same("halted", judge(9), (uint64_t)XM23_REASON_HALTED << 8 | (uint64_t)1 << 40);

    /* A frame each two steps: the 257th is not opened. */
    nest();
    events_len = XM23_EVENT_SIZE;
    memory[2] = 0x13;
    put_event(0, 0, 1, 9);
    put_two(memory + XM23_VECTORS + 4, 0x0040);
    put_two(memory + XM23_VECTORS + 6, 0x2002);
    put_two(memory + XM23_VECTORS + 46, 0x2002);
    same("too deep", judge(10000) & 0xFFFFFFFFFF,
         (uint64_t)XM23_REASON_DEEP << 8 | (uint64_t)(2 * XM23_MAX_FRAMES) << 16);
    same("SP", two(record + XM23_RECORD_REGISTER(6)), 0x0800 - 8 * XM23_MAX_FRAMES);
}

static void not_judged(const char *what, uint64_t n, unsigned refusal)
{
    uint64_t reply = judge(n);
    same(what, XM23_JUDGE_REFUSAL(reply), refusal);
    same(what, reply, refusal);
    same(what, (uint64_t)memcmp(memory, memory_before, sizeof memory), 0);
    same(what, (uint64_t)memcmp(record, record_before, sizeof record), 0);
    same(what, (uint64_t)memcmp(events, events_before, sizeof events), 0);
    same(what, (uint64_t)memcmp(writers, writers_before, sizeof writers), 0);
    same(what, (uint64_t)memcmp(findings, findings_before, sizeof findings), 0);
}

static void refused_judgements(void)
{
    static const size_t marks[] = {0, 1, 65535, 65537}, lengths[] = {0, 1, 128, 143, 145};
    size_t i;
    for (i = 0; i < sizeof marks / sizeof *marks; i++) {
        watched(0x4C00);
        writers_len = marks[i];
        not_judged("length of the writers", 5, XM23_REFUSED_JUDGE);
        not_judged("no step asked for", 0, XM23_REFUSED_JUDGE);
    }
    for (i = 0; i < sizeof lengths / sizeof *lengths; i++) {
        watched(0x4C00);
        findings_len = lengths[i];
        not_judged("length of the findings", 5, XM23_REFUSED_JUDGE);
    }
    /* 20 comes last. */
    events_len = 2 * XM23_EVENT_SIZE;
    put_event(1, 1, 1, 8);
    not_judged("13 before 20", 1, XM23_REFUSED_EVENT_TWINS);
    put_event(1, 0, 1, 8);
    not_judged("7", 1, XM23_REFUSED_EVENT_ORDER);
    put_event(1, 1, 8, 8);
    not_judged("6", 1, XM23_REFUSED_EVENT_FIELDS);
    events_len = 1;
    not_judged("5", 1, XM23_REFUSED_EVENTS);
    record[XM23_RECORD_ZERO] = 1;
    not_judged("4", 1, XM23_REFUSED_RECORD_BITS);
    not_judged("2", XM23_MAX_STEPS + 1, XM23_REFUSED_STEPS);
    record_len = 31;
    not_judged("3", 1, XM23_REFUSED_RECORD);
    memory_len = 65535;
    not_judged("1", 1, XM23_REFUSED_MEMORY);
    same("nothing lent", xm23_judge(NULL, 0, NULL, 0, NULL, 0, NULL, 0, NULL, 0, 0), XM23_REFUSED_MEMORY);
}

void judge_calls(void)
{
    judgements();
    refused_judgements();
}
