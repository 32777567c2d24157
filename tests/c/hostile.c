/*
 * Lends the calls buffers of hostile lengths and contents, and looks at what lies around them. Every buffer stands once
 * with its end at a page that must not be touched and guard bytes before it, and once with its beginning at such a
 * page and guard bytes behind it. A test is all calls of one kind in one place; prints how many passed.
 * 'hostile short' makes fewer calls and leaves out the long runs.
 */
#define _DEFAULT_SOURCE

#include <inttypes.h>
#include <stdio.h>
#include <string.h>
#include <sys/mman.h>
#include <unistd.h>

#include "xm23.h"

#define GUARD 0xA5
/* More than any buffer lent here, and more than any text; multiples of the page's size. */
#define ROOM ((size_t)1 << 17)
#define TEXT_ROOM ((size_t)1 << 18)

static unsigned calls, wrong;

static void check(const char *what, int holds)
{
    if (!holds && wrong++ < 20)
        printf("%s fails in call %u\n", what, calls);
}

/* Room between two pages that must not be touched, and the part of it that is lent. */
struct lent {
    uint8_t *room, *at;
    size_t size, length;
};

static void make(struct lent *b, size_t size)
{
    size_t page = (size_t)sysconf(_SC_PAGESIZE);
    void *all = mmap(NULL, size + 2 * page, PROT_NONE, MAP_PRIVATE | MAP_ANONYMOUS, -1, 0);
    check("room", all != MAP_FAILED);
    b->room = (uint8_t *)all + page;
    check("room", mprotect(b->room, size, PROT_READ | PROT_WRITE) == 0);
    b->at = b->room;
    b->size = size;
    b->length = 0;
    memset(b->room, GUARD, size);
}

/* Lends `length` bytes at the end of the room or at its beginning; the bytes lent before are guards again. */
static void lend(struct lent *b, size_t length, int at_end)
{
    memset(b->at, GUARD, b->length);
    b->at = at_end ? b->room + b->size - length : b->room;
    b->length = length;
}

/* Keeps the first or the last bytes of what is lent; the others are guards again. */
static void shorten(struct lent *b, size_t length, int at_end)
{
    size_t gone = b->length - length;
    memset(at_end ? b->at : b->at + length, GUARD, gone);
    b->at += at_end ? gone : 0;
    b->length = length;
}

static int all_guards(const uint8_t *from, const uint8_t *to)
{
    return from == to || (*from == GUARD && memcmp(from, from + 1, (size_t)(to - from) - 1) == 0);
}

static int guarded(const struct lent *b)
{
    return all_guards(b->room, b->at) && all_guards(b->at + b->length, b->room + b->size);
}

static struct lent memory, record, events, screen, text;
static struct lent number, kept, place; /* those that go in and out, between guards as the buffers are */
static struct lent journal;
static struct lent writers, findings;
static uint8_t memory_before[ROOM], record_before[ROOM], events_before[ROOM], log_before[ROOM];
static uint8_t text_before[TEXT_ROOM], journal_before[ROOM];
static uint8_t writers_before[ROOM], findings_before[ROOM];

static uint64_t next_random = 1;

static uint64_t draw(void)
{
    next_random ^= next_random << 13;
    next_random ^= next_random >> 7;
    next_random ^= next_random << 17;
    return next_random;
}

/* Bytes of no pattern. */
static void scatter(struct lent *b)
{
    size_t i;
    for (i = 0; i < b->length; i++)
        b->at[i] = (uint8_t)(draw() >> 32);
}

/* The records that a call added are whole and in the order of their steps, and the log past them is as it was. */
static void check_log(uint64_t reply)
{
    size_t used = XM23_LOG_SIZE * (size_t)XM23_RUN_ADDED(reply), i;
    uint32_t before = 0;
    int full = used == screen.length;
    check("added", used <= screen.length && XM23_RUN_ADDED(reply) <= XM23_RUN_STEPS(reply));
    check("no room", XM23_RUN_REASON(reply) != XM23_REASON_LOG || full);
    check("past the log's records", memcmp(screen.at + used, log_before + used, screen.length - used) == 0);
    for (i = 0; i < used; i += XM23_LOG_SIZE) {
        const uint8_t *r = screen.at + i, *s = r + XM23_LOG_STEP;
        uint32_t step = s[0] | (uint32_t)s[1] << 8 | (uint32_t)s[2] << 16 | (uint32_t)s[3] << 24;
        check("log record", r[XM23_LOG_DEVICE] < 8 && !r[XM23_LOG_ZERO] && !r[XM23_LOG_ZERO + 1]);
        check("log's order", i == 0 || before < step);
        before = step;
    }
}

/* Lends a number that goes in and out, at the end of its room or at its beginning. */
static uint32_t *lend_number(struct lent *b, uint32_t value, int at_end)
{
    lend(b, sizeof value, at_end);
    memcpy(b->at, &value, sizeof value);
    return (uint32_t *)(void *)b->at;
}

/* Calls, and checks that what is not lent stands, that the reply is well formed and that a refusal changes nothing. */
static uint64_t call(uint64_t n)
{
    uint32_t given = (uint32_t)(draw() >> 16), *deepest = lend_number(&number, given, (int)(calls & 1));
    uint64_t reply;
    calls++;
    memcpy(memory_before, memory.at, memory.length);
    memcpy(record_before, record.at, record.length);
    memcpy(events_before, events.at, events.length);
    memcpy(log_before, screen.at, screen.length);
    reply = xm23_run(memory.at, memory.length, record.at, record.length, events.at, events.length, screen.at,
                     screen.length, deepest, n);
    check("guard bytes", guarded(&memory) && guarded(&record) && guarded(&events) && guarded(&screen));
    check("guard bytes of the depth", guarded(&number));
    check("events", memcmp(events.at, events_before, events.length) == 0);
    if (XM23_RUN_REFUSAL(reply)) {
        check("refusal", (reply >= XM23_REFUSED_MEMORY && reply <= XM23_REFUSED_EVENT_ORDER) ||
                             reply == XM23_REFUSED_EVENT_TWINS || reply == XM23_REFUSED_LOG);
        check("memory as it was", memcmp(memory.at, memory_before, memory.length) == 0);
        check("record as it was", memcmp(record.at, record_before, record.length) == 0);
        check("log as it was", memcmp(screen.at, log_before, screen.length) == 0);
        check("depth as it was", *deepest == given);
    } else {
        check("reply", XM23_RUN_REASON(reply) <= XM23_REASON_LOG && XM23_RUN_STEPS(reply) <= n);
        check("depth", *deepest <= XM23_RUN_STEPS(reply));
        check_log(reply);
    }
    return reply;
}

static unsigned expected(size_t memory_len, size_t record_len, size_t events_len, size_t log_len, uint64_t n)
{
    if (memory_len != XM23_MEMORY_SIZE)
        return XM23_REFUSED_MEMORY;
    if (n > XM23_MAX_STEPS)
        return XM23_REFUSED_STEPS;
    if (record_len != XM23_RECORD_SIZE)
        return XM23_REFUSED_RECORD;
    if (events_len % XM23_EVENT_SIZE || events_len > XM23_EVENT_SIZE * XM23_MAX_EVENTS)
        return XM23_REFUSED_EVENTS;
    return log_len % XM23_LOG_SIZE ? XM23_REFUSED_LOG : XM23_ACCEPTED;
}

/* Whole records of a list that is accepted: every device on each step, one step after the other. */
static void list_events(void)
{
    size_t i;
    memset(events.at, 0, events.length);
    for (i = 0; i + XM23_EVENT_SIZE <= events.length; i += XM23_EVENT_SIZE) {
        events.at[i + XM23_EVENT_STEP] = (uint8_t)(i / 64);
        events.at[i + XM23_EVENT_STEP + 1] = (uint8_t)(i / 64 >> 8);
        events.at[i + XM23_EVENT_DEVICE] = i / 8 % 8;
    }
}

/*
 * The four buffers of these lengths, all bytes 0: the refusal goes by lengths and n alone. Where nothing before the log
 * is refused, a list of equal records is, before the log.
 */
static void by_lengths(const size_t length[4], uint64_t n, int at_end)
{
    unsigned refusal = expected(length[0], length[1], length[2], length[3], n);
    lend(&memory, length[0], at_end);
    lend(&record, length[1], at_end);
    lend(&events, length[2], at_end);
    lend(&screen, length[3], at_end);
    memset(memory.at, 0, memory.length);
    memset(record.at, 0, record.length);
    scatter(&screen);
    list_events();
    check("refusal by lengths", XM23_RUN_REFUSAL(call(n)) == refusal);
    if ((refusal == XM23_ACCEPTED || refusal == XM23_REFUSED_LOG) && events.length > XM23_EVENT_SIZE) {
        memset(events.at, 0, events.length);
        check("twins", call(n) == XM23_REFUSED_EVENT_TWINS);
    }
}

/* Every combination of lengths and numbers, with a log of a length of its own for each. */
static void lengths(int at_end, int brief)
{
    static const size_t memories[] = {0, 1, 35, 65535, 65536, 65537, 131072};
    static const size_t records[] = {0, 1, 17, 21, 25, 31, 32, 33, 64};
    static const size_t lists[] = {0, 1, 7, 8, 9, 32760, 32767, 32768, 32769, 32776, 65536};
    static const size_t logs[] = {0, 1, 7, 8, 9, 16, 63, 64, 65536, 65537, 131072};
    static const uint64_t numbers[] = {0, 1, 2, 1000000, 1000001, 0xFFFFFFFF, (uint64_t)1 << 32, UINT64_MAX};
    size_t m, r, e, n, l = 0;
    for (m = 0; m < sizeof memories / sizeof *memories; m++)
        for (r = 0; r < sizeof records / sizeof *records; r++)
            for (e = 0; e < sizeof lists / sizeof *lists; e++)
                for (n = 0; n < sizeof numbers / sizeof *numbers; n++) {
                    const size_t log = logs[l++ % (sizeof logs / sizeof *logs)];
                    const size_t length[4] = {memories[m], records[r], lists[e], log};
                    if (!brief || (numbers[n] != 1000000 && (m + r + e + n) % 5 == 0))
                        by_lengths(length, numbers[n], at_end);
                }
    for (l = 0; l < sizeof logs / sizeof *logs; l++)
        for (e = 0; e < sizeof lists / sizeof *lists; e++)
            for (n = 0; n < 3; n++) {
                const size_t length[4] = {XM23_MEMORY_SIZE, XM23_RECORD_SIZE, lists[e], logs[l]};
                if (!brief || (l + e + n) % 5 == 0)
                    by_lengths(length, numbers[n], at_end);
            }
}

static void put_two(uint8_t *at, unsigned value)
{
    at[0] = (uint8_t)value;
    at[1] = (uint8_t)(value >> 8);
}

/* A program that shows a byte every third step, with a log of every length up to the bytes that it needs, and more. */
static void screens(int at_end, int brief)
{
    size_t length;
    uint64_t n;
    for (length = 0; length <= 100; length += brief ? 6 : 1)
        for (n = 0; n < 34; n += brief ? 11 : 1 + n / 4) {
            uint32_t records = (uint32_t)(length / 8), needed = (uint32_t)((n + 2) / 3);
            uint32_t added = records < needed ? records : needed;
            uint64_t reply;
            lend(&memory, XM23_MEMORY_SIZE, at_end);
            lend(&record, XM23_RECORD_SIZE, at_end);
            lend(&events, 0, at_end);
            lend(&screen, length, at_end);
            memset(memory.at, 0, memory.length);
            memset(record.at, 0, record.length);
            scatter(&screen);
            put_two(memory.at + 14, 0x10);       /* device 7: output, ENA */
            put_two(memory.at + 0x1000, 0xC7C8); /* STR.B R1,R0,$15 */
            put_two(memory.at + 0x1002, 0x4089); /* ADD $1,R1 */
            put_two(memory.at + 0x1004, 0x3FFD); /* BRA to the store */
            put_two(record.at + XM23_RECORD_REGISTER(7), 0x1000);
            reply = call(n);
            if (length % 8) {
                check("log's length", reply == XM23_REFUSED_LOG);
                continue;
            }
            check("added", XM23_RUN_ADDED(reply) == added);
            check("reason", XM23_RUN_REASON(reply) == (added < needed ? XM23_REASON_LOG : XM23_REASON_DONE));
            check("steps", XM23_RUN_STEPS(reply) == (added < needed ? 3 * added : n));
        }
}

/* Junk in every buffer, with lengths that are mostly right. */
static void junk(int at_end, int rounds)
{
    int i;
    for (i = 0; i < rounds; i++) {
        uint64_t pick = draw();
        lend(&memory, pick % 8 ? 65536 : 65535 + pick / 8 % 3, at_end);
        lend(&record, pick / 64 % 8 ? 32 : pick / 512 % 40, at_end);
        lend(&events, pick / 4096 % 4 ? 8 * (pick / 65536 % 20) : pick / 65536 % 40000, at_end);
        scatter(&memory);
        scatter(&record);
        scatter(&events);
        lend(&screen, pick / 7 % 3 ? 8 * (pick >> 33 & 15) : pick >> 33 & 255, at_end);
        scatter(&screen);
        if (record.length == 32 && pick >> 40 & 3) {
            record.at[XM23_RECORD_PSW + 1] &= 0xE1;
            record.at[XM23_RECORD_CEX] &= 0x7F;
            record.at[XM23_RECORD_CEX + 1] = 0;
            record.at[XM23_RECORD_HALTED] = 0;
            record.at[XM23_RECORD_ZERO] = 0;
            memset(record.at + XM23_RECORD_ZEROS, 0, 2);
        }
        if (pick >> 42 & 3)
            lend(&events, 0, at_end);
        call(pick >> 50);
    }
}

/* ---- judged runs */

/* Judges what is lent: refused, nothing changes; accepted, it is the run of xm23_run with a log long enough, and marks
 * and findings are well formed. */
static uint64_t judge(uint64_t n)
{
    static uint8_t memory_run[ROOM], record_run[ROOM], log[8 * 16384];
    uint64_t reply, ran = 0;
    uint32_t depth;
    size_t i;
    int accepted;
    calls++;
    memcpy(memory_before, memory.at, memory.length);
    memcpy(record_before, record.at, record.length);
    memcpy(events_before, events.at, events.length);
    memcpy(writers_before, writers.at, writers.length);
    memcpy(findings_before, findings.at, findings.length);
    memcpy(memory_run, memory.at, memory.length);
    memcpy(record_run, record.at, record.length);
    reply = xm23_judge(memory.at, memory.length, record.at, record.length, events.at, events.length, writers.at,
                       writers.length, findings.at, findings.length, n);
    ran = xm23_run(memory_run, memory.length, record_run, record.length, events.at, events.length, log, sizeof log,
                   &depth, n);
    accepted = !XM23_JUDGE_REFUSAL(reply);
    check("guard bytes", guarded(&memory) && guarded(&record) && guarded(&events));
    check("guard bytes of a judgement", guarded(&writers) && guarded(&findings));
    check("events", memcmp(events.at, events_before, events.length) == 0);
    if (!accepted) {
        int sized = writers.length == XM23_WRITERS_SIZE && findings.length == XM23_FINDINGS_SIZE;
        check("refusal", reply == (XM23_RUN_REFUSAL(ran) ? XM23_RUN_REFUSAL(ran) : XM23_REFUSED_JUDGE));
        check("a length", XM23_RUN_REFUSAL(ran) || !sized);
        check("as it was", !memcmp(memory.at, memory_before, memory.length) &&
                               !memcmp(record.at, record_before, record.length) &&
                               !memcmp(writers.at, writers_before, writers.length) &&
                               !memcmp(findings.at, findings_before, findings.length));
        return reply;
    }
    check("refused as a run", !XM23_RUN_REFUSAL(ran));
    if (XM23_JUDGE_REASON(reply) != XM23_REASON_DEEP)
        check("the run", !memcmp(memory.at, memory_run, memory.length) &&
                             !memcmp(record.at, record_run, record.length) &&
                             (reply & 0xFFFFFFFFFF) == (ran & 0xFFFFFFFFFF));
    for (i = 0; i < XM23_WRITERS_SIZE; i++)
        check("mark", writers.at[i] <= XM23_WROTE_OTHER);
    for (i = 0; i <= XM23_FOUND_FOREIGN; i++) {
        const uint8_t *f = findings.at + XM23_FINDING_SIZE * i;
        check("kind", f[XM23_FINDING_FOUND] == XM23_JUDGE_FOUND(reply, i));
        check("vectors", f[XM23_FINDING_VECTOR] <= XM23_NO_VECTOR && f[XM23_FINDING_RUNNING] <= XM23_NO_VECTOR);
        check("zeros", !f[XM23_FINDING_ZERO] && !f[XM23_FINDING_ZERO + 1]);
    }
    check("no tenth kind", XM23_JUDGE_KINDS(reply) < 512);
    return reply;
}

/* Junk and programs of junk, with lengths that are mostly right. */
static void judgements(int at_end, int rounds)
{
    int i;
    for (i = 0; i < rounds; i++) {
        uint64_t pick = draw();
        lend(&memory, pick % 16 ? 65536 : 65535 + pick / 16 % 3, at_end);
        lend(&record, pick / 64 % 16 ? 32 : pick / 1024 % 40, at_end);
        lend(&events, pick / 4096 % 8 ? 8 * (pick / 65536 % 20) : pick / 65536 % 40000, at_end);
        lend(&writers, pick >> 33 & 15 ? 65536 : 65535 + (pick >> 37) % 3, at_end);
        lend(&findings, pick >> 40 & 15 ? 144 : (pick >> 44) % 160, at_end);
        scatter(&memory);
        scatter(&record);
        scatter(&events);
        scatter(&writers);
        scatter(&findings);
        if (record.length == 32 && pick >> 48 & 7) {
            record.at[XM23_RECORD_PSW + 1] &= 0xE0;
            record.at[XM23_RECORD_CEX] &= 0x7F;
            record.at[XM23_RECORD_CEX + 1] = 0;
            record.at[XM23_RECORD_HALTED] = 0;
            record.at[XM23_RECORD_ZERO] = 0;
            memset(record.at + XM23_RECORD_ZEROS, 0, 2);
        }
        if (pick >> 51 & 3)
            list_events();
        judge(pick >> 53);
    }
}

/* ---- journals */

static int fits(uint32_t many, uint32_t next)
{
    size_t records = journal.length / XM23_JOURNAL_SIZE;
    return journal.length && journal.length <= XM23_MAX_JOURNAL && journal.length % XM23_JOURNAL_SIZE == 0 &&
           many <= records && next < records;
}

static void keep_before(void)
{
    calls++;
    memcpy(memory_before, memory.at, memory.length);
    memcpy(record_before, record.at, record.length);
    memcpy(log_before, screen.at, screen.length);
    memcpy(journal_before, journal.at, journal.length);
}

static void check_guards(void)
{
    check("guard bytes", guarded(&memory) && guarded(&record) && guarded(&events) && guarded(&screen));
    check("guard bytes of a journal", guarded(&journal) && guarded(&number) && guarded(&kept) && guarded(&place));
}

/* A run with a journal: refused, nothing changes; accepted, the numbers are those of the steps done and no place that
 * was not reached changes. */
static uint64_t run_kept(uint32_t many, uint32_t next, uint64_t n, int at_end)
{
    uint32_t *deepest = lend_number(&number, 77, at_end), *k = lend_number(&kept, many, at_end);
    uint32_t *p = lend_number(&place, next, at_end), records = (uint32_t)(journal.length / XM23_JOURNAL_SIZE), i;
    uint64_t reply;
    keep_before();
    reply = xm23_run_journal(memory.at, memory.length, record.at, record.length, events.at, events.length, screen.at,
                             screen.length, deepest, journal.at, journal.length, k, p, n);
    check_guards();
    if (XM23_RUN_REFUSAL(reply)) {
        check("as it was", !memcmp(memory.at, memory_before, memory.length) &&
                               !memcmp(record.at, record_before, record.length) &&
                               !memcmp(screen.at, log_before, screen.length) &&
                               !memcmp(journal.at, journal_before, journal.length));
        check("numbers as they were", *deepest == 77 && *k == many && *p == next);
    } else {
        uint32_t steps = XM23_RUN_STEPS(reply);
        check("a journal that does not fit", fits(many, next));
        check("number kept", *k == (many + steps < records ? many + steps : records));
        check("next place", *p == (next + steps) % records);
        for (i = 0; i < records; i++)
            check("places not reached", (i + records - next) % records < steps ||
                                            !memcmp(journal.at + XM23_JOURNAL_SIZE * i,
                                                    journal_before + XM23_JOURNAL_SIZE * i, XM23_JOURNAL_SIZE));
    }
    return reply;
}

static uint32_t go_back(uint32_t many, uint32_t next, uint64_t steps, int at_end)
{
    uint32_t *k = lend_number(&kept, many, at_end), *p = lend_number(&place, next, at_end), reply;
    keep_before();
    reply = xm23_back(memory.at, memory.length, record.at, record.length, journal.at, journal.length, k, p, steps);
    check_guards();
    check("journal's bytes", !memcmp(journal.at, journal_before, journal.length));
    if (reply) {
        check("as it was", !memcmp(memory.at, memory_before, memory.length) &&
                               !memcmp(record.at, record_before, record.length) && *k == many && *p == next);
    } else {
        uint32_t records = (uint32_t)(journal.length / XM23_JOURNAL_SIZE);
        check("lowered", *k == many - steps && *p == (next + records - steps % records) % records);
    }
    return reply;
}

static unsigned back_expected(uint32_t many, uint32_t next, uint64_t steps)
{
    if (memory.length != XM23_MEMORY_SIZE)
        return XM23_REFUSED_MEMORY;
    if (record.length != XM23_RECORD_SIZE)
        return XM23_REFUSED_RECORD;
    if (!fits(many, next))
        return XM23_REFUSED_JOURNAL;
    return steps > many ? XM23_REFUSED_BACK : XM23_ACCEPTED;
}

/* Every combination of lengths and numbers around the right ones; the journal holds bytes of no pattern, which go back
 * out unchecked. */
static void journals(int at_end, int brief)
{
    static const size_t lengths[] = {0, 1, 63, 64, 65, 127, 128, 640, 65472, 65535, 65536, 65537, 65600, 131072};
    static const size_t memories[] = {65536, 0, 65535, 65537}, records[] = {32, 0, 31, 33};
    size_t l, i, m, turn = 0;
    for (l = 0; l < sizeof lengths / sizeof *lengths; l++) {
        const uint32_t many = (uint32_t)(lengths[l] / XM23_JOURNAL_SIZE);
        const uint32_t numbers[] = {0, 1, many / 2, many - 1, many, many + 1, UINT32_MAX};
        for (i = 0; i < 49; i++)
            for (m = 0; m < 4; m++) {
                const uint32_t k = numbers[i / 7], p = numbers[i % 7];
                const uint64_t steps[] = {0, 1, k / 2, k, (uint64_t)k + 1, UINT64_MAX, (uint64_t)1 << 32};
                const uint64_t back = steps[turn % 7];
                unsigned refusal;
                turn++;
                if (brief && turn % 23)
                    continue;
                lend(&memory, memories[m], at_end);
                lend(&record, records[turn % 4 ? 0 : m], at_end);
                lend(&events, 0, at_end);
                lend(&screen, 8 * (turn % 3), at_end);
                lend(&journal, lengths[l], at_end);
                memset(memory.at, 0, memory.length);
                memset(record.at, 0, record.length);
                scatter(&journal);
                check("refusal of going back", go_back(k, p, back, at_end) == back_expected(k, p, back));
                memset(record.at, 0, record.length);
                refusal = expected(memory.length, record.length, 0, screen.length, turn % 100);
                if (!refusal && !fits(k, p))
                    refusal = XM23_REFUSED_JOURNAL;
                check("refusal by lengths", XM23_RUN_REFUSAL(run_kept(k, p, turn % 100, at_end)) == refusal);
            }
    }
}

/* A traced run in guarded buffers: refused, nothing changes; accepted, no byte past the records does. The trace stands
 * in the room of the journal. */
static uint64_t run_traced(uint32_t kinds, uint64_t n)
{
    uint64_t reply;
    size_t used;
    keep_before();
    reply = xm23_trace(memory.at, memory.length, record.at, record.length, events.at, events.length, journal.at,
                       journal.length, kinds, n);
    check_guards();
    used = XM23_RUN_REFUSAL(reply) ? 0 : (size_t)XM23_TRACE_SIZE * XM23_TRACE_ADDED(reply);
    check("room of a trace", used <= journal.length);
    check("tail of a trace", used > journal.length ||
                                 !memcmp(journal.at + used, journal_before + used, journal.length - used));
    if (XM23_RUN_REFUSAL(reply)) {
        check("number alone of a trace", reply == XM23_RUN_REFUSAL(reply));
        check("memory of a refused trace", !memcmp(memory.at, memory_before, memory.length));
        check("record of a refused trace", !memcmp(record.at, record_before, record.length));
    }
    return reply;
}

/* Every combination of lengths around the right ones, and kinds that there are and that there are not. */
static void traces(int at_end, int brief)
{
    static const size_t lengths[] = {0, 1, 15, 16, 17, 31, 32, 160, 161, 65520, 65536, 131072};
    static const size_t memories[] = {65536, 0, 65535, 65537}, records[] = {32, 0, 31, 33};
    static const uint32_t kinds[] = {0, 1, 2048, 4095, 4096, 65536, UINT32_MAX};
    size_t l, k, m, turn = 0;
    for (l = 0; l < sizeof lengths / sizeof *lengths; l++)
        for (k = 0; k < sizeof kinds / sizeof *kinds; k++)
            for (m = 0; m < 4; m++) {
                const uint64_t steps[] = {0, 1, 100, 1000, 1000001, UINT64_MAX, (uint64_t)1 << 32};
                const uint64_t n = steps[turn++ % 7];
                unsigned refusal;
                if (brief && turn % 7)
                    continue;
                lend(&memory, memories[m], at_end);
                lend(&record, records[turn % 4 ? 0 : m], at_end);
                lend(&events, 0, at_end);
                lend(&screen, 0, at_end);
                lend(&journal, lengths[l], at_end);
                scatter(&memory);
                memset(record.at, 0, record.length);
                scatter(&journal);
                refusal = expected(memory.length, record.length, 0, 0, n);
                if (!refusal && (lengths[l] % XM23_TRACE_SIZE || kinds[k] > XM23_KINDS))
                    refusal = XM23_REFUSED_TRACE;
                check("refusal of a trace", XM23_RUN_REFUSAL(run_traced(kinds[k], n)) == refusal);
            }
}

/* Random machines over journals of few records: each run is gone back by all that is kept, and the bytes are as they
 * were. */
static void goings_back(int at_end, int rounds)
{
    static uint8_t memory_then[XM23_MEMORY_SIZE], record_then[XM23_RECORD_SIZE];
    int i;
    for (i = 0; i < rounds; i++) {
        uint64_t pick = draw(), reply;
        uint32_t many = 1 + (uint32_t)(pick % 40), next = (uint32_t)(pick >> 8) % many, steps;
        uint64_t n = (pick >> 16) % (many + 1);
        lend(&memory, XM23_MEMORY_SIZE, at_end);
        lend(&record, XM23_RECORD_SIZE, at_end);
        lend(&events, 0, at_end);
        lend(&screen, 8 * (pick >> 24 & 3), at_end);
        lend(&journal, XM23_JOURNAL_SIZE * many, at_end);
        scatter(&memory);
        scatter(&record);
        scatter(&journal);
        record.at[XM23_RECORD_PSW + 1] &= 0xE1;
        record.at[XM23_RECORD_CEX] &= 0x7F;
        record.at[XM23_RECORD_CEX + 1] = 0;
        record.at[XM23_RECORD_HALTED] = 0;
        record.at[XM23_RECORD_ZERO] = 0;
        record.at[XM23_RECORD_COUNT + 3] = 0;
        memset(record.at + XM23_RECORD_ZEROS, 0, 2);
        memcpy(memory_then, memory.at, XM23_MEMORY_SIZE);
        memcpy(record_then, record.at, XM23_RECORD_SIZE);
        reply = run_kept(0, next, n, at_end);
        check("accepted", XM23_RUN_REFUSAL(reply) == XM23_ACCEPTED);
        steps = XM23_RUN_STEPS(reply);
        check("back", go_back(steps, (next + steps) % many, steps, at_end) == XM23_ACCEPTED);
        check("memory as it was", !memcmp(memory.at, memory_then, XM23_MEMORY_SIZE));
        check("record as it was", !memcmp(record.at, record_then, XM23_RECORD_SIZE));
    }
}

/* ---- S-records */

/* Loads, and checks that what is not lent stands, that the reply is well formed and that a refusal changes nothing. */
static uint64_t load(uint16_t pc)
{
    uint64_t reply;
    unsigned refusal;
    calls++;
    memcpy(memory_before, memory.at, memory.length);
    memcpy(text_before, text.at, text.length);
    reply = xm23_load_srec(memory.at, memory.length, text.at, text.length, pc);
    refusal = XM23_REFUSAL(reply);
    check("guard bytes", guarded(&memory) && guarded(&text));
    check("text", memcmp(text.at, text_before, text.length) == 0);
    check("reply", (reply & 0xFF00) == 0 && XM23_LOAD_LINE(reply) <= text.length + 1);
    check("line at fault", (refusal < XM23_REFUSED_SREC_FORM) == (XM23_LOAD_LINE(reply) == 0));
    if (refusal) {
        check("refusal", refusal == XM23_REFUSED_MEMORY ||
                             (refusal >= XM23_REFUSED_SREC_FORM && refusal <= XM23_REFUSED_SREC_ROOM));
        check("PC as it was", XM23_LOAD_PC(reply) == pc);
        check("memory as it was", memcmp(memory.at, memory_before, memory.length) == 0);
    }
    return reply;
}

/* Writes, with the same checks. */
static uint64_t write_text(uint16_t start, uint32_t length, uint16_t pc)
{
    uint64_t reply;
    size_t made;
    calls++;
    memcpy(memory_before, memory.at, memory.length);
    memcpy(text_before, text.at, text.length);
    reply = xm23_write_srec(memory.at, memory.length, start, length, pc, text.at, text.length);
    made = XM23_REFUSAL(reply) ? 0 : XM23_WRITTEN(reply);
    check("guard bytes", guarded(&memory) && guarded(&text));
    check("memory", memcmp(memory.at, memory_before, memory.length) == 0);
    check("text's length", made <= text.length && (made == 0 || made == XM23_SREC_LENGTH(length)));
    check("past the text", memcmp(text.at + made, text_before + made, text.length - made) == 0);
    check("reply", made || reply == XM23_REFUSED_MEMORY || reply == XM23_REFUSED_SREC_ROOM);
    return reply;
}

/* Every combination of lengths and spans: the refusal goes by these alone. What was written is loaded again. */
static void spans(int at_end, int brief)
{
    static const size_t memories[] = {0, 1, 65535, 65536, 65537, 131072};
    static const size_t rooms[] = {0, 1, 10, 11, 12, 23, 24, 53, 54, 55, 66, 67, 176138, 176139, 176140, TEXT_ROOM};
    static const uint32_t lengths[] = {0, 1, 15, 16, 17, 65535, 65536, 65537, 0x80000000, UINT32_MAX};
    static const uint16_t starts[] = {0, 1, 0xFFEF, 0xFFF0, 0xFFFF};
    size_t m, t, n, s;
    for (m = 0; m < sizeof memories / sizeof *memories; m++)
        for (t = 0; t < sizeof rooms / sizeof *rooms; t++)
            for (n = 0; n < sizeof lengths / sizeof *lengths; n++)
                for (s = 0; s < sizeof starts / sizeof *starts; s++) {
                    int fits = (uint64_t)starts[s] + lengths[n] <= 65536 && XM23_SREC_LENGTH(lengths[n]) <= rooms[t];
                    unsigned refusal = fits ? XM23_ACCEPTED : XM23_REFUSED_SREC_ROOM;
                    uint64_t reply;
                    if (brief && (m + t + n + s) % 41)
                        continue;
                    lend(&memory, memories[m], at_end);
                    lend(&text, rooms[t], at_end);
                    memset(memory.at, 0xC3, memory.length);
                    memset(text.at, 0x5A, text.length);
                    reply = write_text(starts[s], lengths[n], 0x1234);
                    check("refusal by lengths",
                          XM23_REFUSAL(reply) == (memories[m] == 65536 ? refusal : XM23_REFUSED_MEMORY));
                    if (XM23_REFUSAL(reply))
                        continue;
                    if (at_end)
                        memmove(text.room + text.size - XM23_WRITTEN(reply), text.at, XM23_WRITTEN(reply));
                    shorten(&text, XM23_WRITTEN(reply), at_end);
                    check("loads again", load(7) == (uint64_t)0x1234 << 16);
                }
}

/* Texts of junk, of characters that S-records have, and of count bytes that promise more than the line has. */
static void texts(int at_end, int rounds)
{
    static const char near[] = "0123456789ABCDEFabcdefS109\r\n S1FF";
    int i;
    for (i = 0; i < rounds; i++) {
        uint64_t pick = draw();
        size_t k;
        lend(&memory, pick % 8 ? 65536 : 65535 + pick / 8 % 3, at_end);
        lend(&text, pick / 64 % 600, at_end);
        scatter(&text);
        for (k = 0; pick >> 40 & 3 && k < text.length; k++)
            text.at[k] = (uint8_t)near[text.at[k] % (sizeof near - 1)];
        for (k = 0; pick >> 42 & 1 && k + 8 <= text.length; k += 8 + pick / 256 % 40)
            memcpy(text.at + k, "\nS1FFFFF" + (k == 0), k == 0 ? 7 : 8);
        load((uint16_t)(pick >> 48));
    }
}

/* ---- stack bytes */

/* Every combination of lengths around the right ones, with junk inside: the figure stays within its bounds, and what is
 * lent is as it was. Vectors and uses stand in the rooms of record and events. */
static void stacks(int at_end, int rounds)
{
    static const size_t vectors[] = {0, 1, 63, 64, 65, 128, 65536}, uses[] = {0, 1, 15, 16, 17, 64, 65536};
    size_t v, u;
    int i;
    for (v = 0; v < sizeof vectors / sizeof *vectors; v++)
        for (u = 0; u < sizeof uses / sizeof *uses; u++)
            for (i = 0; i < (vectors[v] == XM23_VECTORS_SIZE && uses[u] == XM23_USES_SIZE ? 50 : 1) * rounds; i++) {
                uint64_t pick = draw();
                uint32_t priority = pick % 4 ? (uint32_t)(pick / 4 % 9) : (uint32_t)(pick >> 8);
                int fits = vectors[v] == XM23_VECTORS_SIZE && uses[u] == XM23_USES_SIZE && priority <= 7;
                size_t k;
                uint32_t reply;
                calls++;
                lend(&record, vectors[v], at_end);
                lend(&events, uses[u], at_end);
                scatter(&record);
                scatter(&events);
                for (k = 1; k < events.length; k += 2) {
                    events.at[k] %= pick >> 40 & 7 ? 4 : 8;
                    fits = fits && events.at[k] * 256 + events.at[k - 1] <= XM23_MAX_USE;
                }
                memcpy(record_before, record.at, record.length);
                memcpy(events_before, events.at, events.length);
                reply = xm23_stack(record.at, record.length, (uint8_t)(pick >> 48), events.at, events.length, priority);
                check("guard bytes", guarded(&record) && guarded(&events));
                check("vectors", memcmp(record.at, record_before, record.length) == 0);
                check("uses", memcmp(events.at, events_before, events.length) == 0);
                check("refusal", fits ? XM23_REFUSAL(reply) == XM23_ACCEPTED : reply == XM23_REFUSED_STACK);
                check("bytes", XM23_STACK_BYTES(reply) <= 7224);
            }
}

/* ---- sources */

/* Assembles what is lent, and checks what must hold of any call. */
static uint64_t assemble(void)
{
    uint64_t reply;
    unsigned refusal;
    calls++;
    memcpy(memory_before, memory.at, memory.length);
    memcpy(text_before, text.at, text.length);
    reply = xm23_assemble(memory.at, memory.length, text.at, text.length);
    refusal = XM23_REFUSAL(reply);
    check("guard bytes", guarded(&memory) && guarded(&text));
    check("source", memcmp(text.at, text_before, text.length) == 0);
    check("refusal by length", (refusal == XM23_REFUSED_MEMORY) == (memory.length != 65536));
    check("refusal", refusal <= XM23_REFUSED_MEMORY ||
                         (refusal >= XM23_REFUSED_SOURCE_FORM && refusal <= XM23_REFUSED_SOURCE_VALUE));
    check("bits between", (reply >> 8 & 0xFFFFFF) == 0);
    check("line", (XM23_ASSEMBLE_LINE(reply) == 0) == (refusal <= XM23_REFUSED_MEMORY) &&
                      XM23_ASSEMBLE_LINE(reply) <= text.length + 1);
    if (refusal)
        check("memory as it was", memcmp(memory.at, memory_before, memory.length) == 0);
    return reply;
}

/* Lists what is lent as a source into a table that is long enough, or not, and checks what must hold of any call:
 * `assembled` is the reply of xm23_assemble on the same source. The table stands in the room of the journal. */
static void list(uint64_t assembled, int at_end)
{
    uint64_t pick = draw(), reply, wanted;
    size_t enough = XM23_PLACE_SIZE, used, i;
    calls++;
    for (i = 0; i < text.length; i++)
        enough += text.at[i] == '\n' ? XM23_PLACE_SIZE : 0;
    used = enough < ROOM ? enough : ROOM;
    lend(&journal, pick % 3 ? used : pick / 3 % (used + 1), at_end);
    scatter(&journal);
    memcpy(journal_before, journal.at, journal.length);
    memcpy(text_before, text.at, text.length);
    reply = xm23_places(text.at, text.length, journal.at, journal.length);
    used = XM23_REFUSAL(reply) ? 0 : XM23_PLACE_SIZE * (size_t)XM23_PLACES(reply);
    wanted = XM23_REFUSAL(assembled) ? assembled : XM23_REFUSAL(reply) ? XM23_REFUSED_ROOM : reply;
    check("guard bytes", guarded(&journal) && guarded(&text));
    check("source", memcmp(text.at, text_before, text.length) == 0);
    check("reply", reply == wanted && (reply >> 8 & 0xFFFFFF) == 0);
    check("room", XM23_REFUSAL(reply) != XM23_REFUSED_ROOM || journal.length < enough);
    check("records", used <= journal.length);
    check("past the records", memcmp(journal.at + used, journal_before + used, journal.length - used) == 0);
    for (i = 0; i < used; i += XM23_PLACE_SIZE) {
        const uint8_t *r = journal.at + i;
        check("record", r[XM23_PLACE_KIND] <= XM23_PLACE_END && r[XM23_PLACE_BYTES] <= 2 && r[XM23_PLACE_NAMED] <= 1 &&
                            r[XM23_PLACE_ZERO] == 0);
        check("END", (r[XM23_PLACE_KIND] == XM23_PLACE_END) == (i + XM23_PLACE_SIZE == used));
        check("in memory", r[XM23_PLACE_BYTES] == 0 || XM23_PLACE_NUMBER_OF(r) + r[XM23_PLACE_BYTES] <= 65536);
    }
}

/* Sources of junk, of characters and of words that sources have, and of brackets and digits without end. */
static void sources(int at_end, int rounds)
{
    static const char near[] = "0123456789ABCDEFR#$-+*/(),.; \t\r\nENDORGBSS";
    static const char *const words[] = {
        "ORG ", "A EQU ", "BSS ", "BYTE ", "WORD ", "END\n", "ADD.B #1,R0\n", "BRA A\n", "((((((((", "#1", "$FF",
        "))))))))", "+", "/", "-", "\n", "\r\n", ";", "A", "SETCC VC\n", "MOVH A,R1\n", "LD R1+,R2"};
    int i;
    for (i = 0; i < rounds; i++) {
        uint64_t pick = draw(), reply;
        size_t k;
        lend(&memory, pick % 8 ? 65536 : 65535 + pick / 8 % 3, at_end);
        lend(&text, pick / 64 % 600, at_end);
        scatter(&text);
        for (k = 0; pick >> 40 & 3 && k < text.length; k++)
            text.at[k] = (uint8_t)near[text.at[k] % (sizeof near - 1)];
        for (k = 0; pick >> 42 & 1 && k < text.length;) {
            const char *word = words[text.at[k] % (sizeof words / sizeof *words)];
            size_t length = strlen(word) < text.length - k ? strlen(word) : text.length - k;
            memcpy(text.at + k, word, length);
            k += length;
        }
        if (pick >> 43 & 1 && text.length >= 4)
            memcpy(text.at + text.length - 4, "\nEND", 4);
        reply = assemble();
        if (memory.length == 65536)
            list(reply, at_end);
    }
}

/* A source of one byte repeated as far as the room goes. */
static void long_lines(int at_end)
{
    static const char bytes[] = "(#9A; \t\r\n-\377";
    size_t i;
    for (i = 0; i < sizeof bytes; i++) {
        lend(&memory, 65536, at_end);
        lend(&text, TEXT_ROOM, at_end);
        memset(text.at, bytes[i], text.length);
        check("no END", XM23_REFUSAL(assemble()) == XM23_REFUSED_SOURCE_FORM);
        list(assemble(), at_end);
        memcpy(text.at + text.length - 4, "\nEND", 4);
        list(assemble(), at_end);
    }
}

/* ---- texts of words */

/* Any word, place and length. */
static void words(int at_end, int rounds)
{
    int i;
    for (i = 0; i < rounds; i++) {
        uint64_t pick = draw();
        uint32_t reply;
        size_t length, k;
        calls++;
        lend(&text, pick >> 32 & 7 ? pick >> 40 & 31 : pick >> 40 & 1023, at_end);
        scatter(&text);
        memcpy(text_before, text.at, text.length);
        reply = xm23_text((uint16_t)pick, (uint16_t)(pick >> 16), text.at, text.length);
        length = XM23_TEXT_LENGTH(reply);
        check("guard bytes", guarded(&text));
        check("refusal", text.length < XM23_TEXT_SIZE ? reply == XM23_REFUSED_ROOM : !XM23_REFUSAL(reply));
        check("length", length <= 16);
        for (k = 0; k < length; k++)
            check("a byte of the text", text.at[k] >= 32 && text.at[k] <= 'Z');
        check("bytes past the text", memcmp(text.at + length, text_before + length, text.length - length) == 0);
    }
}

/* ---- the printed line */

/* Junk, and what is nearly an input, of lengths around the lawful ones. */
static void sheets(int at_end, int rounds)
{
    static const size_t lengths[] = {0, 1, 4, 35, 36, 37, 65571, 65572, 65573, 65580, 65588, 98340, 98341, 98348};
    int i;
    for (i = 0; i < rounds; i++) {
        uint64_t pick = draw();
        size_t room = pick & 1 ? XM23_LINE_SIZE + (pick >> 8 & 3) : pick >> 8 & 127, length;
        uint32_t reply;
        calls++;
        lend(&text, lengths[(pick >> 16) % (sizeof lengths / sizeof *lengths)], at_end);
        lend(&record, room, at_end);
        scatter(&record);
        scatter(&text);
        if (pick >> 32 & 3 && text.length >= 36) {
            memset(text.at, 0, 36);
            text.at[0] = (uint8_t)(pick >> 40);
            if (text.length > 65572 && pick >> 34 & 1)
                memset(text.at + 65572, 0, text.length - 65572);
        }
        memcpy(text_before, text.at, text.length);
        memcpy(record_before, record.at, record.length);
        reply = xm23_sheet(text.at, text.length, record.at, record.length);
        length = XM23_LINE_LENGTH(reply);
        check("guard bytes", guarded(&text) && guarded(&record));
        check("input", memcmp(text.at, text_before, text.length) == 0);
        check("refusal", room < XM23_LINE_SIZE ? reply == XM23_REFUSED_ROOM : !XM23_REFUSAL(reply));
        check("length", room < XM23_LINE_SIZE ? !length : length >= 3 && length <= XM23_LINE_SIZE);
        check("an end", !length || (record.at[length - 1] == 10 && !memchr(record.at, 10, length - 1)));
        check("bytes past the line", memcmp(record.at + length, record_before + length, room - length) == 0);
    }
}

int main(int argc, char **argv)
{
    int brief = argc > 1 && strcmp(argv[1], "short") == 0, at_end;
    unsigned passed = 0, failed = 0;
    make(&memory, ROOM);
    make(&record, ROOM);
    make(&events, ROOM);
    make(&screen, ROOM);
    make(&text, TEXT_ROOM);
    make(&number, (size_t)sysconf(_SC_PAGESIZE));
    make(&kept, (size_t)sysconf(_SC_PAGESIZE));
    make(&place, (size_t)sysconf(_SC_PAGESIZE));
    make(&journal, ROOM);
    make(&writers, ROOM);
    make(&findings, ROOM);
    for (at_end = 0; at_end < 2; at_end++) {
        unsigned before = wrong;
        lengths(at_end, brief);
        wrong == before ? passed++ : failed++;
        before = wrong;
        junk(at_end, brief ? 20 : 1000);
        wrong == before ? passed++ : failed++;
        before = wrong;
        screens(at_end, brief);
        wrong == before ? passed++ : failed++;
        before = wrong;
        judgements(at_end, brief ? 20 : 1000);
        wrong == before ? passed++ : failed++;
        before = wrong;
        journals(at_end, brief);
        wrong == before ? passed++ : failed++;
        before = wrong;
        traces(at_end, brief);
        wrong == before ? passed++ : failed++;
        before = wrong;
        goings_back(at_end, brief ? 40 : 4000);
        wrong == before ? passed++ : failed++;
        before = wrong;
        spans(at_end, brief);
        wrong == before ? passed++ : failed++;
        before = wrong;
        texts(at_end, brief ? 40 : 20000);
        wrong == before ? passed++ : failed++;
        before = wrong;
        stacks(at_end, brief ? 1 : 40);
        wrong == before ? passed++ : failed++;
        before = wrong;
        sheets(at_end, brief ? 40 : 4000);
        wrong == before ? passed++ : failed++;
        before = wrong;
        words(at_end, brief ? 400 : 200000);
        wrong == before ? passed++ : failed++;
        before = wrong;
        sources(at_end, brief ? 40 : 20000);
        long_lines(at_end);
        wrong == before ? passed++ : failed++;
    }
    printf("%u calls\n%u passed, %u failed\n", calls, passed, failed);
    return failed != 0;
}
