/*
 * A target of libFuzzer: xm23_run beside the C interpreter of bench/, which is compiled with the fuzzer's counters and
 * so shows it what is new. Held for every string of commands (setup.h):
 * - reply, record, all of memory, all of the log, the depth and the events are the interpreter's;
 * - a refused call leaves every byte and the depth as handed over; the parts of a reply fit each other and the record;
 * - a run of m and then one of n - m, with what is left of the log, closes as the run of n;
 * - a run with a short log, and again with a fresh one as long as there is no room, closes as the run with a log long
 *   enough, and the logs joined are its log;
 * - the line of xm23_sheet is that of the run, where its input can hold the call and the log had room;
 * - the judged run is the run with a log long enough, and its marks, findings and reply fit each other;
 * - the run written down by xm23_trace closes as the run with a log long enough, with one act for each step;
 * - nothing around the lent buffers changes, and nothing behind them is touched.
 * A difference is saved in a folder of its own (XM23_FOUND, or build/fuzz) for 'make replay', and ends the target.
 */
#define _DEFAULT_SOURCE

#include <inttypes.h>
#include <stdio.h>
#include <stdlib.h>
#include <string.h>
#include <sys/stat.h>

#include "lent.h"
#include "setup.h"
#include "xm23.h"

uint64_t xm23_fast_run(uint8_t *memory, size_t memory_len, uint8_t *record, size_t record_len, const uint8_t *events,
                       size_t events_len, uint8_t *log, size_t log_len, uint32_t *deepest, uint64_t n);
size_t LLVMFuzzerMutate(uint8_t *data, size_t size, size_t room);
int LLVMFuzzerTestOneInput(const uint8_t *data, size_t size);
size_t LLVMFuzzerCustomMutator(uint8_t *data, size_t size, size_t room, unsigned seed);

/* ---- a call and what it leaves */

struct outcome {
    struct lent memory, record, events, log;
    uint32_t deepest;
    uint64_t reply;
};

/* What goes in as the depth. */
enum { ANY_DEPTH = 0x5A5A5A5A };

static struct setup setup;
static struct outcome library, interpreter, slices;

static void make_all(struct outcome *o)
{
    make(&o->memory, LONGEST_MEMORY);
    make(&o->record, LONGEST_RECORD);
    make(&o->events, LONGEST_EVENTS);
    make(&o->log, LONGEST_LOG);
}

static void lend_all(struct outcome *o)
{
    lend(&o->memory, setup.memory, setup.memory_len);
    lend(&o->record, setup.record, setup.record_len);
    lend(&o->events, setup.events, setup.events_len);
    lend(&o->log, setup.log, setup.log_len);
    o->deepest = ANY_DEPTH;
}

static void advance(struct outcome *o, uint64_t n)
{
    o->reply = xm23_run(o->memory.at, o->memory.length, o->record.at, o->record.length, o->events.at,
                        o->events.length, o->log.at, o->log.length, &o->deepest, n);
}

static int as_handed_over(const struct outcome *o)
{
    return holds(&o->memory, setup.memory) && holds(&o->record, setup.record) && holds(&o->events, setup.events) &&
           holds(&o->log, setup.log) && o->deepest == ANY_DEPTH;
}

/* ---- a difference */

static void save_part(const char *folder, const char *name, const uint8_t *bytes, size_t length)
{
    char path[512];
    FILE *f;
    snprintf(path, sizeof path, "%s/%s", folder, name);
    f = fopen(path, "wb");
    if (!f || fwrite(bytes, 1, length, f) != length || fclose(f) != 0)
        fprintf(stderr, "%s: not written\n", path);
}

/* Saves the call by its parts, as 'make replay' reads them, and ends the target. */
static void differ(const char *what)
{
    const char *place = getenv("XM23_FOUND");
    char folder[400], text[64];
    uint64_t hash = 0xCBF29CE484222325u;
    for (size_t i = 0; i < sizeof setup.memory; i++)
        hash = (hash ^ setup.memory[i] ^ setup.record[i % LONGEST_RECORD]) * 0x100000001B3u;
    snprintf(folder, sizeof folder, "%s/run-%016" PRIX64, place ? place : "build/fuzz", hash);
    mkdir(folder, 0777);
    save_part(folder, "memory.bin", setup.memory, setup.memory_len);
    save_part(folder, "record.bin", setup.record, setup.record_len);
    save_part(folder, "events.bin", setup.events, setup.events_len);
    save_part(folder, "log.bin", setup.log, setup.log_len);
    save_part(folder, "n.txt", (uint8_t *)text, (size_t)snprintf(text, sizeof text, "%" PRIu64 "\n", setup.n));
    save_part(folder, "deepest.txt", (uint8_t *)text, (size_t)snprintf(text, sizeof text, "%d\n", ANY_DEPTH));
    save_part(folder, "difference.txt", (const uint8_t *)what, strlen(what));
    fprintf(stderr, "%s: reply %016" PRIX64, what, library.reply);
    fprintf(stderr, ", the interpreter's %016" PRIX64 "\n", interpreter.reply);
    fprintf(stderr, "saved in %s (again: make replay FOUND=%s)\n", folder, folder);
    abort();
}

static void check(const char *what, int holds)
{
    if (!holds)
        differ(what);
}

/* ---- what is held */

static uint32_t count_in(const uint8_t *record)
{
    return record[22] | record[23] << 8 | record[24] << 16 | (uint32_t)record[25] << 24;
}

static void check_reply(void)
{
    const uint8_t *record = library.record.at;
    unsigned refusal = XM23_RUN_REFUSAL(library.reply), reason = XM23_RUN_REASON(library.reply);
    uint32_t steps = XM23_RUN_STEPS(library.reply), added = XM23_RUN_ADDED(library.reply);
    check("the events are changed", holds(&library.events, setup.events));
    if (refusal) {
        check("a refusal has a reason, steps or records", library.reply == refusal);
        check("a refusal that the call does not have",
              refusal < 8 || refusal == XM23_REFUSED_EVENT_TWINS || refusal == XM23_REFUSED_LOG);
        check("a refused call changes a byte", as_handed_over(&library));
        return;
    }
    check("the reason is not the halted mark", (reason == XM23_REASON_HALTED) == record[21] && reason < 3);
    check("the steps are not those of the count", count_in(record) - count_in(setup.record) == steps);
    check("too few steps, or too many", reason ? steps <= setup.n : steps == setup.n);
    check("more records than steps, or than there is room", added <= steps && XM23_LOG_SIZE * added <= setup.log_len);
    check("there was room", reason != XM23_REASON_LOG || XM23_LOG_SIZE * added == setup.log_len);
    check("deeper than there are steps", library.deepest <= steps);
}

/* Two slices over one log: the second is lent what the first has left of it. */
static void check_slices(void)
{
    uint64_t m = setup.slice % (setup.n + 1), steps;
    size_t used;
    lend_all(&slices);
    advance(&slices, m);
    check("a slice is deeper than the whole", slices.deepest <= library.deepest);
    steps = XM23_RUN_STEPS(slices.reply);
    used = XM23_LOG_SIZE * XM23_RUN_ADDED(slices.reply);
    slices.log.at += used;
    slices.log.length -= used;
    advance(&slices, setup.n - steps);
    check("a slice is deeper than the whole", slices.deepest <= library.deepest);
    steps += XM23_RUN_STEPS(slices.reply);
    slices.log.at -= used;
    slices.log.length += used;
    used += XM23_LOG_SIZE * XM23_RUN_ADDED(slices.reply);
    check("slices leave another memory", holds(&slices.memory, library.memory.at));
    check("slices leave another record", holds(&slices.record, library.record.at));
    check("slices leave another log", holds(&slices.log, library.log.at));
    check("slices give another reply", steps == XM23_RUN_STEPS(library.reply) &&
                                           used == XM23_LOG_SIZE * XM23_RUN_ADDED(library.reply) &&
                                           (slices.reply & 0xFFFF) == (library.reply & 0xFFFF));
}

/* Fresh logs of few records, each for a slice that ends where there is no more room, against one log long enough. */
static void check_joined(void)
{
    static uint8_t whole[XM23_LOG_SIZE * 1024], joined[sizeof whole];
    size_t records = 1 + setup.slice % 3, used = 0;
    uint64_t reply, steps = 0;
    if (setup.n > 1024)
        return;
    lend_all(&interpreter);
    reply = xm23_fast_run(interpreter.memory.at, setup.memory_len, interpreter.record.at, setup.record_len,
                          interpreter.events.at, setup.events_len, whole, sizeof whole, &interpreter.deepest, setup.n);
    lend_all(&slices);
    do {
        lend(&slices.log, setup.log, XM23_LOG_SIZE * records);
        advance(&slices, setup.n - steps);
        steps += XM23_RUN_STEPS(slices.reply);
        memcpy(joined + used, slices.log.at, XM23_LOG_SIZE * XM23_RUN_ADDED(slices.reply));
        used += XM23_LOG_SIZE * XM23_RUN_ADDED(slices.reply);
    } while (XM23_RUN_REASON(slices.reply) == XM23_REASON_LOG && used < sizeof joined);
    check("short logs leave another memory", holds(&slices.memory, interpreter.memory.at));
    check("short logs leave another record", holds(&slices.record, interpreter.record.at));
    check("the logs joined are another", used == XM23_LOG_SIZE * XM23_RUN_ADDED(reply) && !memcmp(joined, whole, used));
    check("short logs give another reply",
          steps == XM23_RUN_STEPS(reply) && (slices.reply & 0xFFFF) == (reply & 0xFFFF));
}

/* The line of the run that the library has done, as 01 and 02 have it. */
static size_t line_of(char *line, size_t room)
{
    const uint8_t *r = library.record.at;
    int length;
    if (XM23_RUN_REFUSAL(library.reply))
        return (size_t)snprintf(line, room, "R%u\n", XM23_RUN_REFUSAL(library.reply));
    length = snprintf(line, room, "%u %" PRIu32, XM23_RUN_REASON(library.reply), XM23_RUN_STEPS(library.reply));
    for (int i = 0; i < 9; i++)
        length += snprintf(line + length, room - (size_t)length, " %02X%02X", r[2 * i + 1], r[2 * i]);
    length += snprintf(line + length, room - (size_t)length, " %02X %02X%02X%02X%02X %" PRIu32 "\n", r[18], r[29],
                       r[28], r[27], r[26], library.deepest);
    return (size_t)length;
}

static void check_sheet(void)
{
    static uint8_t input[4 + XM23_RECORD_SIZE + XM23_MEMORY_SIZE + LONGEST_EVENTS];
    const size_t start = 4 + XM23_RECORD_SIZE + XM23_MEMORY_SIZE;
    uint8_t line[XM23_LINE_SIZE + 8];
    char expected[XM23_LINE_SIZE + 8];
    size_t length = line_of(expected, sizeof expected);
    if (setup.memory_len != XM23_MEMORY_SIZE || setup.record_len != XM23_RECORD_SIZE || setup.n > UINT32_MAX ||
        XM23_RUN_REFUSAL(library.reply) == XM23_REFUSED_LOG || XM23_RUN_REASON(library.reply) == XM23_REASON_LOG)
        return;
    for (int i = 0; i < 4; i++)
        input[i] = (uint8_t)(setup.n >> 8 * i);
    memcpy(input + 4, setup.record, XM23_RECORD_SIZE);
    memcpy(input + 4 + XM23_RECORD_SIZE, setup.memory, XM23_MEMORY_SIZE);
    memcpy(input + start, setup.events, setup.events_len);
    memset(line, 0xA5, sizeof line);
    memset(expected + length, 0xA5, sizeof expected - length);
    check("a line in a short buffer",
          xm23_sheet(input, start + setup.events_len, line, XM23_LINE_SIZE - 1) == XM23_REFUSED_ROOM);
    check("a short buffer is changed", line[0] == 0xA5);
    check("another length of the line",
          xm23_sheet(input, start + setup.events_len, line, XM23_LINE_SIZE) == (uint32_t)length << 8);
    check("another line", memcmp(line, expected, sizeof line) == 0);
}

/* The judged run against one with a log long enough; no kind is found without its finding. */
static void check_judged(void)
{
    static uint8_t whole[XM23_LOG_SIZE * 1024], writers[XM23_WRITERS_SIZE], findings[XM23_FINDINGS_SIZE];
    const uint64_t parts = ((uint64_t)1 << 40) - 1;
    uint64_t reply, judged;
    unsigned kind;
    if (setup.n > 1024)
        return;
    lend_all(&interpreter);
    reply = xm23_fast_run(interpreter.memory.at, setup.memory_len, interpreter.record.at, setup.record_len,
                          interpreter.events.at, setup.events_len, whole, sizeof whole, &interpreter.deepest, setup.n);
    lend_all(&slices);
    judged = xm23_judge(slices.memory.at, setup.memory_len, slices.record.at, setup.record_len, slices.events.at,
                        setup.events_len, writers, sizeof writers, findings, sizeof findings, setup.n);
    check("judged: the events are changed", holds(&slices.events, setup.events));
    if (XM23_JUDGE_REASON(judged) != XM23_REASON_DEEP) {
        check("judged: another reply", (judged & parts) == (reply & parts));
        check("judged: another memory", holds(&slices.memory, interpreter.memory.at));
        check("judged: another record", holds(&slices.record, interpreter.record.at));
    }
    for (kind = 0; kind <= XM23_FOUND_FOREIGN; kind++) {
        const uint8_t *f = findings + XM23_FINDING_SIZE * kind;
        check("judged: a kind without a finding", f[XM23_FINDING_FOUND] == XM23_JUDGE_FOUND(judged, kind));
    }
    check("judged: open at the close", XM23_JUDGE_REASON(judged) != XM23_REASON_DEEP || XM23_JUDGE_FOUND(judged, 4));
    for (size_t a = 0; a < sizeof writers; a++)
        check("judged: a mark", writers[a] <= XM23_WROTE_OTHER &&
                                    (writers[a] || a < 16 || slices.memory.at[a] == setup.memory[a]));
}

/* The run with all its steps written down, beside the run with a log long enough that check_joined has made: it closes
 * the same way, each step has one act, and the records are in the order of the steps. */
static void check_traced(void)
{
    static uint8_t trace[XM23_TRACE_ENOUGH(1024, LONGEST_EVENTS / XM23_EVENT_SIZE)];
    uint32_t acts = 0, last = 0, i;
    uint64_t reply;
    if (setup.n > 1024)
        return;
    lend_all(&slices);
    reply = xm23_trace(slices.memory.at, setup.memory_len, slices.record.at, setup.record_len, slices.events.at,
                       setup.events_len, trace, sizeof trace, XM23_KINDS, setup.n);
    check("a traced run leaves another memory", holds(&slices.memory, interpreter.memory.at));
    check("a traced run leaves another record", holds(&slices.record, interpreter.record.at));
    for (i = 0; i < XM23_TRACE_ADDED(reply); i++) {
        const uint8_t *at = trace + XM23_TRACE_SIZE * i;
        uint32_t step = at[0] | at[1] << 8 | at[2] << 16 | (uint32_t)at[3] << 24;
        check("a record of an earlier step", step >= last);
        check("a kind that is none", at[XM23_TRACE_KIND] <= XM23_KIND_STORE);
        acts += at[XM23_TRACE_KIND] != XM23_KIND_EVENT;
        last = step;
    }
    check("not one act a step", acts == XM23_RUN_STEPS(reply));
    check("a traced run takes other steps",
          count_in(slices.record.at) - count_in(setup.record) == XM23_RUN_STEPS(reply));
}

int LLVMFuzzerTestOneInput(const uint8_t *data, size_t size)
{
    if (!library.memory.end) {
        make_all(&library);
        make_all(&interpreter);
        make_all(&slices);
    }
    unpack(&setup, data, size);
    lend_all(&library);
    lend_all(&interpreter);
    advance(&library, setup.n);
#ifdef WRONG
    /* Only to see that a difference is found and saved: a byte that no rule changes. */
    if (XM23_RUN_REASON(library.reply) == 1 && library.record.at[26])
        library.memory.at[0x8000] ^= 1;
#endif
    interpreter.reply = xm23_fast_run(interpreter.memory.at, setup.memory_len, interpreter.record.at, setup.record_len,
                                      interpreter.events.at, setup.events_len, interpreter.log.at, setup.log_len,
                                      &interpreter.deepest, setup.n);
    check("another reply", library.reply == interpreter.reply);
    check("another record", holds(&library.record, interpreter.record.at));
    check("another memory", holds(&library.memory, interpreter.memory.at));
    check("another log", holds(&library.log, interpreter.log.at));
    check("another depth", library.deepest == interpreter.deepest);
    check("bytes around a buffer are changed",
          guarded(&library.memory) && guarded(&library.record) && guarded(&library.events) && guarded(&library.log));
    check_reply();
    check_sheet();
    if (XM23_RUN_REFUSAL(library.reply) == XM23_ACCEPTED) {
        check_slices();
        check_joined();
        check_judged();
        check_traced();
    }
    return 0;
}

/* ---- strings of commands, changed command by command */

static unsigned draw(unsigned *seed, unsigned limit)
{
    *seed = *seed * 1103515245u + 12345u;
    return (*seed >> 16) % limit;
}

/* Words that random bytes seldom make: returns, faults, SVC, SETPRI, SETCC, CEX, the stack, devices, a screen. */
static const uint16_t words[] = {0x4C2F, 0x4E00, 0x4DA0, 0x4DAA, 0x4D80, 0x4D83, 0x4DC8, 0x4DDF, 0x4DFF, 0x5009,
                                 0x5349, 0x53BF, 0x5F06, 0x589E, 0x5F2E, 0x58B7, 0x77FF, 0x4D5B, 0x4D64, 0x4CFA,
                                 0xC1C8, 0xC108};

static void any_command(uint8_t *c, unsigned *seed)
{
    unsigned word = words[draw(seed, sizeof words / sizeof *words)];
    c[0] = (uint8_t)draw(seed, 256);
    c[1] = (uint8_t)draw(seed, 256);
    c[2] = (uint8_t)draw(seed, 256);
    if (draw(seed, 2))
        c[0] &= 0xF0; /* CODE is what there is most of */
    if ((c[0] & 15) == CODE && draw(seed, 3) == 0) {
        c[1] = (uint8_t)(word | draw(seed, 8));
        c[2] = (uint8_t)(word >> 8);
    }
}

/* Puts, drops, doubles or changes a command, or leaves the bytes to libFuzzer's own ways. */
size_t LLVMFuzzerCustomMutator(uint8_t *data, size_t size, size_t room, unsigned seed)
{
    size_t many = size / 3, i = many ? 3 * draw(&seed, (unsigned)many) : 0, tail = 3 * many - i;
    uint8_t command[3];
    switch (draw(&seed, 6)) {
    case 0:
    case 1:
        if (3 * many + 3 > room)
            break;
        any_command(command, &seed);
        memmove(data + i + 3, data + i, tail);
        memcpy(data + i, command, 3);
        return 3 * many + 3;
    case 2:
        if (many < 2)
            break;
        memmove(data + i, data + i + 3, tail - 3);
        return 3 * many - 3;
    case 3:
        if (!many)
            break;
        LLVMFuzzerMutate(data + i + 1, 2, 2);
        return 3 * many;
    case 4:
        if (!many || 3 * many + 3 > room)
            break;
        memmove(data + i + 3, data + i, tail);
        return 3 * many + 3;
    default:
        break;
    }
    return LLVMFuzzerMutate(data, size, room);
}
