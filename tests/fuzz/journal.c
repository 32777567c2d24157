/*
 * A target of libFuzzer: the two calls on a journal, held to what 02 §8 promises of them by the C interpreter of
 * bench/, which has no journal: the state k steps before the end of a run is that of a run of k steps fewer. Held for
 * every string of commands (setup.h):
 * - a run with a journal gives the interpreter's reply, record, memory, log and depth; 14 comes after its refusals;
 * - the number kept and the next place go by the steps done; places that no step reaches keep their bytes;
 * - going back k, for some k and for all that are kept, gives record and memory of the run of k steps fewer, leaves the
 *   journal's bytes and lowers both numbers; running k on gives the same record and memory again;
 * - one step more is refused with 15, and nothing changes; nothing around the lent buffers changes.
 * A difference ends the target; libFuzzer keeps the string.
 */
#define _DEFAULT_SOURCE

#include <stdio.h>

#include "lent.h"
#include "setup.h"
#include "xm23.h"

uint64_t xm23_fast_run(uint8_t *memory, size_t memory_len, uint8_t *record, size_t record_len, const uint8_t *events,
                       size_t events_len, uint8_t *log, size_t log_len, uint32_t *deepest, uint64_t n);
int LLVMFuzzerTestOneInput(const uint8_t *data, size_t size);

enum { MOST_RECORDS = 48, ANY_DEPTH = 0x5A5A5A5A };

struct outcome {
    struct lent memory, record, events, log, journal;
    uint32_t deepest, kept, place;
};

static struct setup setup;
static struct outcome library, interpreter;
static uint8_t journal[XM23_JOURNAL_SIZE * MOST_RECORDS], enough[XM23_LOG_SIZE * 1024];
static uint32_t records, first;

static void check(const char *what, int holds)
{
    if (!holds) {
        fprintf(stderr, "%s: a difference\n", what);
        abort();
    }
}

static void make_all(struct outcome *o)
{
    make(&o->memory, LONGEST_MEMORY);
    make(&o->record, LONGEST_RECORD);
    make(&o->events, LONGEST_EVENTS);
    make(&o->log, LONGEST_LOG);
    make(&o->journal, sizeof journal + 1);
}

static void lend_all(struct outcome *o, size_t journal_len)
{
    lend(&o->memory, setup.memory, setup.memory_len);
    lend(&o->record, setup.record, setup.record_len);
    lend(&o->events, setup.events, setup.events_len);
    lend(&o->log, setup.log, setup.log_len);
    lend(&o->journal, journal, journal_len);
    o->deepest = ANY_DEPTH;
    o->kept = 0;
    o->place = first;
}

static uint64_t advance(struct outcome *o, uint8_t *log, size_t log_len, uint64_t n)
{
    return xm23_run_journal(o->memory.at, o->memory.length, o->record.at, o->record.length, o->events.at,
                            o->events.length, log, log_len, &o->deepest, o->journal.at, o->journal.length, &o->kept,
                            &o->place, n);
}

static uint32_t back(struct outcome *o, uint64_t k)
{
    return xm23_back(o->memory.at, o->memory.length, o->record.at, o->record.length, o->journal.at, o->journal.length,
                     &o->kept, &o->place, k);
}

static int all_guarded(const struct outcome *o)
{
    return guarded(&o->memory) && guarded(&o->record) && guarded(&o->events) && guarded(&o->log) &&
           guarded(&o->journal);
}

/* The run by the interpreter, of so many steps and with a log long enough for them. */
static void reference(uint64_t n)
{
    lend_all(&interpreter, XM23_JOURNAL_SIZE);
    xm23_fast_run(interpreter.memory.at, setup.memory_len, interpreter.record.at, setup.record_len,
                  interpreter.events.at, setup.events_len, enough, sizeof enough, &interpreter.deepest, n);
}

static void check_state(const char *what)
{
    check(what, holds(&library.record, interpreter.record.at) && holds(&library.memory, interpreter.memory.at));
}

/* Goes back k of the steps done, and on again. */
static void check_back(uint32_t steps, uint64_t k)
{
    static uint8_t memory[LONGEST_MEMORY], record[LONGEST_RECORD], bytes[sizeof journal];
    uint32_t kept = library.kept, place = library.place;
    memcpy(memory, library.memory.at, setup.memory_len);
    memcpy(record, library.record.at, setup.record_len);
    memcpy(bytes, library.journal.at, library.journal.length);
    check("15", back(&library, (uint64_t)kept + 1) == XM23_REFUSED_BACK);
    check("the numbers as they were", library.kept == kept && library.place == place);
    check("going back", back(&library, k) == XM23_ACCEPTED);
    check("the journal's bytes", holds(&library.journal, bytes));
    check("both numbers", library.kept == kept - k && library.place == (place + records - k % records) % records);
    reference(steps - k);
    check_state("so many steps back");
    check("on again", XM23_RUN_STEPS(advance(&library, enough, sizeof enough, k)) == k);
    check("the same memory", holds(&library.memory, memory) && holds(&library.record, record));
    check("the numbers again", library.place == place && library.kept == kept);
}

int LLVMFuzzerTestOneInput(const uint8_t *data, size_t size)
{
    uint64_t reply, right;
    uint32_t steps;
    if (!library.memory.end) {
        make_all(&library);
        make_all(&interpreter);
        memset(journal, 0xC3, sizeof journal);
    }
    unpack(&setup, data, size);
    records = 1 + setup.slice % MOST_RECORDS;
    first = setup.slice / MOST_RECORDS % records;
    lend_all(&library, XM23_JOURNAL_SIZE * records);
    lend_all(&interpreter, XM23_JOURNAL_SIZE);
    reply = advance(&library, library.log.at, library.log.length, setup.n);
    right = xm23_fast_run(interpreter.memory.at, setup.memory_len, interpreter.record.at, setup.record_len,
                          interpreter.events.at, setup.events_len, interpreter.log.at, setup.log_len,
                          &interpreter.deepest, setup.n);
    check("the reply", reply == right);
    check("the log and the depth", holds(&library.log, interpreter.log.at) && library.deepest == interpreter.deepest);
    check_state("the run");
    steps = XM23_RUN_STEPS(reply);
    for (uint32_t i = 0; i < records; i++)
        check("places not reached",
              (i + records - first) % records < steps ||
                  !memcmp(library.journal.at + XM23_JOURNAL_SIZE * i, journal, XM23_JOURNAL_SIZE));
    check("the numbers", library.place == (first + steps) % records &&
                             library.kept == (steps < records ? steps : records));
    check("bytes around a buffer", all_guarded(&library));
    if (XM23_RUN_REFUSAL(reply) || setup.n > 1024)
        return 0;
    check_back(steps, setup.slice % (library.kept + 1));
    check_back(steps, library.kept);
    /* A journal one byte too long is refused last of all, and nothing changes. */
    lend_all(&library, XM23_JOURNAL_SIZE * records + 1);
    reply = advance(&library, library.log.at, library.log.length, setup.n);
    check("14", reply == XM23_REFUSED_JOURNAL && library.deepest == ANY_DEPTH && library.place == first);
    check("14 with a change", holds(&library.memory, setup.memory) && holds(&library.log, setup.log));
    check("bytes around a buffer", all_guarded(&library));
    return 0;
}
